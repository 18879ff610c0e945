"""The view Now: tasks, live broadcasts, services and registered receivers."""
from collections.abc import Iterator, Mapping
from dataclasses import dataclass, field
from typing import Any

from amctl import words, words_ui
from amctl.device import Device, Refusal
from amctl.intents import Intent, IntentFilter
from amctl.results import Delivery, Item, OrderedDelivery, Result
from amctl.ui.past import Keys, Replay


@dataclass(frozen=True)
class Waiting:
    """What waits in an inbox, and whose it is."""

    owner: str
    item: Item


def waiting(device: Device, keys: Keys) -> tuple[Waiting, ...]:
    """All that waits for callers whose keys are known. Looking into an inbox is stored nowhere."""
    return tuple(Waiting(keys.name(uid), it) for uid, key in keys.of_uid.items() for it in _inbox(device, key, keys.name(uid)))


def _inbox(device: Device, key: str, name: str) -> tuple[Item, ...]:
    try:
        return device.with_key(key, name).inbox()
    except Refusal:
        # the package is gone
        return ()


def tasks(device: Device) -> list[dict[str, Any]]:
    """The tasks, front first, each with its top first."""
    return [
        {
            "task": task.task,
            "instances": [
                {"instance": it.instance, "component": words.shown(it.component), "intent": words.intent(it.intent)} for it in reversed(task.instances)
            ],
        }
        for task in device.system.tasks()
    ]


def services(device: Device) -> list[dict[str, str]]:
    return [dict(zip(("component", "starts", "intent"), words.service(it))) for it in device.system.services()]


def deliveries(found: tuple[Waiting, ...]) -> set[int]:
    """The deliveries that wait; results have no deadline."""
    return {it.item.delivery for it in found if not isinstance(it.item, Result)}


def deadlines(copy: Replay) -> dict[int, int]:
    """When each live delivery is late: the copy is led from deadline to deadline, and a delivery that is gone then had this one."""
    left = deliveries(waiting(copy.device, copy.keys))
    found: dict[int, int] = {}
    due = copy.advance(0)
    while due is not None and left:
        next_due = copy.advance(due - copy.moment)
        gone = left - deliveries(waiting(copy.device, copy.keys))
        found |= dict.fromkeys(gone, due)
        left, due = left - gone, next_due
    return found


@dataclass(frozen=True)
class Due:
    """After so many calls: the earliest deadline, and that of each live delivery as far as it is known."""

    calls: int
    next: int | None = None
    of: Mapping[int, int] = field(default_factory=dict)


def broadcasts(found: tuple[Waiting, ...], sent: Mapping[int, list[str]], due: Mapping[int, int], moment: int) -> list[dict[str, Any]]:
    """The live broadcasts; of an ordered one, whose turn it is, and who comes before and after, as the replay tells."""
    live: dict[int, list[Waiting]] = {}
    for it in found:
        if not isinstance(it.item, Result):
            live.setdefault(it.item.broadcast, []).append(it)
    return [_broadcast(number, live[number], sent.get(number, []), due, moment) for number in sorted(live)]


def _broadcast(number: int, found: list[Waiting], admitted: list[str], due: Mapping[int, int], moment: int) -> dict[str, Any]:
    first = found[0].item
    assert not isinstance(first, Result)
    is_ordered = isinstance(first, OrderedDelivery)
    rows = [_turn(it, due, moment) for it in found]
    if is_ordered:
        rows = [*_others(admitted, rows[0]["to"], before=True), *rows, *_others(admitted, rows[0]["to"], before=False)]
    return {"broadcast": number, "ordered": is_ordered, "intent": words.intent(first.intent), "rows": rows}


def _turn(found: Waiting, due: Mapping[int, int], moment: int) -> dict[str, str]:
    item = found.item
    assert isinstance(item, (Delivery, OrderedDelivery))
    is_ordered = isinstance(item, OrderedDelivery)
    so_far = words.item(item)[2].rpartition(", so far ")[2] if is_ordered else ""
    left = words_ui.deadline(due[item.delivery], moment) if item.delivery in due else ""
    return {"to": words.shown(item.to), "state": "turn" if is_ordered else "gets", "left": left, "so_far": so_far}


def _others(admitted: list[str], turn: str, *, before: bool) -> list[dict[str, str]]:
    if turn not in admitted:
        return []
    at = admitted.index(turn)
    names = admitted[:at] if before else admitted[at + 1 :]
    return [{"to": it, "state": "done" if before else "waits", "left": "", "so_far": ""} for it in names]


def outcomes(found: tuple[Waiting, ...]) -> list[str]:
    """The results that wait for the senders of ordered broadcasts."""
    return [f"{it.owner}: {words.item(it.item)[2]}" for it in found if isinstance(it.item, Result)]


def registered(device: Device, known: Mapping[int, tuple[str, IntentFilter]]) -> list[dict[str, Any]]:
    """The registered receivers that there are, with what the history tells of each."""
    numbers = [it.to for it in device.system.explain("receiver", Intent(package="android")) if isinstance(it.to, int)]
    return [_registered(it, known.get(it)) for it in numbers]


def _registered(number: int, known: tuple[str, IntentFilter] | None) -> dict[str, Any]:
    owner, line = ("", "") if known is None else (known[0], words_ui.registered_line(known[1]))
    return {"number": number, "owner": owner, "filter": line}


def lines(device: Device, keys: Keys) -> list[str]:
    """All that the page shows of a moment, a line each, to see what a call changes."""
    return [*_task_lines(device), *(" ".join(words.service(it)) for it in device.system.services()), *_waiting_lines(device, keys)]


def _task_lines(device: Device) -> Iterator[str]:
    for task in device.system.tasks():
        yield from (" ".join(words.instance(task.task, it)) for it in task.instances)


def _waiting_lines(device: Device, keys: Keys) -> Iterator[str]:
    for it in waiting(device, keys):
        number, to, what = words.item(it.item)
        yield f"delivery {number} for {it.owner if isinstance(it.item, Result) else to}, {what}"


def changed(before: list[str], after: list[str]) -> list[str]:
    """What is there now and wasn't, and what is no longer there."""
    return [*(words_ui.appeared(it) for it in after if it not in before), *(words_ui.vanished(it) for it in before if it not in after)]
