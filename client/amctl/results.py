"""What `am` answers, as values. Fields have the names of docs/HTTP.md; one that a reply may leave out is None there."""
import dataclasses
import functools
from collections.abc import Callable, Mapping
from dataclasses import dataclass
from typing import Any, ClassVar, TypeVar

from amctl.errors import OtherAnswer
from amctl.intents import Extra, Intent

To = str | int
Found = TypeVar("Found")


@dataclass(frozen=True)
class Account:
    """Whether an intent would reach a component, `package/class`, or a registered receiver, and if not, why."""

    to: To
    verdict: str
    name: str | None = None
    reasons: tuple[str, ...] | None = None
    by: str | None = None


@dataclass(frozen=True)
class Choose:
    """Several activities share the greatest priority, so the user would choose; nothing was started."""

    choose: tuple[str, ...]


@dataclass(frozen=True)
class Placed:
    """Where a start ended: `fresh`, `new_intent` or `fronted`."""

    instance: int
    placed: str
    task: int


@dataclass(frozen=True)
class Instance:
    component: str
    instance: int
    intent: Intent


@dataclass(frozen=True)
class Task:
    """A task, its instances from root to top."""

    instances: tuple[Instance, ...]
    task: int


@dataclass(frozen=True)
class Started:
    component: str
    starts: int


@dataclass(frozen=True)
class Service:
    component: str
    intent: Intent
    starts: int


@dataclass(frozen=True)
class Receiver:
    """A receiver of a broadcast: `admitted`, or the rule by which it is skipped."""

    to: To
    verdict: str
    name: str | None = None


@dataclass(frozen=True)
class Sent:
    broadcast: int
    receivers: tuple[Receiver, ...]


@dataclass(frozen=True)
class Delivery:
    """A delivery of a normal broadcast."""

    broadcast: int
    delivery: int
    intent: Intent
    to: To
    ordered: ClassVar[bool] = False


@dataclass(frozen=True)
class OrderedDelivery:
    """A delivery of an ordered broadcast, with the result so far."""

    broadcast: int
    code: int
    data: str | None
    delivery: int
    extras: Mapping[str, Extra] = dataclasses.field(hash=False)
    intent: Intent
    to: To
    ordered: ClassVar[bool] = True


@dataclass(frozen=True)
class Result:
    """The result of the ordered broadcast of that number."""

    code: int
    data: str | None
    delivery: int
    extras: Mapping[str, Extra] = dataclasses.field(hash=False)
    result: int


Item = Delivery | OrderedDelivery | Result


@dataclass(frozen=True)
class Entry:
    """A stored call. The request of an installation has the package's key."""

    at: int
    desk: int
    kept: bool
    now: int
    request: Mapping[str, Any] = dataclasses.field(repr=False, hash=False)
    route: str
    uid: int
    weight: int


@dataclass(frozen=True)
class Advanced:
    """The moment, and the earliest deadline of a live broadcast, if there is one, in milliseconds."""

    due: int | None
    now: int


@dataclass(frozen=True)
class Status:
    history: int
    moment: int
    packages: int


def _made(kind: type[Found], fields: Mapping[str, Any]) -> Found:
    """A result of its fields; a field that this client doesn't know is left out."""
    # a dataclass has the names of its fields there
    known: tuple[str, ...] = getattr(kind, "__match_args__")
    return kind(**{name: value for name, value in fields.items() if name in known})


def _reader(read: Callable[[Mapping[str, Any]], Found]) -> Callable[[Mapping[str, Any]], Found]:
    """Reads a reply; one of another form is an error, at whatever place that shows."""

    @functools.wraps(read)
    def checked(body: Mapping[str, Any]) -> Found:
        try:
            return read(body)
        except (KeyError, TypeError, ValueError, AttributeError):
            # the sentences name these results
            from amctl import words

            raise OtherAnswer(words.OTHER_ANSWER) from None

    return checked


@_reader
def components_of(body: Mapping[str, Any]) -> tuple[str, ...]:
    return tuple(body["components"])


@_reader
def finished_of(body: Mapping[str, Any]) -> int | None:
    finished: int | None = body["finished"]
    return finished


@_reader
def number_of(body: Mapping[str, Any]) -> int:
    return int(body["number"])


@_reader
def token_of(body: Mapping[str, Any]) -> int | None:
    token: int | None = body["token"]
    return token


@_reader
def uid_of(body: Mapping[str, Any]) -> int:
    return int(body["uid"])


@_reader
def started_of(body: Mapping[str, Any]) -> Started:
    return _made(Started, body)


@_reader
def advanced_of(body: Mapping[str, Any]) -> Advanced:
    return _made(Advanced, body)


@_reader
def status_of(body: Mapping[str, Any]) -> Status:
    return _made(Status, body)


@_reader
def accounts_of(body: Mapping[str, Any]) -> tuple[Account, ...]:
    return tuple(_account(it) for it in body["accounts"])


def _account(fields: Mapping[str, Any]) -> Account:
    return _made(Account, {**fields, "reasons": tuple(fields["reasons"])} if "reasons" in fields else fields)


@_reader
def placed_of(body: Mapping[str, Any]) -> Placed | Choose:
    return Choose(tuple(body["choose"])) if "choose" in body else _made(Placed, body)


@_reader
def done_of(body: Mapping[str, Any]) -> Placed | Choose | Started | Sent:
    """What a pending intent did: the reply of a start, a service or a broadcast."""
    if "broadcast" in body:
        return sent_of(body)
    return _made(Started, body) if "starts" in body else placed_of(body)


@_reader
def tasks_of(body: Mapping[str, Any]) -> tuple[Task, ...]:
    return tuple(Task(tuple(_made(Instance, _intent(it)) for it in task["instances"]), task["task"]) for task in body["tasks"])


@_reader
def services_of(body: Mapping[str, Any]) -> tuple[Service, ...]:
    return tuple(_made(Service, _intent(it)) for it in body["services"])


@_reader
def sent_of(body: Mapping[str, Any]) -> Sent:
    return Sent(body["broadcast"], tuple(_made(Receiver, it) for it in body["receivers"]))


@_reader
def items_of(body: Mapping[str, Any]) -> tuple[Item, ...]:
    return tuple(_item(it) for it in body["items"])


@_reader
def entries_of(body: Mapping[str, Any]) -> tuple[Entry, ...]:
    return tuple(_made(Entry, it) for it in body["entries"])


def _item(fields: Mapping[str, Any]) -> Item:
    if "result" in fields:
        return _made(Result, fields)
    return _made(OrderedDelivery, _intent(fields)) if fields["ordered"] else _made(Delivery, _intent(fields))


def _intent(fields: Mapping[str, Any]) -> dict[str, Any]:
    return {**fields, "intent": Intent.from_json(fields["intent"])}


def to_json(value: Any) -> Any:
    """A result as `am` wrote it: what may be absent and is None is left out."""
    if isinstance(value, Intent):
        return value.to_json()
    if isinstance(value, tuple):
        return [to_json(it) for it in value]
    if dataclasses.is_dataclass(value):
        ordered = {"ordered": value.ordered} if isinstance(value, (Delivery, OrderedDelivery)) else {}
        shown = {it.name: getattr(value, it.name) for it in dataclasses.fields(value) if not _is_absent(it, value)}
        return {**ordered, **{name: to_json(it) for name, it in shown.items()}}
    return dict(value) if isinstance(value, Mapping) else value


def _is_absent(field: "dataclasses.Field[Any]", value: Any) -> bool:
    return field.default is None and getattr(value, field.name) is None
