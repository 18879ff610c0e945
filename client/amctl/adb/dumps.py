"""`dumpsys activity`, `dumpsys package` and `dumpsys window`."""
from collections.abc import Callable, Iterator, Mapping
from dataclasses import dataclass
from typing import ClassVar

from amctl import words_adb
from amctl.adb.command import Leaves
from amctl.adb.console import Console, NotServed
from amctl.adb.flags import number_of
from amctl.adb.installed import Installed, find, installed
from amctl.adb.intents import short, summary
from amctl.adb.options import Words
from amctl.adb.phone import Phone
from amctl.device import Refusal
from amctl.devicefile import Component, Filter, Kind
from amctl.errors import BadWords
from amctl.intents import Intent
from amctl.results import Instance, Item, Result, Task

Part = Callable[[Phone, str | None], Iterator[str]]
TABLES: tuple[tuple[Kind, str], ...] = (("activity", "Activity"), ("receiver", "Receiver"), ("service", "Service"))
PATH_KINDS = {"path": "LITERAL", "pathPrefix": "PREFIX", "pathPattern": "GLOB", "pathSuffix": "SUFFIX"}


@dataclass(frozen=True)
class Dump:
    """A part of `dumpsys`, of one package if one is named."""

    leaves: ClassVar[Leaves] = "nothing"

    part: str
    package: str | None = None

    @classmethod
    def read(cls, words: Words, name: str) -> "Dump":
        service, first, second = words.bare(), words.bare() or "", words.bare()
        if service == "activity" and first in ACTIVITY_PARTS:
            return cls(ACTIVITY_PARTS[first], second)
        if service == "activity" and not first:
            return cls("all")
        if service == "package" and first and not first.startswith("-"):
            return cls("package", first)
        if service == "window" and first in WINDOW_PARTS:
            return cls("window")
        raise NotServed(words_adb.no_dump(f"{service or ''} {first}".strip()))

    @classmethod
    def read_package(cls, words: Words, name: str) -> "Dump":
        """`pm dump PACKAGE`."""
        return cls("package", words.value())

    def run(self, phone: Phone, console: Console) -> int:
        for line in PARTS[self.part](phone, self.package):
            console.say(line)
        return 0


def _activities(phone: Phone, package: str | None) -> Iterator[str]:
    yield "ACTIVITY MANAGER ACTIVITIES (dumpsys activity activities)"
    yield "Display #0 (activities from top to bottom):"
    tasks = phone.device.system.tasks()
    for index, task in enumerate(tasks):
        if package is None or any(_is_of(it, package) for it in task.instances):
            yield from _task(task, is_front=index == 0)
    if tasks:
        yield f"  ResumedActivity: {_record(tasks[0].instances[-1], tasks[0])}"


def _task(task: Task, *, is_front: bool) -> Iterator[str]:
    root, top = task.instances[0], task.instances[-1]
    visible = str(is_front).lower()
    state = f"visible={visible} visibleRequested={visible} mode=fullscreen translucent=false sz={len(task.instances)}"
    yield f"  * Task{{{task.task:x} #{task.task} type=standard I={short(root.component)} U=0 {state}}}"
    if is_front:
        yield f"    mResumedActivity: {_record(top, task)}"
    for place, instance in reversed(list(enumerate(task.instances))):
        yield f"    * Hist #{place}: {_record(instance, task)}"
        yield f"      packageName={instance.component.partition('/')[0]}"
        yield f"      Intent {{ {_summary(instance.intent)} }}"


def _record(instance: Instance, task: Task) -> str:
    return f"ActivityRecord{{{instance.instance:x} u0 {short(instance.component)} t{task.task}}}"


def _is_of(instance: Instance, package: str) -> bool:
    return instance.component.startswith(f"{package}/")


def _services(phone: Phone, package: str | None) -> Iterator[str]:
    yield "ACTIVITY MANAGER SERVICES (dumpsys activity services)"
    found = [it for it in phone.device.system.services() if package is None or it.component.startswith(f"{package}/")]
    yield "  User 0 active services:" if found else "  (nothing)"
    for number, service in enumerate(found, 1):
        yield f"  * ServiceRecord{{{number:x} u0 {short(service.component)}}}"
        yield f"    intent={{{_summary(service.intent, safe=False)}}}"
        yield f"    packageName={service.component.partition('/')[0]}"
        yield f"    startRequested=true delayedStop=false stopIfKilled=false callStart=true lastStartId={service.starts}"


def _broadcasts(phone: Phone, package: str | None) -> Iterator[str]:
    """The broadcasts that some app still has to finish."""
    yield "ACTIVITY MANAGER BROADCAST STATE (dumpsys activity broadcasts)"
    waiting: dict[int, tuple[Intent, bool, list[str]]] = {}
    for name in dict.fromkeys(it.name for it in installed(phone) if package in (None, it.name)):
        for item in _inbox(phone, name):
            if not isinstance(item, Result):
                entry = waiting.setdefault(item.broadcast, (item.intent, item.ordered, []))
                entry[2].append(item.to if isinstance(item.to, str) else f"{name} #{item.to}")
    if not waiting:
        yield "  (nothing)"
    for place, (broadcast, (intent, ordered, receivers)) in enumerate(sorted(waiting.items())):
        queue = "foreground" if "FOREGROUND" in intent.flags else "background"
        yield f"  Active {'Ordered Broadcast' if ordered else 'Broadcast'} {queue} #{place}:"
        yield f"    BroadcastRecord{{{broadcast:x} u0 {intent.action}}} to user 0"
        yield f"    Intent {{ {_summary(intent)} }}"
        yield from (f"    Receiver #{at}: {short(it)}" for at, it in enumerate(receivers))


def _inbox(phone: Phone, package: str) -> tuple[Item, ...]:
    try:
        return phone.device.app(package).inbox()
    except (BadWords, Refusal):
        # another client gave this package a key of its own
        return ()


def _package(phone: Phone, package: str | None) -> Iterator[str]:
    found = find(phone, package or "")
    if found is None:
        yield "Dexopt state:"
        yield f"  Unable to find package: {package}"
        return
    for kind, title in TABLES:
        yield from _resolver_table(found, kind, title)
    yield "Packages:"
    yield f"  Package [{found.name}] ({found.uid or 0:x}):"
    if found.uid is not None:
        yield f"    userId={found.uid}"
    yield "    User 0: installed=true hidden=false suspended=false enabled=0"
    yield "      runtime permissions:"
    yield from (f"        {it}: granted=true" for it in sorted(found.grants))


def _resolver_table(package: Installed, kind: Kind, title: str) -> Iterator[str]:
    rows = [(component, it) for component in package.components if component.kind == kind and component.enabled for it in component.filters]
    groups = _by_action(rows)
    if groups:
        yield f"{title} Resolver Table:"
        for heading, actions in groups.items():
            yield f"  {heading}:"
            for action, found in actions.items():
                yield f"      {action}:"
                for component, it in found:
                    yield f"        {package.uid or 0:x} {short(component.component)} filter"
                    yield from (f"          {line}" for line in _filter_lines(it))
        yield ""


Groups = dict[str, dict[str, list[tuple[Component, Filter]]]]


def _by_action(rows: list[tuple[Component, Filter]]) -> Groups:
    """The filters by what Android's resolver looks them up by: types, schemes, or only actions."""
    groups: Groups = {}
    for component, it in rows:
        if not it.actions:
            continue
        types = _values(it, "mimeType")
        schemes = _values(it, "scheme")
        heading, keys = ("Full MIME Types", types) if types else ("Schemes", schemes) if schemes else ("Non-Data Actions", it.actions)
        for key in keys:
            groups.setdefault(heading, {}).setdefault(key, []).append((component, it))
    return groups


def _values(it: Filter, key: str) -> tuple[str, ...]:
    return tuple(dict.fromkeys(str(row[key]) for row in it.data if key in row))


def _filter_lines(it: Filter) -> Iterator[str]:
    yield from (f'Action: "{action}"' for action in it.actions)
    yield from (f'Category: "{category}"' for category in it.categories)
    yield from (f'Scheme: "{scheme}"' for scheme in _values(it, "scheme"))
    yield from (f'Authority: "{row["host"]}": {row.get("port", -1)}' for row in it.data if "host" in row)
    yield from (f'Path: "PatternMatcher{{{PATH_KINDS[key]}: {row[key]}}}"' for row in it.data for key in PATH_KINDS if key in row)
    yield from (f'StaticType: "{it}"' for it in _values(it, "mimeType"))
    if it.priority:
        yield f"mPriority={it.priority}, mHasStaticPartialTypes=false"


def _all(phone: Phone, package: str | None) -> Iterator[str]:
    """What `dumpsys activity` alone prints, as far as it is simulated."""
    for part in (_broadcasts, _services, _activities):
        yield from part(phone, package)
        yield ""


def _top(phone: Phone, package: str | None) -> Iterator[str]:
    """The activity in front."""
    for task in phone.device.system.tasks()[:1]:
        top = task.instances[-1]
        yield f"TASK {top.component.partition('/')[0]} id={task.task} userId=0"
        yield f"  ACTIVITY {short(top.component)} {top.instance:x} pid=0"


def _window(phone: Phone, package: str | None) -> Iterator[str]:
    """The window that has the focus: that of the activity in front."""
    yield "WINDOW MANAGER WINDOWS (dumpsys window windows)"
    tasks = phone.device.system.tasks()
    if not tasks:
        yield "  mCurrentFocus=null"
        return
    top = tasks[0].instances[-1]
    yield f"  mCurrentFocus=Window{{{top.instance:x} u0 {top.component}}}"
    yield f"  mFocusedApp={_record(top, tasks[0])}"


def _summary(intent: Intent, *, safe: bool = True) -> str:
    return summary(intent, number_of(intent.flags), has_extras=bool(intent.extras) and safe, safe=safe)


ACTIVITY_PARTS: Mapping[str, str] = {
    **dict.fromkeys(("activities", "a"), "activities"),
    **dict.fromkeys(("services", "s"), "services"),
    **dict.fromkeys(("broadcasts", "b"), "broadcasts"),
    "top": "top",
}
WINDOW_PARTS = ("", "windows", "w", "displays", "d")
PARTS: Mapping[str, Part] = {
    **{"all": _all, "activities": _activities, "services": _services, "broadcasts": _broadcasts},
    **{"package": _package, "top": _top, "window": _window},
}
