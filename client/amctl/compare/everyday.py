"""A hundred everyday questions on any device, made of its manifests.

They choose what is asked, and decide nothing. What might do harm on a phone is asked as a list, and never started or sent: a component or an
action whose name has one of the words of HARMFUL, and a start by any action but those of OPENING.
"""
import itertools
import re
from collections.abc import Iterable, Iterator, Mapping, Sequence
from dataclasses import replace
from typing import Any, TypeVar

from amctl.android import BROWSABLE, DEFAULT, LAUNCHER, MAIN, VIEW, WEB_SCHEMES
from amctl.check import witness
from amctl.check.intents import questions
from amctl.compare.lines import line_of
from amctl.compare.question import SHELL, Question
from amctl.devicefile import KINDS, Component, DeviceFile, Kind
from amctl.intents import Intent

T = TypeVar("T")
MOST = 100
FEW = 4
HARMFUL = re.compile(r"call|dial(?!og)|emergency|shut|reboot|reset|clear|wipe|erase|delete|remove|install|format|factory|provision|enroll|otp|pay|sos", re.IGNORECASE)
ACTIONS = "android.intent.action."
# what these open shows something and does nothing by itself
OPENING = tuple(f"{ACTIONS}{it}" for it in ("MAIN", "VIEW", "SEND", "SENDTO", "SEND_MULTIPLE", "EDIT", "PICK", "GET_CONTENT", "SEARCH"))
INCLUDE_STOPPED = ("INCLUDE_STOPPED",)
# hosts, paths, types and schemes that no filter lists
NO_HOST, NO_PATH, NO_TYPE, NO_SCHEME = "nobody.example", "/nowhere", "nothing/at-all", "nobody"
# action, URI and type of what any phone is asked
COMMON: tuple[tuple[str, str | None, str | None], ...] = (
    ("MAIN", None, None),
    ("VIEW", "http://www.example.org/", None),
    ("VIEW", "https://www.example.org/a/b?c=d", None),
    ("VIEW", "geo:52.5,13.4", None),
    ("VIEW", "mailto:ann@example.org", None),
    ("VIEW", "tel:5550100", None),
    ("VIEW", "sms:5550100", None),
    ("VIEW", "market://details?id=org.example", None),
    ("VIEW", "content://media/external/images/media/1", "image/jpeg"),
    ("VIEW", "content://media/external/video/media/1", "video/mp4"),
    ("VIEW", "content://media/external/audio/media/1", "audio/mpeg"),
    ("VIEW", "content://org.example/a", "application/pdf"),
    ("VIEW", "content://org.example/a", "text/plain"),
    ("VIEW", "file:///sdcard/a.txt", "text/plain"),
    ("VIEW", None, "image/png"),
    ("EDIT", "content://media/external/images/media/1", "image/jpeg"),
    ("SEND", None, "text/plain"),
    ("SEND", None, "image/jpeg"),
    ("SEND", None, "application/pdf"),
    ("SEND_MULTIPLE", None, "image/*"),
    ("SENDTO", "mailto:ann@example.org", None),
    ("SENDTO", "smsto:5550100", None),
    ("DIAL", "tel:5550100", None),
    ("PICK", None, "image/*"),
    ("PICK", "content://com.android.contacts/contacts", None),
    ("GET_CONTENT", None, "*/*"),
    ("GET_CONTENT", None, "image/*"),
    ("OPEN_DOCUMENT", None, "*/*"),
    ("SEARCH", None, None),
    ("WEB_SEARCH", None, None),
    ("SET_WALLPAPER", None, None),
    ("CREATE_SHORTCUT", None, None),
    ("BOOT_COMPLETED", None, None),
    ("TIMEZONE_CHANGED", None, None),
)


def everyday(file: DeviceFile) -> tuple[Question, ...]:
    """The questions: in turn one of each sort, and of each sort in turn one of each package."""
    return tuple(itertools.islice(_apart(_in_turn(_sorts(file))), MOST))


def _sorts(file: DeviceFile) -> list[Iterable[Question]]:
    # adb's shell asks, and can't be stopped afterwards
    packages = [it.components for it in file.packages if it.name != SHELL]
    return [
        _in_turn([_named_starts(it) for it in packages]),
        _in_turn([_lists(_of(it, "activity")) for it in packages]),
        _in_turn([_links(it) for it in packages]),
        _in_turn([_starts(it) for it in packages]),
        _in_turn([_named_broadcasts(it) for it in packages]),
        _in_turn([_lists(_of(it, "receiver")) for it in packages]),
        _launchers(file),
        _in_turn([_services(it) for it in packages]),
        _in_turn([_broadcasts(it) for it in packages]),
        _in_turn([_missed(it) for it in packages]),
        _common(),
    ]


def _in_turn(sorts: Iterable[Iterable[T]]) -> Iterator[T]:
    """The first of each, then the second of each, and so on."""
    left = [iter(it) for it in sorts]
    while left:
        for one in list(left):
            try:
                yield next(one)
            except StopIteration:
                left.remove(one)


def _apart(found: Iterable[Question]) -> Iterator[Question]:
    """Each once, with a name."""
    seen = set[str]()
    for question in found:
        line = line_of(question)
        if line not in seen:
            seen.add(line)
            yield replace(question, name=line)


def _made(component: Component) -> list[Intent]:
    """The intents that the filters of a component take, of each filter in turn. Few of its rows are used, since there are many combinations."""
    few = tuple(replace(it, actions=it.actions[:FEW], data=it.data[:FEW]) for it in component.filters)
    found: dict[str, list[Intent]] = {}
    for it in questions([replace(component, filters=few)]):
        found.setdefault(it.filter.at, []).append(replace(it.intent, flags=()))
    return list(_in_turn(found.values()))


def _is_harmless(*names: str | None) -> bool:
    return not any(HARMFUL.search(it) for it in names if it)


def _of(components: Iterable[Component], kind: Kind) -> Iterator[Component]:
    return (it for it in components if it.kind == kind)


def _named_starts(components: Iterable[Component]) -> Iterator[Question]:
    for it in _of(components, "activity"):
        if _is_harmless(it.name, *(action for filter in it.filters for action in filter.actions)):
            yield Question("start", Intent(component=it.component))


def _starts(components: Iterable[Component]) -> Iterator[Question]:
    """With the categories of the filter, since without them a list is asked for."""
    for it in _of(components, "activity"):
        whole = {(intent.action, intent.data, intent.type): intent for intent in _made(it)}
        for intent in whole.values():
            # a telephone might ring
            if intent.action in OPENING and _is_harmless(it.name) and not (intent.data or "").startswith("tel:"):
                yield Question("start", intent)


def _lists(components: Iterable[Component]) -> Iterator[Question]:
    for it in components:
        for number, intent in enumerate(made for made in _made(it) if not made.categories):
            yield Question("query", intent, it.kind, default_only=it.kind == "activity" and number % 2 == 0)


def _links(components: Iterable[Component]) -> Iterator[Question]:
    for it in _of(components, "activity"):
        for intent in _made(it):
            if intent.action == VIEW and (intent.data or "").partition(":")[0] in WEB_SCHEMES and intent.type is None:
                yield link(intent.data or "")


def link(uri: str) -> Question:
    """Which activity a tap on a link would open."""
    return Question("link", Intent(action=VIEW, data=uri, categories=(BROWSABLE,)))


def _launchers(file: DeviceFile) -> Iterator[Question]:
    for package in file.packages:
        if package.components and package.name != SHELL:
            yield Question("start", Intent(action=MAIN, categories=(LAUNCHER,), package=package.name))


def _services(components: Iterable[Component]) -> Iterator[Question]:
    for it in _of(components, "service"):
        yield Question("query", Intent(component=it.component), "service")
        for filter in it.filters:
            for action in filter.actions:
                yield Question("query", Intent(action=action), "service")


def _named_broadcasts(components: Iterable[Component]) -> Iterator[Question]:
    for it in _of(components, "receiver"):
        actions = [action for filter in it.filters for action in filter.actions]
        if _is_harmless(it.name, *actions):
            yield Question("broadcast", Intent(component=it.component, flags=INCLUDE_STOPPED), "receiver")


def _broadcasts(components: Iterable[Component]) -> Iterator[Question]:
    for it in _of(components, "receiver"):
        for filter in it.filters:
            for action in filter.actions:
                if _is_harmless(it.name, action):
                    yield Question("broadcast", Intent(action=action, flags=INCLUDE_STOPPED), "receiver")


def _missed(components: Iterable[Component]) -> Iterator[Question]:
    """Intents beside what the filters of activities list."""
    for it in _of(components, "activity"):
        for filter in it.filters:
            for action in filter.actions[:1]:
                for uri, mime in _beside(filter.data):
                    yield Question("query", Intent(action=action, data=uri, type=mime))


def _beside(rows: Sequence[Mapping[str, Any]]) -> Iterator[tuple[str | None, str | None]]:
    """A URI or a type, in which one part isn't a listed one."""
    scheme = next((str(row["scheme"]) for row in rows if "scheme" in row), None)
    host = next((witness.host_of(str(row["host"])) for row in rows if "host" in row), None)
    mime = next((str(row["mimeType"]) for row in rows if "mimeType" in row), None)
    if scheme and host:
        yield f"{scheme}://{NO_HOST}/", None
        yield f"{scheme}://{host}{NO_PATH}", None
        yield f"{NO_SCHEME}://{host}/", None
    elif scheme:
        yield f"{NO_SCHEME}:{witness.ANY}", None
    if mime:
        yield None, NO_TYPE


def _common() -> Iterator[Question]:
    for kind in KINDS:
        for action, uri, mime in COMMON:
            categories = (DEFAULT,) if kind == "activity" and mime else ()
            yield Question("query", Intent(action=ACTIONS + action, data=uri, type=mime, categories=categories), kind)
