"""The text of the device file: what was learnt, and in comments at its place what wasn't."""
import dataclasses
import secrets
from collections.abc import Sequence
from dataclasses import dataclass

from amctl import words_phone
from amctl.apps import sayable
from amctl.apps.device import DEVICE_BYTES, PROTECTED_LIMIT
from amctl.apps.filters import few
from amctl.apps.manifests import GRANT_LIMIT
from amctl.apps.sayable import Unsayable
from amctl.apps.told import Place, Report, shown
from amctl.apps.toml import ended, package_text, pairs
from amctl.devicefile import ANDROID_12
from amctl.phone.asked import Learnt, Whole

LINK_LIMIT = 256
KEY_BYTES = 16


def draw_key() -> str:
    return secrets.token_hex(KEY_BYTES)


@dataclass(frozen=True)
class Written:
    """The text of a device file, and the packages that it has."""

    text: str
    names: tuple[str, ...]


def written(whole: Whole, packages: Sequence[Learnt], beyond: Sequence[str]) -> Written:
    """The device file. `beyond` are the packages for which it has no room."""
    asked = {it.permission for package in packages if package.declared for it in package.declared.components if it.permission}
    parts, names = [_head(whole)], list[str]()
    size = len(parts[0].encode())
    left = list(beyond)
    for package in packages:
        text = _package(package, asked)
        if size + len(text.encode()) > DEVICE_BYTES:
            left.append(package.name)
            continue
        parts.append(text)
        size += len(text.encode())
        names += [package.name] if package.declared else []
    if left:
        parts.append(ended(["", *comments([words_phone.beyond(it) for it in left])]))
    return Written("".join(parts), tuple(names))


def comments(sentences: Sequence[str]) -> list[str]:
    """A line each: what can't be printed, such as the end of a line, is written as an escape."""
    return [f"# {''.join(c if c.isprintable() else c.encode('unicode_escape').decode() for c in it)}" for it in sentences]


def _head(whole: Whole) -> str:
    protected = (whole.protected or [])[:PROTECTED_LIMIT]
    dropped = len(whole.protected or []) - len(protected)
    lines = comments(words_phone.head(whole.serial, whole.release, whole.level))
    # who reads a phone wants a phone's answers
    lines += ["", *pairs(rules=ANDROID_12, system_key=draw_key())]
    lines += [*_said(whole, "browser"), *pairs(browser=whole.browser)]
    lines += [*_said(whole, "protected"), *(comments([words_phone.too_many_protected(dropped)]) if dropped else []), *pairs(protected=protected)]
    return ended([*lines, *_said(whole, "exempt")])


def _said(whole: Whole, key: str) -> list[str]:
    return comments(whole.said.get(key, []))


def _package(package: Learnt, asked: set[str]) -> str:
    """A package, or why it isn't there; `asked` are the permissions for which some component asks."""
    if package.declared is None:
        return ended(["", *comments(package.said)])
    report = Report()
    place = Place(report, package.name, package.name)
    # what somebody asks for comes first, since no more than the limit can be written
    held = sorted(_texts(package.declared.grants, "grant", place), key=lambda it: it not in asked)
    declared = dataclasses.replace(package.declared, grants=few(held, GRANT_LIMIT, "grants", place))
    hosts = few((it.lower() for it in _texts(package.hosts, "link", place)), LINK_LIMIT, "links", place)
    said = comments([*package.said, *(it.words for it in report.told)])
    links = [line for host in hosts for line in ("", "[[link]]", *pairs(package=package.name, host=host))]
    return ended(["", *said]) + package_text(declared, draw_key()).removeprefix("\n") + ended(links)


def _texts(values: Sequence[str], what: str, place: Place) -> list[str]:
    found = []
    for value in values:
        try:
            found.append(sayable.text(value))
        except Unsayable as why:
            place.left_out(f"{what} of {shown(value)}", why)
    return found
