"""Keys that no table has: `am` ignores them."""
import dataclasses
import difflib
import functools
from collections.abc import Iterator, Mapping
from typing import Any

from amctl import words_lint
from amctl.devicefile import DeviceFile
from amctl.findings.finding import Finding
from amctl.lint.finding import finding
from amctl.lint.names import is_one_off

RULE = "unknown-key"
COMPONENT = ("name", "exported", "enabled", "permission", "intent-filter")
ACTIVITY_ALONE = ("launchMode", "taskAffinity")
# each table's name in sentences, its keys, and the tables in it
KEYS: Mapping[str, tuple[str, ...]] = {
    "the device": ("rules", "system_key", "root_key", "browser", "protected", "exempt", "package", "grant", "link"),
    "a package": ("key", "manifest"),
    "a grant": ("package", "permission"),
    "a link": ("package", "host"),
    "a manifest": ("package", "activity", "service", "receiver", "queries"),
    "an activity": COMPONENT + ACTIVITY_ALONE,
    "a service": COMPONENT,
    "a receiver": COMPONENT,
    "a filter": ("action", "category", "priority", "data"),
    "the queries": ("package", "intent"),
    "an intent of the queries": ("action", "category", "scheme", "host", "mimeType"),
}
INSIDE: Mapping[str, Mapping[str, str]] = {
    "the device": {"package": "a package", "grant": "a grant", "link": "a link"},
    "a package": {"manifest": "a manifest"},
    "a manifest": {"activity": "an activity", "service": "a service", "receiver": "a receiver", "queries": "the queries"},
    **dict.fromkeys(("an activity", "a service", "a receiver"), {"intent-filter": "a filter"}),
    "the queries": {"intent": "an intent of the queries"},
}


def check(file: DeviceFile) -> Iterator[Finding]:
    yield from _table(file, file.document, "", "the device")


def _table(file: DeviceFile, table: Mapping[str, Any], at: str, what: str) -> Iterator[Finding]:
    for key, value in table.items():
        path = f"{at}.{key}" if at else key
        if key not in KEYS[what]:
            found = finding(file, path, RULE, _said(key, what))
            # the value of a misspelt `key` is a key, and isn't shown
            yield dataclasses.replace(found, shown="") if (_nearest(key, KEYS[what]) or "").endswith("key") else found
        elif key in INSIDE.get(what, {}):
            yield from _inside(file, value, path, INSIDE[what][key])


def _inside(file: DeviceFile, value: Any, path: str, what: str) -> Iterator[Finding]:
    if isinstance(value, dict):
        yield from _table(file, value, path, what)
    for index, entry in enumerate(value if isinstance(value, list) else ()):
        if isinstance(entry, dict):
            yield from _table(file, entry, f"{path}[{index}]", what)


def _said(key: str, what: str) -> str:
    if key in ACTIVITY_ALONE:
        return words_lint.activities_alone(key, what)
    near = _nearest(key, KEYS[what])
    if near:
        return words_lint.unknown_key(key, what, near)
    others = [other for other, its in KEYS.items() if key in its]
    if others:
        return words_lint.key_elsewhere(key, what, "an activity, a service or a receiver" if key in COMPONENT and "an activity" in others else others[0])
    return words_lint.unknown_key(key, what, None)


@functools.lru_cache(maxsize=4096)
def _nearest(key: str, known: tuple[str, ...]) -> str | None:
    plain = {_plain(it): it for it in known}
    one_off = [it for it in plain if is_one_off(_plain(key), it)]
    found = one_off or difflib.get_close_matches(_plain(key), list(plain), 1, 0.7)
    return plain[found[0]] if found else None


def _plain(key: str) -> str:
    return key.lower().replace("-", "").replace("_", "")
