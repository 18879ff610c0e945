"""Witnesses: values that a filter's host, path rule or type takes, so that there is an intent to ask with.

They choose what is asked, and decide nothing: whether a filter takes the intent is `am`'s answer.
"""
import re
from collections.abc import Iterable, Iterator, Mapping
from typing import Any

ANY = "any"
PATH_KEYS = ("path", "pathPrefix", "pathSuffix", "pathPattern")


def host_of(host: str) -> str:
    """A host that a filter's host takes."""
    if not host.startswith("*"):
        return host
    return f"{ANY}{host[1:]}" if len(host) > 1 else f"{ANY}.example"


def takes_host(pattern: str, host: str) -> bool:
    return host.lower().endswith(pattern[1:].lower()) if pattern.startswith("*") else host.lower() == pattern.lower()


def paths_of(row: Mapping[str, Any]) -> Iterator[str]:
    """A path for each rule of a data row."""
    for key in PATH_KEYS:
        value = row.get(key)
        if isinstance(value, str):
            yield _path(key, value)


def _path(key: str, value: str) -> str:
    found = {"path": value, "pathPrefix": f"{value}{ANY}", "pathSuffix": f"/{ANY}{value}"}.get(key) or pattern_path(value)
    return found if found.startswith("/") else f"/{found}"


def pattern_path(pattern: str) -> str:
    """A path that a pattern takes: each character once, even if `*` repeats it."""
    path, at = "", 0
    while at < len(pattern):
        char = pattern[at]
        is_escaped = char == "\\" and at + 1 < len(pattern)
        at += 1
        if is_escaped:
            char = pattern[at]
            at += 1
        elif char == ".":
            char = _any_of_pattern(pattern, at)
        path += char
        # what `*` repeats is there once; with nothing before it, it is literal
        at += 1 if at < len(pattern) and pattern[at] == "*" else 0
    return path


def _any_of_pattern(pattern: str, at: int) -> str:
    """What stands for a dot that ends here. For `.*` a phone goes to the first character like the next one, and never back."""
    if pattern[: at - 1].endswith(".*"):
        return "."
    after = pattern[at + 1 :].removeprefix("\\") if pattern[at : at + 1] == "*" else ""
    return "b" if after.startswith("a") else "a"


def types_of(mime: str, others: Iterable[str]) -> tuple[str, ...]:
    """Types that a filter's type takes: of a wildcard one of its own, and those that other filters name."""
    if not mime.endswith("/*"):
        return (mime,)
    main = mime.partition("/")[0]
    own = f"{ANY}/{ANY}" if main == "*" else f"{main}/{ANY}"
    named = [it for it in others if "*" not in it and (main == "*" or it.startswith(f"{main}/"))]
    return tuple(dict.fromkeys((own, *named)))


def encoded(path: str) -> str:
    """A path as a URI has it."""
    return re.sub(r"[^A-Za-z0-9/._~!$&'()*+,;=:@-]", lambda it: "".join(f"%{byte:02X}" for byte in it[0].encode()), path)
