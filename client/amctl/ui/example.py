"""The question with which the page begins: an intent that a filter of the device is made for. Who gets it is `am`'s answer."""
from collections.abc import Iterator, Mapping
from typing import Any

from amctl.android import DEFAULT
from amctl.check.witness import encoded, host_of, paths_of, types_of
from amctl.devicefile import SYSTEM, Component, DeviceFile, Filter
from amctl.intents import VIEW


def example(file: DeviceFile) -> dict[str, str]:
    """The fields of the form, filled in from the filter that makes the most of a question."""
    first = max(_filters(file), key=_worth, default=None)
    if first is None:
        return {"from": SYSTEM, "kind": "activity", "action": VIEW}
    component, filter = first
    caller = next((it for it in file.names if it != component.package), SYSTEM)
    action = VIEW if VIEW in filter.actions else filter.actions[0]
    return {"from": caller, "kind": component.kind, "action": action, **_data(filter.data)}


def _filters(file: DeviceFile) -> Iterator[tuple[Component, Filter]]:
    for component in (it for package in file.packages for it in package.components):
        if component.enabled:
            yield from ((component, it) for it in component.filters if it.actions)


def _worth(found: tuple[Component, Filter]) -> tuple[bool, bool, bool, bool]:
    """Links are what most people ask about, and then whatever other apps may start."""
    component, filter = found
    return any("host" in it for it in filter.data), component.kind != "service", bool(component.exported), DEFAULT in filter.categories


def _data(rows: tuple[Mapping[str, Any], ...]) -> dict[str, str]:
    """A URI and a type that the rows of a filter take."""
    first = {key: value for row in reversed(rows) for key, value in row.items()}
    found = {"data": _uri(str(first["scheme"]), first)} if "scheme" in first else {}
    return found | ({"type": types_of(str(first["mimeType"]), ())[0]} if "mimeType" in first else {})


def _uri(scheme: str, first: Mapping[str, Any]) -> str:
    path = encoded(next(paths_of(first), "/"))
    return f"{scheme}://{host_of(str(first['host']))}{path}" if "host" in first else f"{scheme}:any"
