"""The text of a package in TOML."""
from typing import Any

from amctl.apps.components import Component
from amctl.apps.filters import Filter
from amctl.apps.manifests import Package

COMPONENT_KINDS = ("activity", "service", "receiver")
IN_DEVICE = "package.manifest."
CONTROLS = {code: f"\\u{code:04X}" for code in (*range(0x20), 0x7F)}
ESCAPES = CONTROLS | str.maketrans({'"': '\\"', "\\": "\\\\", "\n": "\\n", "\t": "\\t", "\r": "\\r"})


def string(text: str) -> str:
    return f'"{text.translate(ESCAPES)}"'


def value(item: Any) -> str:
    """A value as TOML writes it in one line."""
    if isinstance(item, bool):
        return "true" if item else "false"
    if isinstance(item, int):
        return str(item)
    if isinstance(item, str):
        return string(item)
    if isinstance(item, dict):
        return "{ " + ", ".join(f"{key} = {value(entry)}" for key, entry in item.items()) + " }"
    return "[" + ", ".join(map(value, item)) + "]"


def pairs(**items: Any) -> list[str]:
    """The lines of a table's keys, without those that have nothing to say."""
    return [f"{key} = {value(item)}" for key, item in items.items() if item not in (None, [])]


def ended(lines: list[str]) -> str:
    return "".join(line + "\n" for line in lines)


def filter_lines(read: Filter) -> list[str]:
    lines = pairs(action=read.actions, category=read.categories, priority=read.priority or None)
    if len(read.rows) == 1:
        return lines + pairs(data=read.rows)
    if read.rows:
        lines += ["data = ["] + [f"    {value(row)}," for row in read.rows] + ["]"]
    return lines


def component_lines(component: Component, before: str) -> list[str]:
    header = f"{before}{component.kind}"
    lines = ["", f"[[{header}]]"]
    lines += pairs(
        name=component.name,
        exported=component.exported,
        enabled=None if component.enabled else False,
        permission=component.permission,
        launchMode=component.launch_mode,
        taskAffinity=component.affinity,
    )
    for read in component.filters:
        lines += ["", f"[[{header}.intent-filter]]"] + filter_lines(read)
    return lines


def queries_lines(package: Package, before: str) -> list[str]:
    if not package.query_names and not package.query_intents:
        return []
    lines = ["", f"[{before}queries]"] + pairs(package=package.query_names)
    for signature in package.query_intents:
        lines += ["", f"[[{before}queries.intent]]"] + pairs(**signature)
    return lines


def manifest_lines(package: Package, before: str) -> list[str]:
    """The lines of a manifest; `before` comes before the names of its tables."""
    lines = pairs(package=package.name)
    for kind in COMPONENT_KINDS:
        for component in package.components:
            if component.kind == kind:
                lines += component_lines(component, before)
    return lines + queries_lines(package, before)


def manifest_text(package: Package) -> str:
    """The text of a manifest that is installed by itself."""
    return ended(manifest_lines(package, ""))


def package_text(package: Package, key: str) -> str:
    """The text of a package in a device file, and of what is granted to it."""
    lines = ["", "[[package]]", *pairs(key=key), "", "[package.manifest]", *manifest_lines(package, IN_DEVICE)]
    for permission in package.grants:
        lines += ["", "[[grant]]", *pairs(package=package.name, permission=permission)]
    return ended(lines)
