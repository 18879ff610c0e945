"""A package: its components, what it asks for, and which packages it looks for."""
from dataclasses import dataclass, field
from typing import Any

from amctl.apps import sayable
from amctl.apps.components import KINDS, Application, Component, components_of
from amctl.apps.elements import Element, InputFault
from amctl.apps.facts import Facts, facts_of
from amctl.apps.filters import few
from amctl.apps.levels import level_of
from amctl.apps.queries import queries_of
from amctl.apps.sayable import Unsayable
from amctl.apps.told import Place, quoted
from amctl.apps.unsaid import SILENT_TAGS, tell_attributes, tell_children

SYSTEM = "android"
GRANT_LIMIT = 256
USES_PERMISSION = ("uses-permission", "uses-permission-sdk-23", "uses-permission-sdk-m")
CARRIED = ("application", "permission", "protected-broadcast", "queries", "uses-sdk", *USES_PERMISSION)
# what makes a permission one that an app doesn't ask for on every device
CONDITIONS = {
    "maxSdkVersion": "asked for only up to API level {}",
    "minSdkVersion": "asked for only from API level {} on",
    "requiredFeature": "asked for only with the feature {}",
    "requiredNotFeature": "asked for only without the feature {}",
}


@dataclass
class Package:
    """A package as a device file has it, and its facts."""

    name: str
    components: list[Component]
    asked: list[str]
    query_names: list[str]
    query_intents: list[dict[str, Any]]
    facts: Facts
    grants: list[str] = field(default_factory=list)


def condition_of(element: Element) -> str | None:
    """On which devices only a permission is asked for, or none if it is on all."""
    stated = [(key, element.get(key)) for key in CONDITIONS]
    stated += [("requiredFeature", child.get("name")) for child in element.all("required-feature")]
    stated += [("requiredNotFeature", child.get("name")) for child in element.all("required-not-feature")]
    return next((CONDITIONS[key].format(value) for key, value in stated if value is not None), None)


def asked_for(root: Element, place: Place) -> list[str]:
    """The permissions that a package asks for on every device; the others are reported."""
    found = []
    for element in root.all(*USES_PERMISSION):
        value = element.get("name")
        try:
            condition = condition_of(element)
            if condition is not None:
                raise Unsayable(condition)
            found.append(sayable.text(value))
        except Unsayable as why:
            place.left_out(f"grant of {quoted(value or '')}", why)
    return list(dict.fromkeys(found))


def grants_of(asked: list[str], with_grants: bool, place: Place) -> list[str]:
    """What is granted of what a package asks for."""
    if with_grants:
        return few(asked, GRANT_LIMIT, "grants", place)
    if asked:
        place.left_out(f"the grants that it asks for, {len(asked)} in all", "only --grant-all writes them")
    return []


def protected_of(root: Element, place: Place) -> list[str]:
    """The broadcasts that a manifest protects."""
    found = []
    for element in root.all("protected-broadcast"):
        value = element.get("name")
        try:
            found.append(sayable.text(value))
        except Unsayable as why:
            place.left_out(f"protected-broadcast {quoted(value or '')}", why)
    return found


def name_of(root: Element) -> str:
    """The name of the package, or the fault that the input has no such manifest."""
    if root.name != "manifest":
        raise InputFault(f"its root is {quoted(root.name)}, not a manifest")
    try:
        return sayable.package_name(root.plain.get("package"))
    except Unsayable as why:
        raise InputFault(f"the manifest's package: {why}") from why


def tell_root(root: Element, place: Place) -> None:
    """Reports what a manifest has apart from its components."""
    tell_attributes(root, place)
    for element in root.all("permission"):
        what = f"permission {quoted(element.get('name') or '')} with protectionLevel {quoted(level_of(element))}"
        place.left_out(what, "a device file has no permissions with levels")
    for element in root.all("uses-sdk", *USES_PERMISSION):
        name = element.get("name")
        tell_attributes(element, place, f" of {element.name}" + (f" {quoted(name)}" if name else ""))
    for _ in root.all("application")[1:]:
        place.left_out("another application", "a package has one")
    tell_children(root, CARRIED, place)


def has_components(root: Element) -> bool:
    return any(element.all("provider", *KINDS) for element in root.all("application"))


def declares_something(root: Element) -> bool:
    """Whether a manifest has more than what says how it is installed."""
    others = (child.name for child in root.children if child.name not in SILENT_TAGS)
    return has_components(root) or any(name not in ("application", "uses-sdk") for name in others)


def package_of(root: Element, name: str, place: Place) -> Package:
    """The package of this name that a manifest declares, without grants; only the system's package protects broadcasts."""
    for element in root.all("protected-broadcast"):
        place.left_out(f"protected-broadcast {quoted(element.get('name') or '')}", "only those of android are taken")
    tell_root(root, place)
    asked = asked_for(root, place)
    components = components_of(Application(name, root, place))
    names, intents = queries_of(root, place)
    return Package(name, components, asked, names, intents, facts_of(root, asked))
