"""The components of a package."""
from dataclasses import dataclass, field
from typing import TypeVar

from amctl.apps import sayable
from amctl.apps.elements import Element
from amctl.apps.filters import Filter, Form, filters_of
from amctl.apps.sayable import Unsayable
from amctl.apps.told import Place, quoted
from amctl.apps.unsaid import tell_attributes, tell_children

Sayable = TypeVar("Sayable")

COMPONENT_LIMIT = 256
KINDS = {"activity": "activity", "activity-alias": "activity", "service": "service", "receiver": "receiver"}
FIRST_LEVEL = 1
FIRST_LEVEL_THAT_STATES = 31


@dataclass
class Component:
    """A component as a device file has it."""

    kind: str
    name: str
    exported: bool | None
    enabled: bool
    permission: str | None
    launch_mode: str | None = None
    affinity: str | None = None
    filters: list[Filter] = field(default_factory=list)


class LeftOut(Exception):
    """Why a whole component can't be said."""


def part(what: str, form: Form[Sayable], value: str | None) -> Sayable:
    """A part without which a component can't be said."""
    try:
        return form(value)
    except Unsayable as why:
        raise LeftOut(f"{what} {quoted(value or '')}: {why}") from why


class Application:
    """What holds for all components of a package."""

    def __init__(self, package: str, root: Element, place: Place) -> None:
        self.package = package
        self.place = place
        self.element = (root.all("application") or [Element("application")])[0]
        self.level = target_level(root)
        self.activities: dict[str, Element] = {}
        for activity in self.element.all("activity"):
            name = full_name(package, activity)
            if name is not None:
                self.activities.setdefault(name, activity)

    def get(self, name: str) -> str | None:
        return self.element.get(name)


def full_name(package: str, element: Element) -> str | None:
    """The name of a component's class, or none if it isn't valid."""
    try:
        return sayable.class_name(package, element.get("name"))
    except Unsayable:
        return None


def target_level(root: Element) -> int | None:
    """The API level that an app targets: stated, or else the least that it runs on, or else 1; none for a name."""
    uses = root.all("uses-sdk")
    stated = [uses[0].get("targetSdkVersion"), uses[0].get("minSdkVersion")] if uses else []
    for value in stated:
        if value is not None:
            try:
                return sayable.number(value)
            except Unsayable:
                return None
    return FIRST_LEVEL


def enabled_of(element: Element, application: Application) -> bool:
    """A component is enabled if neither it nor its application is disabled."""
    values = [element.get("enabled"), application.get("enabled")]
    return all(part("enabled", sayable.truth, value) for value in values if value is not None)


def permission_of(element: Element, application: Application) -> str | None:
    """The permission that a component asks of its callers. An alias has none of its application's."""
    value = element.get("permission")
    if value is None and element.name != "activity-alias":
        value = application.get("permission")
    return None if value in (None, "") else part("permission", sayable.text, value)


def exported_of(element: Element, application: Application, place: Place) -> bool | None:
    """Whether others may reach a component, or none if that isn't stated and needn't be."""
    value = element.get("exported")
    if value is not None:
        return part("exported", sayable.truth, value)
    if not element.all("intent-filter"):
        return None
    level = application.level
    if level is None or level >= FIRST_LEVEL_THAT_STATES:
        targets = "a level without a number" if level is None else level
        raise LeftOut(f"it has a filter and doesn't state exported, as API level 31 asks for (it targets {targets})")
    place.changed(f"exported isn't stated on a component with a filter; exported = true is written, since it targets "
                  f"API level {level}, below 31")
    return True


def optional_part(key: str, value: str | None, form: Form[Sayable], place: Place) -> Sayable | None:
    """A part without which a component can be said."""
    if value is None:
        return None
    try:
        return form(value)
    except Unsayable as why:
        place.left_out(f"{key} {quoted(value)}", why)
        return None


def launched(element: Element, application: Application) -> Element:
    """The element that says how an activity is launched: its own, and the target's of an alias."""
    if element.name != "activity-alias":
        return element
    target = part("targetActivity", lambda value: sayable.class_name(application.package, value),
                  element.get("targetActivity"))
    if target not in application.activities:
        raise LeftOut(f"its target {quoted(target)} isn't declared")
    return application.activities[target]


def launch_into(component: Component, element: Element, application: Application, place: Place) -> None:
    """Puts in how an activity is launched."""
    owner = launched(element, application)
    if owner is not element:
        tell_attributes(owner, place, " of its target")
    component.launch_mode = optional_part("launchMode", owner.get("launchMode"), sayable.launch_mode, place)
    affinity = owner.get("taskAffinity")
    if affinity is None:
        affinity = application.get("taskAffinity")
    component.affinity = optional_part(
        "taskAffinity", affinity, lambda value: sayable.affinity(application.package, value), place)


def component_of(element: Element, name: str, application: Application, place: Place) -> Component:
    """A component of this name."""
    permission = permission_of(element, application)
    enabled = enabled_of(element, application)
    component = Component(KINDS[element.name], name, None, enabled, permission)
    if component.kind == "activity":
        launch_into(component, element, application, place)
    component.exported = exported_of(element, application, place)
    tell_attributes(element, place)
    tell_children(element, ("intent-filter",), place)
    component.filters = filters_of(element, place)
    return component


def next_component(element: Element, seen: set[str], application: Application) -> Component | None:
    """The component of an element, or none if it was left out. `seen` has the earlier names."""
    value = element.get("name")
    place = application.place.within(value or application.package)
    try:
        name = part("its name", lambda text: sayable.class_name(application.package, text), value)
        place = application.place.within(name)
        if name in seen:
            raise LeftOut("its class stands before")
        if len(seen) >= COMPONENT_LIMIT:
            raise LeftOut(f"over {COMPONENT_LIMIT} components")
        component = component_of(element, name, application, place)
        seen.add(name)
        return component
    except LeftOut as why:
        place.left_out(element.name, why)
        return None


def components_of(application: Application) -> list[Component]:
    """The components, in the order of the manifest."""
    tell_attributes(application.element, application.place, " of the application")
    tell_children(application.element, ("provider", *KINDS), application.place, " of the application")
    found: list[Component] = []
    seen: set[str] = set()
    for element in application.element.children:
        if element.name == "provider":
            name = full_name(application.package, element) or application.package
            application.place.within(name).left_out("provider", "a device file has no providers")
        elif element.name in KINDS:
            component = next_component(element, seen, application)
            if component is not None:
                found.append(component)
    return found
