"""A package's manifest, of its base and its splits, with what is switched on and off on the phone."""
from collections.abc import Sequence
from pathlib import Path

from amctl import words_phone
from amctl.apps.components import KINDS, full_name
from amctl.apps.elements import Element, InputFault
from amctl.apps.inputs import read_input
from amctl.phone.lines import State

APPLICATION = "application"
SPLIT = "split"


def read(paths: Sequence[Path]) -> Element:
    """The whole manifest of a package: the base's, and the components of the splits behind its own, as Android has them."""
    roots = [read_input(str(it)) for it in paths]
    base = next((it for it in roots if it.plain.get(SPLIT) is None), None)
    if base is None:
        raise InputFault(words_phone.NO_BASE)
    for root in roots:
        if root is not base:
            _application(base).children += [it for app in root.all(APPLICATION) for it in app.all("provider", *KINDS)]
    return base


def switch(root: Element, package: str, is_enabled: bool | None, state: State | None) -> None:
    """Writes into a manifest what the phone has switched on and off."""
    application = _application(root)
    if is_enabled is not None:
        application.attributes["enabled"] = _written(is_enabled)
    for element in application.all(*KINDS):
        name = full_name(package, element)
        if state is not None and name in state.switched_on | state.switched_off:
            element.attributes["enabled"] = _written(name in state.switched_on)


def _application(root: Element) -> Element:
    found = root.all(APPLICATION)
    if not found:
        root.children.append(Element(APPLICATION))
    return root.all(APPLICATION)[0]


def _written(value: bool) -> str:
    return "true" if value else "false"
