"""Names that the app shares with others, or that are others': all by plain comparison."""
from collections.abc import Iterator

from amctl import words_check
from amctl.check.app import App
from amctl.findings.finding import Finding
from amctl.check.made import at
from amctl.devicefile import SYSTEM, DeviceFile, Package
from amctl.words import shown

PLATFORM = ("android.", "com.android.")


def check(app: App, device: DeviceFile) -> Iterator[Finding]:
    yield from _permissions(app, device)
    yield from _affinities(app, device)
    yield from _keys(app, device)
    yield from _classes(app, device)


def _permissions(app: App, device: DeviceFile) -> Iterator[Finding]:
    own = app.facts.of(app.package)
    for permission in own.permissions if own else ():
        for other in device.names:
            facts = app.facts.of(other)
            if facts and permission in facts.permissions:
                yield at(app, "package", "permission-twice", permission, words_check.permission_twice(permission, other))
        owner = _owner(app.package, permission, device)
        if owner:
            yield at(app, "package", "permission-foreign", permission, words_check.permission_foreign(permission, owner))


def _owner(package: str, permission: str, device: DeviceFile) -> str | None:
    """Whose name space a permission begins with, if it isn't the app's."""
    if permission.startswith(f"{package}."):
        return None
    if permission.startswith(PLATFORM):
        return SYSTEM
    return next((it for it in device.names if permission.startswith(f"{it}.")), None)


def _affinities(app: App, device: DeviceFile) -> Iterator[Finding]:
    for component in app.components:
        affinity = component.task_affinity
        if component.kind != "activity" or not affinity or affinity == app.package:
            continue
        owner = next((it.name for it in device.packages if affinity in _affinities_of(it)), None)
        if owner:
            message = words_check.affinity(component.component, affinity, owner)
            yield at(app, f"{component.at}.taskAffinity", "affinity", shown(component.component), message)


def _affinities_of(package: Package) -> set[str]:
    stated = {it.task_affinity for it in package.components if it.kind == "activity"}
    return {package.name, *(it for it in stated if it)}


def _keys(app: App, device: DeviceFile) -> Iterator[Finding]:
    given = device.key_for_new(app.package)
    for package in device.packages:
        if package.key == given:
            yield at(app, "package", "key-collides", app.package, words_check.key_collides(app.package, package.name))


def _classes(app: App, device: DeviceFile) -> Iterator[Finding]:
    others = {it.name: package.name for package in device.packages for it in package.components}
    for component in app.components:
        if component.name in others:
            yield at(app, f"{component.at}.name", "class-twice", shown(component.component), words_check.class_twice(component.name, others[component.name]))
