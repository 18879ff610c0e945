"""Who may reach what: permissions, components that are open to all, and keys."""
from collections.abc import Iterator

from amctl import words_lint
from amctl.devicefile import SYSTEM, Component, DeviceFile, components_of
from amctl.findings.finding import Finding
from amctl.kept import Kept, manifest_of
from amctl.lint.finding import finding
from amctl.lint.names import near_name

# platforms guard and grant much that no device file has to mention
PLATFORM = ("android.", "com.android.", "com.google.")
SHORTEST_KEY = 2


def check(file: DeviceFile, kept: Kept | None) -> Iterator[Finding]:
    yield from _permissions(file, kept or Kept())
    yield from _unguarded(file)
    yield from _keys(file)


def _permissions(file: DeviceFile, kept: Kept) -> Iterator[Finding]:
    own = [it for package in file.packages for it in package.components]
    asked = frozenset(it.permission for it in (*own, *_kept_components(kept)) if it.permission)
    granted = frozenset({it.permission for it in file.grants} | {it.text for it in kept.grants if it.held})
    for grant in file.grants:
        near = near_name(grant.permission, asked)
        if grant.permission not in asked and (near or not grant.permission.startswith(PLATFORM)):
            yield finding(file, f"{grant.at}.permission", "permission", words_lint.grant_unasked(grant.permission, near))
    for component in own:
        permission = component.permission
        if not permission or not component.exported or permission in granted:
            continue
        near = near_name(permission, granted)
        if near or not permission.startswith(PLATFORM):
            said = words_lint.permission_ungranted(permission, component.component, near)
            yield finding(file, f"{component.at}.permission", "permission", said)


def _kept_components(kept: Kept) -> Iterator[Component]:
    for row in kept.packages:
        if not row.gone:
            yield from components_of(manifest_of(row.manifest))


def _unguarded(file: DeviceFile) -> Iterator[Finding]:
    for package in file.packages:
        for component in package.components:
            if component.exported and not component.filters and component.permission is None:
                yield finding(file, f"{component.at}.exported", "unguarded", words_lint.unguarded(component.component))


def _keys(file: DeviceFile) -> Iterator[Finding]:
    stood: dict[str, str] = {}
    for at, of, key in _callers(file):
        lowered = {it.lower(): it for it in stood}
        if key in stood:
            yield finding(file, at, "key", words_lint.repeated_key(of, stood[key]))
        elif key.lower() in lowered:
            yield finding(file, at, "key", words_lint.alike_key(of, stood[lowered[key.lower()]]))
        if len(key) < SHORTEST_KEY:
            yield finding(file, at, "key", words_lint.short_key(of))
        stood.setdefault(key, of)


def _callers(file: DeviceFile) -> Iterator[tuple[str, str, str]]:
    """Where each key is, and whose it is."""
    for key, of in (("system_key", "the system"), ("root_key", "the root")):
        value = file.document.get(key)
        if isinstance(value, str) and value:
            yield key, of, value
    for package in file.packages:
        if package.key and package.name != SYSTEM:
            yield f"{package.at}.key", package.name, package.key
