"""An app by itself: its manifest as a device file has it, and its facts."""
from dataclasses import dataclass, field
from pathlib import Path

from amctl.apps.elements import InputFault
from amctl.apps.facts import Facts
from amctl.apps.inputs import read_input
from amctl.apps.manifests import SYSTEM, Package, name_of, package_of
from amctl.apps.told import Place, Report, Told, quoted
from amctl.apps.toml import manifest_text, package_text


@dataclass(frozen=True)
class App:
    """An app that was read. `left_out` has what is reported of it: what a device file doesn't say, or says differently."""

    path: Path
    left_out: tuple[Told, ...]
    declared: Package = field(repr=False)

    @property
    def package(self) -> str:
        return self.declared.name

    @property
    def facts(self) -> Facts:
        return self.declared.facts

    @property
    def manifest(self) -> str:
        """The manifest in TOML, as it is installed by itself: its places begin at its own root."""
        return manifest_text(self.declared)

    def entry(self, key: str) -> str:
        """The app as a `[[package]]` of a device file, with its `[package.manifest]` and this key."""
        return package_text(self.declared, key)


def read_app(path: Path) -> App:
    """Reads an APK, or a binary or decoded AndroidManifest.xml; an InputFault says why it can't.

    Nothing is granted to the app: what it asks for is in its facts.
    """
    root = read_input(str(path))
    name = name_of(root)
    if root.plain.get("split") is not None:
        raise InputFault(f"it is the split {quoted(root.plain['split'])}: only whole packages and base packages are read")
    if name == SYSTEM:
        raise InputFault("its package is android, which is the system's own")
    report = Report()
    declared = package_of(root, name, Place(report, str(path), name))
    return App(path, tuple(report.told), declared)
