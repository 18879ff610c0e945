"""The app that is checked: its manifest, and where its parts are."""
import dataclasses
import functools
from collections.abc import Mapping
from dataclasses import dataclass
from pathlib import Path
from typing import Any

from amctl import words, words_check
from amctl.check.facts import Facts, package_facts
from amctl.devicefile import Component, DeviceFile, components_of, text_of
from amctl.errors import AmctlError, DeviceFault, NotToml
from amctl.places import Place

OF_PATHS = ("missing", "wrong_kind", "left_out", "bad_uri", "bad_mime", "bad_priority")


class Unreadable(AmctlError):
    """The app can't be used; with the place, if the manifest says why."""

    def __init__(self, sentence: str, place: Place | None = None) -> None:
        super().__init__(sentence)
        self.place = place


@dataclass(frozen=True)
class App:
    """An app with the text of its manifest, and what else is known of it."""

    path: Path
    package: str
    text: str = dataclasses.field(repr=False)
    facts: Facts
    has_places: bool = True
    # of each thing that the converter left out or wrote otherwise, the component or the package, and what it was
    left_out: tuple[tuple[str, str], ...] = ()

    @functools.cached_property
    def file(self) -> DeviceFile:
        return DeviceFile.parse(self.path, self.text)

    @functools.cached_property
    def components(self) -> tuple[Component, ...]:
        return components_of(self.file.document)

    @property
    def queries(self) -> Mapping[str, Any]:
        found = self.file.document.get("queries")
        return found if isinstance(found, dict) else {}

    def place(self, at: str) -> Place | None:
        """Where a path of the manifest is; nowhere if the manifest isn't text of the app's own."""
        return self.file.place(at) if self.has_places else None

    def refused(self, name: str) -> Unreadable:
        """The fault by which `am` refuses the manifest, such as `wrong_kind activity[0].name`."""
        rule, _, of = name.partition(" ")
        named = [it.at for it in self.components if it.name == of]
        place = self.place(of if rule in OF_PATHS else f"{named[-1]}.name" if named else "")
        return Unreadable(words_check.refused(words.fault(name).text), place)


def read(path: Path, facts: Facts) -> App:
    """Reads a manifest in TOML, or an app as the converter reads it."""
    return _from_toml(path, facts) if path.suffix == ".toml" else _converted(path, facts)


def _from_toml(path: Path, facts: Facts) -> App:
    try:
        text = text_of(path)
        document = DeviceFile.parse(path, text).document
    except NotToml as fault:
        raise Unreadable(f"{words_check.refused('it is no TOML 1.0')}: {fault.what}", Place(fault.line, fault.column)) from None
    except DeviceFault as fault:
        raise Unreadable(str(fault)) from None
    name = document.get("package")
    if not isinstance(name, str) or not name:
        raise Unreadable(words_check.no_package(), Place(1, 1))
    return App(path, name, text, facts)


def _converted(path: Path, facts: Facts) -> App:
    """An APK or an XML manifest, by the converter; the places in its text aren't the app's own."""
    # who checks a manifest in TOML doesn't wait for the converter
    from amctl.apps import read_app

    try:
        found = read_app(path)
    except AmctlError as fault:
        raise Unreadable(str(fault)) from None
    except OSError as fault:
        raise Unreadable(f"{path}: {fault.strerror}") from None
    own = package_facts(found.facts.to_json())
    left_out = tuple((it.place, it.words) for it in found.left_out)
    return App(path, found.package, found.manifest, facts.with_package(found.package, own), has_places=False, left_out=left_out)
