"""The apps of a folder: APKs, and manifests in XML and TOML."""
import functools
import os
import tomllib
from collections.abc import Mapping
from dataclasses import dataclass, field
from pathlib import Path
from typing import Any

from amctl import words_survey
from amctl.devicefile import Component, components_of
from amctl.errors import AmctlError, BadWords
from amctl.survey.made import written

MANIFEST = "AndroidManifest.xml"
MOST_BYTES = 4 * 2**20
# the component or the package, and what it was
LeftOut = tuple[str, str]


class Unreadable(AmctlError):
    """Why an app can't be read."""


@dataclass(frozen=True)
class App:
    """An app that was read. Its manifest is one line of TOML."""

    file: str
    package: str
    manifest: str = field(repr=False)

    @classmethod
    def from_json(cls, written: Mapping[str, str]) -> "App":
        return cls(written["file"], written["package"], written["manifest"])

    def to_json(self) -> dict[str, str]:
        return {"file": self.file, "package": self.package, "manifest": self.manifest}

    @functools.cached_property
    def document(self) -> Mapping[str, Any]:
        found: Mapping[str, Any] = tomllib.loads(f"manifest = {self.manifest}")["manifest"]
        return found

    @property
    def components(self) -> tuple[Component, ...]:
        return components_of(self.document)


def files_of(folder: Path, *but: Path) -> list[str]:
    """The apps of a folder, by their paths in it, without these files and folders. Other files of decoded APKs are none."""
    if not folder.is_dir():
        raise BadWords(words_survey.no_folder(folder))
    found = []
    left_out = {it.resolve() for it in but}
    for base, folders, names in os.walk(folder):
        folders[:] = [it for it in folders if Path(base, it).resolve() not in left_out]
        is_top = Path(base) == folder
        apps = [Path(base, it) for it in names if _is_app(it, is_top)]
        found += [os.path.relpath(it, folder) for it in apps if it.resolve() not in left_out]
    if not found:
        raise BadWords(words_survey.no_apps(folder))
    return sorted(found)


def _is_app(name: str, is_top: bool) -> bool:
    return name == MANIFEST or name.lower().endswith(".apk") or (is_top and name.lower().endswith((".xml", ".toml")))


def read(folder: Path, file: str) -> tuple[App, tuple[LeftOut, ...]]:
    """The app of a file with what the converter left out of it, or why it can't be read, in words that name no folder."""
    path = folder / file
    if path.suffix.lower() == ".toml":
        return _of_toml(path, file), ()
    # the readers of APKs take a while to load
    from amctl.apps import InputFault, read_app

    try:
        found = read_app(path)
        left_out = tuple((it.place, it.words) for it in found.left_out)
        return App(file, found.package, written(tomllib.loads(found.manifest))), left_out
    except InputFault as fault:
        raise Unreadable(str(fault)) from None


def _of_toml(path: Path, file: str) -> App:
    try:
        if path.stat().st_size > MOST_BYTES:
            raise Unreadable(words_survey.too_large(MOST_BYTES))
        document = tomllib.loads(path.read_bytes().decode("utf-8"))
    except OSError as fault:
        raise Unreadable(fault.strerror or str(fault)) from None
    except UnicodeDecodeError:
        raise Unreadable(words_survey.NOT_UTF8) from None
    except (tomllib.TOMLDecodeError, RecursionError) as fault:
        raise Unreadable(words_survey.not_toml(str(fault))) from None
    name = document.get("package")
    if not isinstance(name, str) or not name:
        raise Unreadable(words_survey.NO_PACKAGE)
    return App(file, name, written(document))
