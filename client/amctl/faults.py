"""The place in a device file of a fault that `am` names."""
from dataclasses import dataclass

from amctl import words
from amctl.devicefile import DeviceFile
from amctl.places import Place

OF_PATHS = ("missing", "wrong_kind", "left_out", "bad_uri", "bad_mime", "bad_priority")
REFUSED = "am: device refused: "


@dataclass(frozen=True)
class Fault:
    """A fault with its place, the line there and a sentence."""

    name: str
    place: Place | None
    shown: str
    sentence: words.Sentence


def fault_of(file: DeviceFile, name: str) -> Fault:
    """The fault that `am` names, such as `wrong_kind package[0].key`."""
    place = file.place(_path(file, name))
    return Fault(name, place, file.shown(place), words.fault(name))


def fault_text(file: DeviceFile, name: str) -> str:
    """The fault in words, with the line that has it."""
    found = fault_of(file, name)
    where = f"{file.path}:{found.place}" if found.place else str(file.path)
    shown = f"\n    {found.shown}" if found.shown else ""
    return f"{where}: {found.sentence.text} ({name}){shown}"


def ending_text(file: DeviceFile, status: int, line: str) -> str:
    """How the program ended, in words, with the line of the file that it refuses."""
    if status == words.FILE_REFUSED and line.startswith(REFUSED):
        return fault_text(file, line.removeprefix(REFUSED))
    return words.ending(status, line).text


def _path(file: DeviceFile, name: str) -> str:
    rule, _, of = name.partition(" ")
    if rule in OF_PATHS:
        return of
    if rule == "exported_unstated":
        return _component_path(file, of, 0)
    if rule == "duplicate":
        return "root_key" if of == "root_key" else _package_path(file, of) or _component_path(file, of, 1)
    return ""


def _component_path(file: DeviceFile, name: str, skipped: int) -> str:
    """Where a class is; the first ones may be skipped."""
    found = [it.at for package in file.packages for it in package.components if it.name == name]
    return f"{found[min(skipped, len(found) - 1)]}.name" if found else ""


def _package_path(file: DeviceFile, name: str) -> str:
    """Where the package's name or its key occurs again."""
    names = {"android"}
    keys = {it for it in (file.document.get("system_key"), file.document.get("root_key")) if isinstance(it, str)}
    for package in file.packages:
        if package.name == name and name in names:
            return f"{package.at}.manifest.package"
        if package.name == name and package.key in keys:
            return f"{package.at}.key"
        names.add(package.name)
        keys.add(package.key)
    return ""
