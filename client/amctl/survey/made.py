"""The device on which the apps are: a given one, or one that has nothing, with the apps added."""
import dataclasses
import functools
import re
import tempfile
from collections.abc import Mapping, Sequence
from pathlib import Path
from typing import TYPE_CHECKING, Any

from amctl import words_survey
from amctl.apps.toml import string
from amctl.device import Device
from amctl.devicefile import DeviceFile
from amctl.errors import AmctlError, BadWords

if TYPE_CHECKING:
    from amctl.survey.inputs import App

BARE = 'system_key = "system"\n'
NAME = "device.toml"
PREFIX = "amctl_survey_"
OF_FOLDER = re.compile(rf"\S*/{PREFIX}[^/\s]*/")
# what may stand between apostrophes: tomllib reads that at once, and a text in quotes character by character
LITERAL = re.compile(r"[^'\x00-\x1f\x7f]*")


def written(item: Any) -> str:
    """A value of TOML in one line, whatever keys it has."""
    if isinstance(item, bool):
        return "true" if item else "false"
    if isinstance(item, str):
        return f"'{item}'" if LITERAL.fullmatch(item) else string(item)
    if isinstance(item, Mapping):
        return "{" + ", ".join(f"{string(key)} = {written(value)}" for key, value in item.items()) + "}"
    if isinstance(item, list):
        return "[" + ", ".join(map(written, item)) + "]"
    # whole and broken numbers, and moments, of which a manifest has none that counts
    return str(item).replace(" ", "T")


def base_of(device: Path | None) -> DeviceFile:
    """The device without the apps."""
    return parsed(BARE) if device is None else DeviceFile.read(device)


# a process asks the same device again and again, and a bare one in between
@functools.lru_cache(maxsize=2)
def parsed(text: str) -> DeviceFile:
    return DeviceFile.parse(Path(NAME), text)


def names_of(text: str) -> tuple[str, ...]:
    return parsed(text).names


def device_of(base: DeviceFile, apps: Sequence["App"]) -> str:
    """The text of a device file with the apps; each key of the device and each package has a line."""
    rows = base.document.get("package", [])
    packages = [written(it) for it in rows] if isinstance(rows, list) else []
    packages += [f"{{key = {string(_key(base, it.package))}, manifest = {it.manifest}}}" for it in apps]
    lines = [f"{string(key)} = {written(value)}" for key, value in base.document.items() if key != "package"]
    return "\n".join([*lines, "package = [", *(f"    {it}," for it in packages), "]", ""])


def _key(base: DeviceFile, package: str) -> str:
    """A key that no package of the device has; a device that was made so may have one of another of its packages."""
    taken, name = {it.key for it in base.packages}, package
    while (key := base.key_for_new(name)) in taken:
        name += "/"
    return key


def check(given: Path | None, text: str, am: Path | None) -> None:
    """Opens the device, so what `am` refuses of it is said once; for a given one with the place in its own file."""
    if given is not None:
        Device.open(given, am=am).close()
    try:
        opened(text, am).close()
    except AmctlError as fault:
        # each app is taken by itself
        raise BadWords(words_survey.too_much(OF_FOLDER.sub("", str(fault)))) from None


def opened(text: str, am: Path | None) -> Device:
    """A session on a device. Once it answers, `am` has read the file, which has keys in it and is taken away."""
    with tempfile.TemporaryDirectory(prefix=PREFIX) as folder:
        path = Path(folder) / NAME
        path.write_text(text, encoding="utf-8")
        return Device.of_file(dataclasses.replace(parsed(text), path=path), am=am)
