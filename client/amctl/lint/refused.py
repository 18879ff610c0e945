"""A file that can't be read as TOML, or that `am` refuses."""
from collections.abc import Iterator
from pathlib import Path

from amctl import words_lint
from amctl.device import Device
from amctl.devicefile import DeviceFile
from amctl.errors import DeviceFault, NotToml
from amctl.faults import fault_of
from amctl.findings.finding import Finding
from amctl.lint.finding import TOP
from amctl.places import Place


def not_toml(path: Path, fault: NotToml) -> Finding:
    """The finding of a file that this client can't read as TOML."""
    place = Place(fault.line, fault.column)
    return Finding("not-toml", path.name, words_lint.not_toml(fault.what), place, shown=fault.shown, tool="lint")


def refused(file: DeviceFile, am: Path | None) -> Iterator[Finding]:
    """The first fault for which `am` refuses the file, if it does."""
    try:
        Device.open(file.path, am=am).close()
    except DeviceFault as fault:
        if fault.refused is None:
            raise
        found = fault_of(file, fault.refused)
        yield Finding("refused", file.path.name, words_lint.refused(found.sentence.text), found.place or TOP, shown=found.shown, tool="lint")
