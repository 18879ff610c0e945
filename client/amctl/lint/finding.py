"""A finding at a place of a device file."""
import re

from amctl.devicefile import DeviceFile
from amctl.findings.finding import Finding
from amctl.places import Place

OF_PACKAGE = re.compile(r"package\[(\d+)\]")
OF_COMPONENT = re.compile(r"package\[\d+\]\.manifest\.(?:activity|service|receiver)\[\d+\]")
TOP = Place(1, 1)


def finding(file: DeviceFile, at: str, rule: str, message: str) -> Finding:
    """A finding at a path of the file, such as `package[0].key`."""
    place = file.place(at)
    return Finding(rule, about(file, at), message, place or TOP, at, shown=file.shown(place), tool="lint")


def about(file: DeviceFile, at: str) -> str:
    """Whose a path is: a component's or a package's, else the device's. It stays the same if packages change places."""
    component = OF_COMPONENT.match(at)
    named = next((it for package in file.packages for it in package.components if component and it.at == component[0]), None)
    if named is not None:
        return named.component
    package = OF_PACKAGE.match(at)
    return next((it.name for it in file.packages if package and it.at == package[0]), file.path.name)
