"""The device file: its packages with their keys, and its text in TOML."""
from collections.abc import Mapping

from amctl.apps import sayable
from amctl.apps.elements import Element, InputFault
from amctl.apps.facts import Facts, facts_of
from amctl.apps.manifests import SYSTEM, declares_something, grants_of, has_components, name_of, package_of, protected_of
from amctl.apps.told import Place, Report, quoted
from amctl.apps.toml import ended, package_text, pairs

PACKAGE_LIMIT = 256
PROTECTED_LIMIT = 1024
DEVICE_BYTES = 16 * 2**20
SYSTEM_KEY = "system"


class Keys:
    """The keys of packages: those of a file, and `k` and a number for the others."""

    def __init__(self, given: Mapping[str, str]) -> None:
        self.given = given
        self.system = given.get(SYSTEM, SYSTEM_KEY)
        self.taken = {self.system, *given.values()}
        self.number = 0

    def of(self, package: str) -> str:
        """The key of a package, which has to be asked for once."""
        if package in self.given:
            return self.given[package]
        while True:
            self.number += 1
            key = f"k{self.number}"
            if key not in self.taken:
                return key


def keys_in(text: str) -> dict[str, str]:
    """The keys of a file: a line has a package and its key; one that begins with # is ignored."""
    given: dict[str, str] = {}
    packages_of: dict[str, str] = {}
    for number, line in enumerate(text.splitlines(), 1):
        words = line.split()
        if not words or words[0].startswith("#"):
            continue
        if len(words) != 2 or not sayable.KEY.fullmatch(words[1]):
            raise InputFault(f"line {number} isn't a package and a key of 1 to 255 visible ASCII characters")
        package, key = words
        if package in given or key in packages_of:
            raise InputFault(f"line {number} has a package or a key that stands before")
        given[package] = key
        packages_of[key] = package
    if SYSTEM not in given and SYSTEM_KEY in packages_of:
        raise InputFault(f"{packages_of[SYSTEM_KEY]} has the key {SYSTEM_KEY}, which is the system's")
    return given


class Device:
    """A device file while it is made."""

    def __init__(self, report: Report, keys: Keys, with_grants: bool) -> None:
        self.report = report
        self.keys = keys
        self.with_grants = with_grants
        self.facts: dict[str, Facts] = {}
        self.protected: dict[str, None] = {}
        self.texts: list[tuple[str, Place]] = []

    def add(self, file: str, root: Element) -> None:
        """Adds what a manifest declares, or reports why it is left out."""
        name = name_of(root)
        place = Place(self.report, file, name)
        split = root.plain.get("split")
        if split is not None:
            if declares_something(root):
                place.left_out(f"the split {quoted(split)}", "only whole packages and base packages are read")
        elif name == SYSTEM:
            self.add_system(root, place)
        elif name in self.facts:
            place.left_out("the package", "its name stands before")
        elif len(self.texts) >= PACKAGE_LIMIT:
            place.left_out("the package", f"over {PACKAGE_LIMIT} packages")
        else:
            package = package_of(root, name, place)
            package.grants = grants_of(package.asked, self.with_grants, place)
            self.facts[name] = package.facts
            self.texts.append((package_text(package, self.keys.of(name)), place))

    def add_system(self, root: Element, place: Place) -> None:
        """Adds the broadcasts that the system's package protects; it has no components on a device."""
        for action in protected_of(root, place):
            if action not in self.protected and len(self.protected) >= PROTECTED_LIMIT:
                place.left_out(f"protected broadcast {quoted(action)}", f"over {PROTECTED_LIMIT}")
            else:
                self.protected[action] = None
        if has_components(root):
            place.left_out("the components", "a device file has no package of this name, which is the system's own")
        facts = facts_of(root, [])
        if facts.permissions:
            place.left_out(f"its {len(facts.permissions)} permissions", "a device file has no permissions with levels")
        self.facts.setdefault(SYSTEM, facts)

    def text(self) -> str:
        """The text of the device file, without the packages that would make it too long."""
        parts = [ended(pairs(system_key=self.keys.system, protected=list(self.protected)))]
        size = len(parts[0].encode())
        for text, place in self.texts:
            if size + len(text.encode()) > DEVICE_BYTES:
                place.left_out("the package", f"over {DEVICE_BYTES:,} bytes in all")
                del self.facts[place.name]
            else:
                parts.append(text)
                size += len(text.encode())
        return "".join(parts)
