"""What is installed, granted and approved on a device, as far as its file, its store and its history tell; no request asks for it."""
from collections.abc import Iterator
from dataclasses import dataclass, field

from amctl.adb.phone import Phone
from amctl.android import FIRST_UID, SYSTEM_UID
from amctl.device import App
from amctl.devicefile import KINDS, SYSTEM, Component, DeviceFile, components_of
from amctl.intents import Intent
from amctl.kept import Kept, manifest_of
from amctl.results import Entry

PAGE = 64


@dataclass
class Installed:
    """A package of the device. Without a uid it is known only by what `am` says of its components."""

    name: str
    uid: int | None
    components: tuple[Component, ...] = ()
    grants: set[str] = field(default_factory=set)
    hosts: set[str] = field(default_factory=set)


def installed(phone: Phone) -> tuple[Installed, ...]:
    """The installed packages, in the order of installation."""
    told = _Told(phone.device.file)
    told.keep(phone.kept)
    system = phone.device.system
    for entry in _history(system):
        told.enter(entry)
    known = [it for it in told.packages.values() if phone.device.is_installed(it.name)]
    names = {it.name for it in known}
    return (*known, *(Installed(it, None) for it in _declaring(system) if it not in names))


def find(phone: Phone, package: str) -> Installed | None:
    return next((it for it in installed(phone) if it.name == package), None)


def uid_of(phone: Phone, package: str) -> str:
    """The uid, or `?` if nothing tells it."""
    if package == SYSTEM:
        return str(SYSTEM_UID)
    found = find(phone, package)
    return "?" if found is None or found.uid is None else str(found.uid)


class _Told:
    """The packages as the file, the store's rows and the stored calls leave them, one after the other."""

    def __init__(self, file: DeviceFile) -> None:
        self.packages = {it.name: Installed(it.name, FIRST_UID + at, it.components) for at, it in enumerate(file.packages)}
        self.next_uid = FIRST_UID + len(self.packages)
        for grant in file.grants:
            self._allow(grant.package, "grants", grant.permission, True)
        for link in file.links:
            self._allow(link.package, "hosts", link.host.lower(), True)

    def keep(self, kept: Kept) -> None:
        for row in kept.packages:
            # a uid is never given again, so what it had goes before what comes
            self.packages = {name: it for name, it in self.packages.items() if it.uid != row.uid}
            if not row.gone:
                self.packages[row.name] = Installed(row.name, row.uid, components_of(manifest_of(row.manifest)))
        names = {it.uid: name for name, it in self.packages.items()}
        for kind, rights in (("grants", kept.grants), ("hosts", kept.links)):
            for right in rights:
                self._allow(names.get(right.uid, ""), kind, right.text, right.held)
        self.next_uid = max([self.next_uid, *(it + 1 for it in kept.uids)])

    def enter(self, entry: Entry) -> None:
        """What a stored call of the system or the root did, unless it was refused."""
        if not entry.kept or entry.uid >= FIRST_UID:
            return
        asked = entry.request
        package = str(asked.get("package", ""))
        if entry.route == "/v1/install":
            self._install(str(asked["manifest"]))
        elif entry.route == "/v1/uninstall":
            self.packages.pop(package, None)
        elif entry.route == "/v1/grant":
            self._allow(package, "grants", str(asked["permission"]), bool(asked["held"]))
        elif entry.route == "/v1/link":
            self._allow(package, "hosts", str(asked["host"]).lower(), bool(asked["approved"]))

    def _install(self, manifest: str) -> None:
        name = manifest_of(manifest).get("package")
        if isinstance(name, str) and name not in self.packages:
            self.packages[name] = Installed(name, self.next_uid, components_of(manifest_of(manifest)))
            self.next_uid += 1

    def _allow(self, package: str, kind: str, text: str, held: bool) -> None:
        found = self.packages.get(package)
        if found is not None:
            rights: set[str] = getattr(found, kind)
            (rights.add if held else rights.discard)(text)


def _history(system: App) -> Iterator[Entry]:
    start = 0
    while page := system.history(start):
        yield from page
        start += len(page)
        if len(page) < PAGE:
            return


def _declaring(system: App) -> tuple[str, ...]:
    """The packages that declare a component, by the accounts that `am` gives of each."""
    found = (str(it.to) for kind in KINDS for it in system.explain(kind, Intent(package=SYSTEM)))
    return tuple(dict.fromkeys(it.partition("/")[0] for it in found if "/" in it))


