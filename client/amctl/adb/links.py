"""`pm set-app-links` and `pm get-app-links`."""
from collections.abc import Iterator
from dataclasses import dataclass
from typing import ClassVar

from amctl import words_adb
from amctl.adb.command import Leaves
from amctl.adb.console import Console, Failed, NotServed
from amctl.adb.installed import Installed, find, installed
from amctl.adb.options import Words, user
from amctl.adb.phone import Phone
from amctl.android import BROWSABLE, WEB_SCHEMES
from amctl.device import Refusal
from amctl.intents import VIEW
from amctl.weblinks import declared_hosts

# Android knows ways to be approved and not to be; `am` only has the two
STATES = {
    **dict.fromkeys(("STATE_SUCCESS", "1", "STATE_APPROVED", "2", "verified", "approved"), True),
    **dict.fromkeys(("STATE_NO_RESPONSE", "0", "STATE_DENIED", "3", "none", "denied"), False),
}


@dataclass(frozen=True)
class SetAppLinks:
    leaves: ClassVar[Leaves] = "rights"

    package: str
    approved: bool
    hosts: tuple[str, ...]

    @classmethod
    def read(cls, words: Words, name: str) -> "SetAppLinks":
        package = None
        while (option := words.option()) is not None:
            if option != "--package":
                raise Failed(f"Error: unknown option: {option}")
            package = words.bare()
        if not package:
            raise Failed("Error: no package specified")
        if package == "all":
            raise NotServed(words_adb.NO_ALL_PACKAGES)
        state = words.value()
        if state not in STATES:
            raise Failed(f"Invalid state option: {state}")
        hosts = words.rest()
        if not hosts:
            raise Failed("No domains specified")
        return cls(package, STATES[state], hosts)

    def run(self, phone: Phone, console: Console) -> int:
        for host in self._hosts(phone):
            try:
                phone.device.system.link(self.package, host, approved=self.approved)
            except Refusal as refused:
                if refused.rule != "no_package":
                    raise
                raise Failed(f"Package not found: {self.package}") from None
        return 0

    def _hosts(self, phone: Phone) -> tuple[str, ...]:
        if self.hosts != ("all",):
            return self.hosts
        found = find(phone, self.package)
        if found is None:
            raise Failed(f"Package not found: {self.package}")
        return states_of(found, answers_as_phone=phone.device.file.answers_as_phone)


@dataclass(frozen=True)
class GetAppLinks:
    leaves: ClassVar[Leaves] = "nothing"

    package: str | None

    @classmethod
    def read(cls, words: Words, name: str) -> "GetAppLinks":
        while (option := words.option()) is not None:
            if option != "--user":
                raise Failed(f"Error: unknown option: {option}")
            user(words.value())
        return cls(words.bare())

    def run(self, phone: Phone, console: Console) -> int:
        found = [it for it in installed(phone) if self.package in (None, it.name)]
        if self.package is not None and not found:
            raise Failed(f"Package not found: {self.package}")
        for package in found:
            hosts = states_of(package, answers_as_phone=phone.device.file.answers_as_phone)
            if hosts or self.package is not None:
                _say(package, hosts, console)
        return 0


def states_of(package: Installed, *, answers_as_phone: bool) -> tuple[str, ...]:
    """The hosts that the package's web filters list or that it is approved for. By a phone's rules a wildcard is approved as it is."""
    declared = (it for it in declared_hosts(package.components) if it.strip("*")) if answers_as_phone else _declared(package)
    return tuple(dict.fromkeys((*declared, *sorted(package.hosts))))


def _say(package: Installed, hosts: tuple[str, ...], console: Console) -> None:
    for line in (f"  {package.name}:", "    ID: 00000000-0000-0000-0000-000000000000", "    Signatures: []", "    Domain verification state:"):
        console.say(line)
    for host in hosts:
        console.say(f"      {host}: {'approved' if host in package.hosts else 'none'}")


def _declared(package: Installed) -> Iterator[str]:
    filters = (it for component in package.components for it in component.filters)
    for it in filters:
        schemes = {str(row.get("scheme")) for row in it.data}
        if VIEW in it.actions and BROWSABLE in it.categories and schemes & set(WEB_SCHEMES):
            # Android asks for the domain after a wildcard, too
            hosts = (str(row.get("host", "")).lower().removeprefix("*.") for row in it.data)
            yield from (host for host in hosts if host.strip("*"))
