"""The device that a command asks, and the caller."""
import dataclasses
import os
import time
from collections.abc import Mapping
from dataclasses import dataclass, field
from pathlib import Path

from amctl import words_adb
from amctl.adb.console import Failed
from amctl.address import shown
from amctl.device import App, Device
from amctl.errors import BadWords, NoServer
from amctl.kept import Kept, read_kept
from amctl.where import Where

SERIAL_VARIABLE = "AMCTL_SERIAL"
CHOSEN_VARIABLE = "ANDROID_SERIAL"
# the name that scripts give the first emulator of a machine
EMULATOR = "emulator-5554"
PATIENCE_SECONDS = 60.0
PAUSE_SECONDS = 0.1


@dataclass(frozen=True)
class Phone:
    """An opened device. Calls are the system's, unless `run-as` names a package."""

    device: Device
    kept: Kept = Kept()
    package: str | None = None

    @property
    def caller(self) -> App:
        return self.device.system if self.package is None else self.device.app(self.package)


@dataclass(frozen=True)
class Target:
    """Which device adb's words are for."""

    where: Where
    environment: Mapping[str, str]
    # the serial that the words name
    named: str | None = None

    @property
    def asked(self) -> str | None:
        return self.named or self.environment.get(CHOSEN_VARIABLE) or None

    @property
    def serial(self) -> str:
        """The device's name: one that is given to it, or an emulator's, else a server's address, or the name of the device file."""
        given = self.environment.get(SERIAL_VARIABLE)
        if given or self.asked == EMULATOR:
            return given or EMULATOR
        if self.where.url:
            url = shown(self.where.url)
            return url.partition("://")[2].rstrip("/") or url
        return self._device_file().stem

    def check(self) -> None:
        """adb's complaint if another device is asked for."""
        if self.asked and self.asked != self.serial:
            raise Failed(f"adb: device '{self.asked}' not found", note=words_adb.other_serial(self.asked, self.serial))

    def open(self) -> Phone:
        self._device_file()
        # only one session can hold a store, so the rows are read before
        kept = Kept() if self.where.store is None else read_kept(self.where.store)
        return Phone(self.where.open(), kept)

    def wait(self) -> None:
        """Returns once the device answers; a server may just be starting."""
        until = time.monotonic() + PATIENCE_SECONDS
        while True:
            try:
                with self.open().device as device:
                    device.system.status()
                return
            except NoServer:
                if time.monotonic() > until:
                    raise
                time.sleep(PAUSE_SECONDS)

    def _device_file(self) -> Path:
        if self.where.device is None:
            raise BadWords(words_adb.NO_DEVICE)
        return self.where.device


@dataclass
class Connection:
    """The device of an invocation: opened when it is first asked, and one session for all that is asked."""

    target: Target
    # what the commands so far left
    left: set[str] = field(default_factory=set)
    _phone: Phone | None = None

    def phone(self, package: str | None = None) -> Phone:
        if self._phone is None:
            self._phone = self.target.open()
        return dataclasses.replace(self._phone, package=package)

    def close(self) -> None:
        if self._phone is not None:
            self._phone.device.close()
            self._phone = None

    @property
    def ends(self) -> str | None:
        """What is said of a state that ends with the session; nothing if none does."""
        if self.target.where.url is not None:
            return None
        if "state" in self.left:
            return words_adb.STATE_ENDS
        return words_adb.RIGHTS_END if "rights" in self.left and self.target.where.store is None else None


def target_of(where: Where, environment: Mapping[str, str] = os.environ, serial: str | None = None) -> Target:
    return Target(where.or_environment(environment), environment, serial)
