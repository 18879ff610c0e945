"""The real adb: a program that is run once for each question."""
import os
import re
import shlex
import shutil
import subprocess
from collections.abc import Callable, Mapping, Sequence
from dataclasses import dataclass
from pathlib import Path

from amctl import words_phone
from amctl.errors import AmctlError, BadWords

NAME = "adb"
SECONDS = 120
# a pull may take long, since an app may have gigabytes
PULL_SECONDS = 3600
# how adb itself says that it has no phone to ask; a line of the phone's own doesn't begin so
LOST = re.compile(
    r"^(?:adb: |error: |adb: error: )(?:device '.*' not found|device (?:offline|unauthorized|still)|no devices|more than one device|"
    r"closed$|protocol fault|cannot connect|failed to (?:check server|get feature set)|device not found|connect failed|insufficient permissions)",
    re.MULTILINE,
)


class NoPhone(AmctlError):
    """adb can't be run, or has no phone to ask."""


class Silent(NoPhone):
    """adb said nothing for too long."""


@dataclass(frozen=True)
class Said:
    """What a command printed, and its status."""

    status: int
    out: str
    err: str

    @property
    def last_line(self) -> str:
        """The last line that isn't blank, which says why a command failed."""
        lines = [it.strip() for it in (self.err or self.out).splitlines() if it.strip()]
        return lines[-1] if lines else f"it ended with status {self.status} and said nothing"


# runs adb with these words; it may take so many seconds
Run = Callable[[Sequence[str], float], Said]


@dataclass(frozen=True)
class Adb:
    """The phone of this serial number, or the only one."""

    run: Run
    serial: str | None = None

    def ask(self, *words: str, seconds: float = SECONDS) -> Said:
        """What adb says; a NoPhone if it has no phone to ask."""
        chosen = ("-s", self.serial) if self.serial else ()
        said = self.run((*chosen, *words), seconds)
        lost = LOST.search(said.err) if said.status else None
        if lost:
            raise NoPhone(words_phone.lost(said.last_line))
        return said

    def shell(self, *words: str) -> Said:
        """What the phone's shell says to these words, which it reads as they are."""
        return self.ask("shell", shlex.join(words))

    def pull(self, remote: str, local: Path) -> Said:
        return self.ask("pull", remote, str(local), seconds=PULL_SECONDS)

    def name(self) -> str:
        """The serial number of the phone, which has to answer."""
        state = self.ask("get-state")
        # above it an old adb may say that it starts its server
        if state.status or state.out.splitlines()[-1:] != ["device"]:
            raise NoPhone(words_phone.lost(state.last_line))
        return self.serial or self.ask("get-serialno").out.strip()


def program(path: Path) -> Run:
    """Runs this program."""

    def run(words: Sequence[str], seconds: float) -> Said:
        try:
            ran = subprocess.run([path, *words], stdin=subprocess.DEVNULL, capture_output=True, timeout=seconds)
        except subprocess.TimeoutExpired:
            raise Silent(words_phone.silent(shlex.join(words), seconds)) from None
        except OSError as fault:
            raise NoPhone(words_phone.not_run(path, fault.strerror or str(fault))) from None
        return Said(ran.returncode, _text(ran.stdout), _text(ran.stderr))

    return run


def _text(data: bytes) -> str:
    # an old adb ends its lines as a terminal does
    return data.decode(errors="replace").replace("\r\n", "\n")


def find_adb(given: Path | None, environment: Mapping[str, str] = os.environ) -> Path:
    """The adb that is named, or the one on PATH."""
    if given is not None:
        if given.is_file() and os.access(given, os.X_OK):
            return given
        raise BadWords(words_phone.no_program(given))
    found = shutil.which(NAME, path=environment.get("PATH"))
    if found is None:
        raise BadWords(words_phone.NO_ADB)
    return Path(found)


def phone(given: Path | None, serial: str | None) -> Adb:
    """The phone that adb has, by the adb that is named or on PATH."""
    return Adb(program(find_adb(given)), serial)
