"""Asks `am`, under its device file's rules and under the others, if this `am` has others."""
import re
import tempfile
from collections.abc import Iterator
from contextlib import contextmanager
from pathlib import Path

from amctl.compare.question import SHELL, Outcome, Question
from amctl.device import Device, Refusal
from amctl.devicefile import ANDROID_12, PROFILE, SYSTEM, DeviceFile
from amctl.errors import DeviceFault
from amctl.results import Account

RULES = "rules"
OTHER = {PROFILE: ANDROID_12, ANDROID_12: PROFILE}
STATED = re.compile(r"^\s*rules\s*=.*$", re.MULTILINE)
# no rules have this name
NO_RULES = 'system_key = "k"\nrules = "amctl compare"\n'
GATES = ("not_exported", "needs_permission")
# a delivery that nobody finishes is over after so many milliseconds
DEADLINE = 60_000


class Simulated:
    """A session of `am` on the device file. Its caller is adb's shell, or an app."""

    def __init__(self, device: Device) -> None:
        self.device = device
        if device.file.package(SHELL) is None:
            device.system.install(f'package = "{SHELL}"\n')

    def ask(self, question: Question) -> Outcome:
        if question.ask == "query":
            found = self.device.system.query(question.kind, question.intent, default_only=question.default_only)
            return Outcome("lists", found) if found else Outcome("nothing")
        return self._broadcast(question) if question.ask == "broadcast" else _outcome(self.accounts(question))

    def accounts(self, question: Question) -> tuple[Account, ...]:
        """What `am` says of each component."""
        # a list or a link asks no gate, as if the system asked
        caller = question.caller or SHELL if question.changes else SYSTEM
        return self.device.system.explain(question.kind, question.intent, as_=caller)

    def stop(self, package: str) -> None:
        """Stops the package here as on the phone, where a broadcast then passes it over."""
        if self.device.is_installed(package):
            self.device.system.force_stop(package)

    def _broadcast(self, question: Question) -> Outcome:
        try:
            sent = self.device.app(question.caller or SHELL).send(question.intent)
        except Refusal as refused:
            if refused.rule != "protected_action":
                raise
            return Outcome("refuses", rule=refused.rule)
        # nobody finishes it, and a sender has few that live
        self.device.advance(DEADLINE)
        found = tuple(it.to for it in sent.receivers if it.verdict == "admitted" and isinstance(it.to, str))
        return Outcome("receives", found) if found else Outcome("nothing")


def _outcome(accounts: tuple[Account, ...]) -> Outcome:
    """What a start comes to by the accounts of all activities."""
    tied = tuple(str(it.to) for it in accounts if it.verdict == "tied")
    reached = tuple(str(it.to) for it in accounts if it.verdict == "reached")
    if tied:
        return Outcome("chooses", tied)
    if reached:
        return Outcome("opens", reached)
    gated = [it for it in accounts if it.verdict in GATES]
    # a target refuses its caller; several are a tie that is left out as a whole by a phone's rules, and nothing opens
    return Outcome("refuses", (str(gated[0].to),), gated[0].verdict, gated[0].name) if len(gated) == 1 else Outcome("nothing")


@contextmanager
def under_other_rules(file: DeviceFile, am: Path | None) -> Iterator[Simulated | None]:
    """The same device under the other rules, or none if this `am` has no others."""
    with tempfile.TemporaryDirectory() as folder:
        other = Path(folder) / file.path.name
        if not _has_rules(other, am):
            yield None
            return
        # a key that stands before all tables is the device's own
        other.write_text(f'{RULES} = "{OTHER[file.rules]}"\n{STATED.sub("", file.text, 1)}', encoding="utf-8")
        with Device.open(other, am=am) as device:
            yield Simulated(device)


def _has_rules(path: Path, am: Path | None) -> bool:
    """Whether this `am` reads which rules a device has: then it refuses some that nobody has."""
    path.write_text(NO_RULES, encoding="utf-8")
    try:
        Device.open(path, am=am).close()
    except DeviceFault as fault:
        return (fault.refused or "").endswith(RULES)
    return False
