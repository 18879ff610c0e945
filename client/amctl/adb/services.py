"""`am startservice` and `am stopservice`."""
from dataclasses import dataclass
from typing import ClassVar

from amctl import words_adb
from amctl.adb.activities import take_common
from amctl.adb.command import Leaves
from amctl.adb.console import FAILED, Console, Failed
from amctl.adb.installed import uid_of
from amctl.adb.intents import AskedIntent, read_intent
from amctl.adb.options import Words
from amctl.adb.phone import Phone
from amctl.device import Refusal
from amctl.results import Account

NOT_FOUND = "Error: Not found; no service started."
NOT_RUNNING = "Service not stopped: was not running."


@dataclass(frozen=True)
class StartService:
    leaves: ClassVar[Leaves] = "state"

    intent: AskedIntent
    user: str = "0"

    @classmethod
    def read(cls, words: Words, name: str) -> "StartService":
        return cls(*_read(words))

    def run(self, phone: Phone, console: Console) -> int:
        if self.user == "all":
            raise Failed("Error: Can't start activity with user 'all'", FAILED)
        sent = self.intent.sent("service")
        console.say(f"Starting service: {self.intent}")
        try:
            phone.caller.start_service(sent)
        except Refusal as refused:
            console.complain(self._refused(refused, phone))
            if refused.rule == "implicit_service":
                console.note(words_adb.IMPLICIT_SERVICE)
            return FAILED
        return 0

    def _refused(self, refused: Refusal, phone: Phone) -> str:
        if refused.rule in ("no_component", "no_service", "implicit_service"):
            return NOT_FOUND
        if refused.rule == "needs_permission":
            return f"Error: Requires permission {refused.name}"
        if refused.rule == "not_exported":
            # Android too says so in the place of a permission's name
            return f"Error: Requires permission not exported from uid {uid_of(phone, self._package(phone))}"
        raise refused

    def _package(self, phone: Phone) -> str:
        fields = self.intent.fields
        if fields.package is None and fields.component is not None:
            return fields.component.partition("/")[0]
        accounts: tuple[Account, ...] = phone.caller.explain("service", self.intent.sent("service"))
        return next(str(it.to).partition("/")[0] for it in accounts if it.verdict == "not_exported")


@dataclass(frozen=True)
class StopService:
    """`am stopservice`, which ends with -1 on Android whatever happened."""

    leaves: ClassVar[Leaves] = "state"

    intent: AskedIntent
    user: str = "0"

    @classmethod
    def read(cls, words: Words, name: str) -> "StopService":
        return cls(*_read(words))

    def run(self, phone: Phone, console: Console) -> int:
        if self.user == "all":
            raise Failed("Error: Can't stop activity with user 'all'", FAILED)
        sent = self.intent.sent("service")
        console.say(f"Stopping service: {self.intent}")
        found = sent.component or next(iter(phone.caller.query("service", sent)), None)
        console.complain(NOT_RUNNING if found is None else _stopped(phone, found))
        return FAILED


def _stopped(phone: Phone, component: str) -> str:
    try:
        phone.caller.stop_service(component)
    except Refusal as refused:
        if refused.rule in ("no_component", "no_service"):
            return NOT_RUNNING
        if refused.rule in ("not_exported", "needs_permission"):
            return "Error stopping service"
        raise
    return "Service stopped"


def _read(words: Words) -> tuple[AskedIntent, str]:
    users = ["0"]
    intent = read_intent(words, lambda option: take_common(option, words, users))
    return intent, users[-1]
