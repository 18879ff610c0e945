"""`am broadcast`."""
from dataclasses import dataclass
from typing import ClassVar

from amctl.adb import flags
from amctl.adb.activities import take_common
from amctl.adb.command import Leaves
from amctl.adb.console import Console, Thrown
from amctl.adb.installed import uid_of
from amctl.adb.intents import AskedIntent, read_intent
from amctl.adb.options import Words
from amctl.adb.phone import Phone
from amctl.device import Refusal


@dataclass(frozen=True)
class Broadcast:
    """`am broadcast`: a normal one, since no app runs here that could pass an ordered one on."""

    leaves: ClassVar[Leaves] = "state"

    intent: AskedIntent
    permission: str | None = None

    @classmethod
    def read(cls, words: Words, name: str) -> "Broadcast":
        permissions: list[str] = []

        def take(option: str) -> bool:
            if option == "--receiver-permission":
                permissions.append(words.value())
                return True
            return take_common(option, words, [])

        intent = read_intent(words, take)
        return cls(intent.flagged(flags.FROM_SHELL), permissions[-1] if permissions else None)

    def run(self, phone: Phone, console: Console) -> int:
        sent = self.intent.sent("receiver")
        console.say(f"Broadcasting: {self.intent}")
        try:
            phone.caller.send(sent, permission=self.permission)
        except Refusal as refused:
            if refused.rule != "protected_action":
                raise
            uid = uid_of(phone, phone.caller.package)
            said = f"Permission Denial: not allowed to send broadcast {sent.action} from pid=0, uid={uid}"
            raise Thrown.security(said) from None
        console.say("Broadcast completed: result=0")
        return 0
