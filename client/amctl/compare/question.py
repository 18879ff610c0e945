"""A question to a phone and to `am`, and its outcome."""
from dataclasses import dataclass
from typing import Any, Literal

from amctl.devicefile import Kind
from amctl.intents import Intent

Ask = Literal["start", "query", "broadcast", "link"]
Way = Literal["opens", "lists", "receives", "chooses", "refuses", "nothing"]
# these make an app do something
CHANGING: tuple[Ask, ...] = ("start", "broadcast")
# adb's shell, who asks unless an app is named
SHELL = "com.android.shell"


@dataclass(frozen=True)
class Question:
    """What is asked: a start, whom an intent finds, a broadcast, or which activity a link would open."""

    ask: Ask
    intent: Intent
    kind: Kind = "activity"
    caller: str | None = None
    default_only: bool = False
    name: str = ""

    @property
    def changes(self) -> bool:
        return self.ask in CHANGING


@dataclass(frozen=True)
class Outcome:
    """What came of it; a refusal has the rule, and the permission that is missing."""

    way: Way
    components: tuple[str, ...] = ()
    rule: str | None = None
    permission: str | None = None

    def agrees(self, other: "Outcome") -> bool:
        """Whether both are the same. The order of what is listed doesn't count, and of a choice a phone doesn't say between which."""
        if (self.way, self.rule, self.permission) != (other.way, other.rule, other.permission):
            return False
        return self.way == "chooses" or set(self.components) == set(other.components)

    def apart(self, other: "Outcome") -> tuple[str, ...]:
        """The components that only one of both has, or all if both have the same."""
        both = tuple(dict.fromkeys((*self.components, *other.components)))
        return tuple(it for it in both if (it in self.components) != (it in other.components)) or both

    def to_json(self) -> dict[str, Any]:
        stated = {"rule": self.rule, "permission": self.permission}
        return {"outcome": self.way, "components": list(self.components), **{key: value for key, value in stated.items() if value}}
