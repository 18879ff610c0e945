"""What a script of the device's shell is made of."""
from dataclasses import dataclass

from amctl.adb.shell.tokens import Word


@dataclass(frozen=True)
class Redirection:
    """Where standard output (1) or standard error (2) goes: nowhere, or where the other one goes."""

    of: int
    to: int | None


@dataclass(frozen=True)
class Simple:
    """A command with its words, or assignments."""

    words: tuple[Word, ...]
    assignments: tuple[tuple[str, Word], ...] = ()
    redirections: tuple[Redirection, ...] = ()


@dataclass(frozen=True)
class Condition:
    """`[[ .. ]]`; `&&` and `||` are words of it."""

    words: tuple[Word, ...]


@dataclass(frozen=True)
class Loop:
    """`while`, or `until` if it ends where the condition holds."""

    condition: "Script"
    body: "Script"
    is_until: bool


@dataclass(frozen=True)
class Branch:
    """`if`: conditions with what they lead to, and what is done if none holds."""

    cases: "tuple[tuple[Script, Script], ...]"
    otherwise: "Script"


@dataclass(frozen=True)
class Each:
    """`for NAME in WORDS`."""

    name: str
    words: tuple[Word, ...]
    body: "Script"


@dataclass(frozen=True)
class Group:
    """`{ .. }`."""

    script: "Script"


@dataclass(frozen=True)
class Redirected:
    """What is made of others, with redirections behind it."""

    command: "Compound"
    redirections: tuple[Redirection, ...]


Compound = Condition | Loop | Branch | Each | Group
Command = Simple | Compound | Redirected


@dataclass(frozen=True)
class Pipe:
    """Commands of which each reads what the one before it prints."""

    commands: tuple[Command, ...]
    is_negated: bool = False


@dataclass(frozen=True)
class Step:
    """A pipe, and what is before it: `;`, `&&` or `||`."""

    pipe: Pipe
    join: str = ";"

    def runs_after(self, status: int) -> bool:
        if self.join == "&&":
            return status == 0
        return self.join != "||" or status != 0


@dataclass(frozen=True)
class Script:
    steps: tuple[Step, ...] = ()
