"""A finding, with its place and with what shows it."""
import hashlib
from collections.abc import Mapping
from dataclasses import dataclass, field
from typing import TYPE_CHECKING, Any, Literal

from amctl import words_check, words_lint
from amctl.findings.rule import Rule, Severity
from amctl.places import Place

if TYPE_CHECKING:
    # a device file alone is looked at without a check's questions
    from amctl.check.asking import Exchange

Tool = Literal["check", "lint"]
RULES: Mapping[Tool, Mapping[str, Rule]] = {"check": words_check.RULES, "lint": words_lint.RULES}
# the rule of what wasn't looked at
LEFT_OUT = "left-out"
# enough of a hash that two findings of a run never share it
ID_DIGITS = 16


@dataclass(frozen=True)
class Finding:
    """What a rule of a tool found. `about` is the component, the intent or the name that it is about; `at` is the path
    in the file, `place` its place in the text, if it is in this file, and `shown` the line itself, without a key."""

    rule: str
    about: str
    message: str
    place: Place | None = None
    at: str = ""
    exchanges: tuple["Exchange", ...] = ()
    shown: str = field(default="", compare=False)
    tool: Tool = "check"

    @property
    def of_rule(self) -> Rule:
        return RULES[self.tool][self.rule]

    @property
    def severity(self) -> Severity:
        return self.of_rule.severity

    @property
    def line_and_column(self) -> tuple[int, int]:
        """Where it is; zeros if it isn't in the file."""
        return (self.place.line, self.place.column) if self.place else (0, 0)

    @property
    def is_compared(self) -> bool:
        """Whether it rests on plain comparison: `am` wasn't asked, or wasn't asked this."""
        return not self.exchanges

    @property
    def id(self) -> str:
        """The same in every run that finds it, at whatever place in the file."""
        return hashlib.sha256("\n".join((self.rule, self.about, self.message)).encode()).hexdigest()[:ID_DIGITS]

    def to_json(self, file: str) -> dict[str, Any]:
        return {
            "id": self.id,
            "rule": self.rule,
            "group": self.of_rule.group,
            "severity": self.severity,
            "file": file,
            "at": self.at,
            "line": self.place.line if self.place else None,
            "column": self.place.column if self.place else None,
            "about": self.about,
            "message": self.message,
            "compared": self.is_compared,
            "exchanges": [it.to_json() for it in self.exchanges],
        }
