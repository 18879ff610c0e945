"""Regular expressions as grep and sed write them, in Python's form."""
import re

from amctl import words_shell
from amctl.adb.console import NotServed

CLASSES = {
    "alnum": "0-9A-Za-z",
    "alpha": "A-Za-z",
    "blank": r" \t",
    "digit": "0-9",
    "lower": "a-z",
    "punct": r"!-/:-@\[-`{-~",
    "space": r"\s",
    "upper": "A-Z",
    "xdigit": "0-9A-Fa-f",
}
CLASS = re.compile(r"\[:([a-z]+):\]")
SPECIAL = "(){}|+?"
INTERVAL = re.compile(r"\{[0-9]+(?:,[0-9]*)?\}")


def compiled(pattern: str, *, is_extended: bool, ignores_case: bool = False) -> re.Pattern[str]:
    """A basic regular expression, or an extended one."""
    try:
        return re.compile(_Reader(pattern, is_extended).all(), re.IGNORECASE if ignores_case else 0)
    except (re.error, OverflowError, RecursionError):
        raise NotServed(words_shell.no_pattern(pattern)) from None


class _Reader:
    """Reads an expression from front to back."""

    def __init__(self, text: str, is_extended: bool) -> None:
        self.text = text
        self.is_extended = is_extended
        self.at = 0

    def all(self) -> str:
        found: list[str] = []
        while self.at < len(self.text):
            found.append(self._next(is_first=not found or found[-1] in ("(", "|", "^")))
        return "".join(found)

    def _next(self, *, is_first: bool) -> str:
        first = self.text[self.at]
        if first == "[":
            return self._bracket()
        if first == "\\":
            self.at += 2
            return self._escaped(self.text[self.at - 1 : self.at])
        if first == "{" and self.is_extended:
            interval = INTERVAL.match(self.text, self.at)
            self.at += interval.end() - interval.start() if interval else 1
            return interval[0] if interval else r"\{"
        self.at += 1
        if first in SPECIAL:
            return first if self.is_extended else f"\\{first}"
        if first == "*":
            return r"\*" if is_first else "*"
        if first in "^$" and not self.is_extended:
            # elsewhere than at an end it means itself
            is_end = is_first if first == "^" else self.text[self.at :] in ("", "\\)") or self.text.startswith((r"\)", r"\|"), self.at)
            return first if is_end else f"\\{first}"
        return first if first in "^$." else re.escape(first)

    def _escaped(self, letter: str) -> str:
        if letter in ("<", ">"):
            return r"\b"
        if letter and letter in SPECIAL and not self.is_extended:
            return letter
        if letter and letter in "123456789wWsSbBnt":
            return f"\\{letter}"
        return re.escape(letter or "\\")

    def _bracket(self) -> str:
        start = self.at + 1
        negated = self.text.startswith("^", start)
        # a bracket right at the beginning means itself
        end = self.text.find("]", start + negated + 1)
        while 0 <= end and CLASS.search(self.text, start, end + 1) and self.text[end - 1] == ":":
            end = self.text.find("]", end + 1)
        if end < 0:
            raise NotServed(words_shell.no_pattern(self.text))
        inner, self.at = self.text[start + negated : end], end + 1
        parts = []
        at = 0
        for found in CLASS.finditer(inner):
            if found[1] not in CLASSES:
                raise NotServed(words_shell.no_pattern(self.text))
            parts += [_literal(inner[at : found.start()]), CLASSES[found[1]]]
            at = found.end()
        parts.append(_literal(inner[at:]))
        return f"[{'^' if negated else ''}{''.join(parts)}]"


def _literal(text: str) -> str:
    """What is between brackets, where a backslash means itself and `-` makes a range."""
    return re.sub(r"[\\\[\]^&~|]", lambda found: f"\\{found[0]}", text)
