"""What words stand for: their text, with variables, sums and what commands print in its place."""
import glob
from collections.abc import Callable, MutableMapping
from dataclasses import dataclass

from amctl import words_shell
from amctl.adb.console import NotServed
from amctl.adb.shell.arithmetic import value_of
from amctl.adb.shell.tokens import Output, Part, Sum, Text, Token, Variable, Word, tokens_of

BLANKS = " \t\n"


@dataclass(frozen=True)
class Expander:
    """Words with the variables of a script; `printed` runs commands and gives what they print."""

    variables: MutableMapping[str, str]
    printed: Callable[[tuple[Token, ...]], str]

    def text(self, word: Word) -> str:
        """One text, which isn't split."""
        return "".join(map(self._value, word))

    def pattern(self, word: Word) -> str:
        """One text as a pattern: what is quoted means itself."""
        return "".join(glob.escape(self._value(it)) if it.is_quoted else self._value(it) for it in word)

    def words(self, word: Word) -> list[str]:
        """The words that it becomes: what is expanded outside quotes is split at blanks."""
        found: list[str] = []
        is_open = False
        for part in word:
            text = self._value(part)
            whole = isinstance(part, Text) or part.is_quoted
            pieces = [text] if whole else text.split()
            is_joined = is_open and (whole or text[:1] not in BLANKS)
            if pieces and is_joined:
                found[-1] += pieces.pop(0)
            found += pieces
            is_open = whole or (bool(text) and text[-1] not in BLANKS) or (is_open and not text)
        return found

    def _value(self, part: Part) -> str:
        if isinstance(part, Text):
            return part.text
        if isinstance(part, Output):
            return self.printed(part.tokens).rstrip("\n")
        if isinstance(part, Sum):
            return str(value_of(self.text(_parts(part.text)), self.variables))
        return self._variable(part)

    def _variable(self, part: Variable) -> str:
        if part.name not in self.variables:
            raise NotServed(words_shell.no_variable(part.name))
        return self.variables[part.name]


def _parts(text: str) -> Word:
    """The parts of a sum's text, in which blanks and brackets mean nothing."""
    quoted = text.replace('"', "")
    found = tokens_of(f'"{quoted}"')
    return found[0] if found and isinstance(found[0], tuple) else ()
