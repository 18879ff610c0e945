"""Words and operators of a line, as the device's shell reads it."""
import re
from collections.abc import Callable
from dataclasses import dataclass

from amctl import words_shell
from amctl.adb.console import NotServed

BLANKS = " \t"
OPERATOR = re.compile(r"&&|\|\||;;|&>|[0-9]?(?:>>|>&|>\||<<<|<<|<&|<>|[<>])|[;|&()\n]")
# a number belongs to an operator only where a word begins
INSIDE = re.compile(r"&&|\|\||;;|&>|>>|>&|>\||<<<|<<|<&|<>|[<>;|&()\n]")
NAME = re.compile(r"[A-Za-z_][A-Za-z0-9_]*")
BRACES = re.compile(r"\{[^{}]*(?:,|\.\.)[^{}]*\}")
# what stays a backslash's in double quotes
ESCAPED_IN_QUOTES = '\\"$`\n'


@dataclass(frozen=True)
class Text:
    """A piece of a word as it is."""

    text: str
    is_quoted: bool = False


@dataclass(frozen=True)
class Variable:
    """`$NAME`; the status of the last command is the variable `?`."""

    name: str
    is_quoted: bool = False


@dataclass(frozen=True)
class Output:
    """`$(..)`: what the commands print."""

    tokens: "tuple[Token, ...]"
    is_quoted: bool = False


@dataclass(frozen=True)
class Sum:
    """`$((..))`."""

    text: str
    is_quoted: bool = False


@dataclass(frozen=True)
class Operator:
    text: str


Part = Text | Variable | Output | Sum
Word = tuple[Part, ...]
Token = Word | Operator


def tokens_of(text: str) -> tuple[Token, ...]:
    """The tokens of a text. What the device's shell would do with a character and isn't served is refused."""
    return _Reader(text).tokens()


def plain(token: Token) -> str | None:
    """A word that is text without quotes, such as a reserved one."""
    is_plain = isinstance(token, tuple) and all(isinstance(it, Text) and not it.is_quoted for it in token)
    return "".join(it.text for it in token if isinstance(it, Text)) if is_plain and isinstance(token, tuple) else None


class _Reader:
    """Reads a text from front to back."""

    def __init__(self, text: str, at: int = 0) -> None:
        self.text = text
        self.at = at

    def tokens(self, *, is_inner: bool = False) -> tuple[Token, ...]:
        """All tokens, or those up to the bracket that ends `$(`."""
        found: list[Token] = []
        while self._skip_blanks():
            operator = OPERATOR.match(self.text, self.at)
            if operator:
                self.at = operator.end()
                if is_inner and operator[0] == ")":
                    return tuple(found)
                found.append(Operator(operator[0]))
            elif self.text[self.at] == "#":
                # a comment ends with its line
                end = self.text.find("\n", self.at)
                self.at = len(self.text) if end < 0 else end
            else:
                found.append(self._word())
        if is_inner:
            raise NotServed(words_shell.unclosed("$("))
        return tuple(found)

    def _skip_blanks(self) -> bool:
        while self.at < len(self.text) and (self.text[self.at] in BLANKS or self.text.startswith("\\\n", self.at)):
            self.at += 1 if self.text[self.at] in BLANKS else 2
        return self.at < len(self.text)

    def _word(self) -> Word:
        parts: list[Part] = []
        while self.at < len(self.text) and self.text[self.at] not in BLANKS and not INSIDE.match(self.text, self.at):
            parts += self._piece()
        merged = _merged(parts)
        braces = next((it[0] for part in merged if isinstance(part, Text) and not part.is_quoted and (it := BRACES.search(part.text))), None)
        if braces:
            raise NotServed(words_shell.no_braces(braces))
        return merged

    def _piece(self) -> list[Part]:
        first = self.text[self.at]
        readers: dict[str, Callable[[], list[Part]]] = {"'": self._single_quoted, '"': self._double_quoted, "\\": self._escaped}
        if first in readers:
            return readers[first]()
        if first in "$`":
            return [self._expansion(is_quoted=False)]
        self.at += 1
        return [Text(first)]

    def _escaped(self) -> list[Part]:
        self.at += 2
        escaped = self.text[self.at - 1 : self.at]
        return [] if escaped == "\n" else [Text(escaped, True)]

    def _single_quoted(self) -> list[Part]:
        end = self.text.find("'", self.at + 1)
        if end < 0:
            raise NotServed(words_shell.open_quote(self.text[self.at :]))
        quoted, self.at = self.text[self.at + 1 : end], end + 1
        return [Text(quoted, True)]

    def _double_quoted(self) -> list[Part]:
        start = self.at
        # also an empty text in quotes is a word
        parts: list[Part] = [Text("", True)]
        self.at += 1
        while self.at < len(self.text) and self.text[self.at] != '"':
            first = self.text[self.at]
            if first in "$`":
                parts.append(self._expansion(is_quoted=True))
                continue
            if first == "\\" and self.text[self.at + 1 : self.at + 2] in tuple(ESCAPED_IN_QUOTES):
                self.at += 1
                first = self.text[self.at].replace("\n", "")
            parts.append(Text(first, True))
            self.at += 1
        if self.at >= len(self.text):
            raise NotServed(words_shell.open_quote(self.text[start:]))
        self.at += 1
        return parts

    def _expansion(self, *, is_quoted: bool) -> Part:
        if self.text[self.at] == "`":
            return self._backquoted(is_quoted)
        rest = self.text[self.at + 1 :]
        if rest.startswith("(("):
            return self._sum(is_quoted)
        if rest.startswith("("):
            self.at += 2
            return Output(self.tokens(is_inner=True), is_quoted)
        name = NAME.match(rest)
        if name or rest.startswith("?"):
            found = name[0] if name else "?"
            self.at += 1 + len(found)
            return Variable(found, is_quoted)
        braced = re.match(r"\{([A-Za-z_][A-Za-z0-9_]*|\?)\}", rest)
        if braced:
            self.at += 1 + braced.end()
            return Variable(braced[1], is_quoted)
        if not rest or rest[0] in f'{BLANKS}\n"/:.,=%':
            # a dollar before what names nothing is one
            self.at += 1
            return Text("$", True)
        whole = re.match(r"\{[^}]*\}", rest)
        raise NotServed(words_shell.no_expansion(f"${whole[0] if whole else rest[0]}"))

    def _sum(self, is_quoted: bool) -> Part:
        end = self.text.find("))", self.at)
        if end < 0:
            raise NotServed(words_shell.unclosed("$(("))
        found, self.at = self.text[self.at + 3 : end], end + 2
        # a bracket of the sum itself may be the first of the two
        while found.count("(") > found.count(")") and self.text.startswith(")", self.at):
            found, self.at = found + ")", self.at + 1
        return Sum(found, is_quoted)

    def _backquoted(self, is_quoted: bool) -> Part:
        end = self.text.find("`", self.at + 1)
        if end < 0:
            raise NotServed(words_shell.unclosed("`"))
        inner, self.at = self.text[self.at + 1 : end], end + 1
        return Output(tokens_of(inner), is_quoted)


def _merged(parts: list[Part]) -> Word:
    """The parts with neighbouring texts in one."""
    found: list[Part] = []
    for part in parts:
        last = found[-1] if found else None
        if isinstance(part, Text) and isinstance(last, Text) and part.is_quoted == last.is_quoted:
            found[-1] = Text(last.text + part.text, part.is_quoted)
        else:
            found.append(part)
    return tuple(found)
