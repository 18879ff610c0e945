"""Reads a script: commands and how they are joined. What isn't served is refused by its name."""
import functools
import re
from collections.abc import Callable

from amctl import words_shell
from amctl.adb.console import NotServed
from amctl.adb.shell.tokens import Operator, Output, Text, Token, Word, plain, tokens_of
from amctl.adb.shell.tree import Branch, Command, Compound, Condition, Each, Group, Loop, Pipe, Redirected, Redirection, Script, Simple, Step

ASSIGNMENT = re.compile(r"([A-Za-z_][A-Za-z0-9_]*)=")
# a word that isn't a command's begins or ends something
ENDS = ("do", "done", "then", "elif", "else", "fi", "}")
LEFT_OUT = ("case", "function", "select", "time", "coproc", "esac", "in")
REDIRECTIONS = re.compile(r"([0-9]?)(>>?|>&|>\||<)|&>")
NULL = "/dev/null"


def parse(text: str) -> Script:
    """The script of a text; one without commands has no steps."""
    return script_of(tokens_of(text))


@functools.lru_cache(maxsize=256)
def script_of(tokens: tuple[Token, ...]) -> Script:
    reader = _Reader(tokens)
    found = reader.script()
    if not reader.is_at_end():
        raise NotServed(words_shell.no_word(reader.shown()))
    return found


class _Reader:
    """Reads tokens from front to back."""

    def __init__(self, tokens: tuple[Token, ...]) -> None:
        self.tokens = tokens
        self.at = 0

    def is_at_end(self) -> bool:
        return self.at >= len(self.tokens)

    def shown(self) -> str:
        token = self.tokens[self.at]
        return token.text if isinstance(token, Operator) else plain(token) or "a word in quotes"

    def _operator(self) -> str | None:
        token = None if self.is_at_end() else self.tokens[self.at]
        return token.text if isinstance(token, Operator) else None

    def _reserved(self) -> str | None:
        return None if self.is_at_end() else plain(self.tokens[self.at])

    def _take(self, word: str) -> None:
        """Passes a reserved word, which must be here."""
        self._skip_ends()
        if self._reserved() != word:
            raise NotServed(words_shell.expected(word))
        self.at += 1

    def _skip_ends(self) -> None:
        while self._operator() in (";", "\n"):
            self.at += 1

    def script(self) -> Script:
        """Commands up to the end, or up to a word that ends what they are in."""
        steps: list[Step] = []
        join = ";"
        self._skip_ends()
        while not self.is_at_end() and self._reserved() not in ENDS:
            steps.append(Step(self._pipe(), join))
            operator = self._operator()
            if operator is None:
                break
            if operator not in (";", "\n", "&&", "||"):
                raise NotServed(words_shell.no_operator(operator))
            self.at += 1
            join = ";" if operator == "\n" else operator
            while self._operator() == "\n" or (join == ";" and self._operator() == ";"):
                self.at += 1
        return Script(tuple(steps))

    def _pipe(self) -> Pipe:
        is_negated = self._reserved() == "!"
        self.at += is_negated
        commands = [self._command()]
        while self._operator() == "|":
            self.at += 1
            self._skip_ends()
            commands.append(self._command())
        return Pipe(tuple(commands), is_negated)

    def _command(self) -> Command:
        word = self._reserved()
        readers: dict[str | None, Callable[[], Compound]] = {
            **{"while": self._loop, "until": self._loop, "if": self._branch, "for": self._each},
            **{"{": self._group, "[[": self._condition},
        }
        if word in readers:
            return self._redirected(readers[word]())
        if word in LEFT_OUT or word in ENDS:
            raise NotServed(words_shell.no_word(word))
        return self._simple()

    def _redirected(self, command: Compound) -> Command:
        found: list[Redirection] = []
        while (operator := self._operator()) is not None and REDIRECTIONS.fullmatch(operator):
            found += self._redirection(operator)
        return Redirected(command, tuple(found)) if found else command

    def _loop(self) -> Loop:
        is_until = self._reserved() == "until"
        self.at += 1
        condition = self._some()
        self._take("do")
        body = self._some()
        self._take("done")
        return Loop(condition, body, is_until)

    def _branch(self) -> Branch:
        self.at += 1
        cases = [self._case()]
        while self._reserved() == "elif":
            self.at += 1
            cases.append(self._case())
        otherwise = Script()
        if self._reserved() == "else":
            self.at += 1
            otherwise = self._some()
        self._take("fi")
        return Branch(tuple(cases), otherwise)

    def _case(self) -> tuple[Script, Script]:
        condition = self._some()
        self._take("then")
        return condition, self._some()

    def _each(self) -> Each:
        self.at += 1
        name = self._reserved() or ""
        self.at += 1
        self._take("in")
        words = self._words()
        self._take("do")
        body = self._some()
        self._take("done")
        return Each(name, words, body)

    def _group(self) -> Group:
        self.at += 1
        script = self._some()
        self._take("}")
        return Group(script)

    def _some(self) -> Script:
        """At least one command."""
        found = self.script()
        if not found.steps:
            raise NotServed(words_shell.expected("a command"))
        return found

    def _words(self) -> tuple[Word, ...]:
        found: list[Word] = []
        while not self.is_at_end() and not isinstance(token := self.tokens[self.at], Operator):
            found.append(_checked(token))
            self.at += 1
        return tuple(found)

    def _condition(self) -> Condition:
        self.at += 1
        found: list[Word] = []
        while self._reserved() != "]]":
            if self.is_at_end():
                raise NotServed(words_shell.expected("]]"))
            token = self.tokens[self.at]
            if isinstance(token, Operator) and token.text not in ("&&", "||"):
                raise NotServed(words_shell.no_word(f"{token.text} in [[ ]]"))
            found.append((Text(token.text),) if isinstance(token, Operator) else _checked(token))
            self.at += 1
        self.at += 1
        return Condition(tuple(found))

    def _simple(self) -> Simple:
        words: list[Word] = []
        assignments: list[tuple[str, Word]] = []
        redirections: list[Redirection] = []
        while not self.is_at_end():
            token = self.tokens[self.at]
            if isinstance(token, Operator):
                if not REDIRECTIONS.fullmatch(token.text):
                    break
                redirections += self._redirection(token.text)
            elif not words and (given := _assignment(token)):
                assignments.append(given)
                self.at += 1
            else:
                words.append(_checked(token))
                self.at += 1
        if not words and not assignments:
            raise NotServed(words_shell.no_operator(self.shown()) if not self.is_at_end() else words_shell.expected("a command"))
        if words and assignments:
            raise NotServed(words_shell.no_assignment(assignments[0][0]))
        return Simple(tuple(words), tuple(assignments), tuple(redirections))

    def _redirection(self, operator: str) -> list[Redirection]:
        self.at += 1
        target = self._reserved()
        self.at += 1
        number = operator[:1] if operator[:1].isdigit() else ""
        kind = operator.removeprefix(number)
        if kind == "<" and target == NULL and number in ("", "0"):
            return []
        if kind == "&>" and target == NULL:
            return [Redirection(1, None), Redirection(2, None)]
        if kind in (">", ">>") and target == NULL and number in ("", "1", "2"):
            return [Redirection(int(number or 1), None)]
        if kind == ">&" and target in ("1", "2") and number in ("", "1", "2"):
            return [Redirection(int(number or 1), int(target))]
        raise NotServed(words_shell.no_redirection(operator))


def _assignment(word: Word) -> tuple[str, Word] | None:
    first = word[0] if word else None
    named = ASSIGNMENT.match(first.text) if isinstance(first, Text) and not first.is_quoted else None
    if named is None or not isinstance(first, Text):
        return None
    rest = first.text[named.end() :]
    return named[1], _checked((*([Text(rest)] if rest else []), *word[1:]))


def _checked(word: Word) -> Word:
    """The word; what isn't served in a command within it is refused before anything runs."""
    for part in word:
        if isinstance(part, Output):
            script_of(part.tokens)
    return word
