"""Conditions: `test`, `[ .. ]` and `[[ .. ]]`."""
import fnmatch
import operator
import re
from collections.abc import Callable, Mapping, Sequence

from amctl import words_shell
from amctl.adb.console import Failed, NotServed
from amctl.adb.shell.expand import Expander
from amctl.adb.shell.tokens import Word, plain

NUMBER = re.compile(r"\s*[+-]?[0-9]+\s*")
NUMBERS: Mapping[str, Callable[[int, int], bool]] = {
    "-eq": operator.eq,
    "-ne": operator.ne,
    "-lt": operator.lt,
    "-le": operator.le,
    "-gt": operator.gt,
    "-ge": operator.ge,
}
TEXTS = ("=", "==", "!=")
OF_FILES = ("-a", "-b", "-c", "-d", "-e", "-f", "-g", "-h", "-k", "-L", "-p", "-r", "-s", "-S", "-u", "-w", "-x", "-nt", "-ot", "-ef")
WRONG = 2


def holds(given: Sequence[str]) -> bool:
    """Whether the words of `[ .. ]` hold."""
    words = list(given)
    for at, word in enumerate(words):
        # a word that joins two conditions is between them
        if word in ("-o", "-a") and 0 < at < len(words) - 1 and len(words) > 3:
            one, other = holds(words[:at]), holds(words[at + 1 :])
            return (one or other) if word == "-o" else (one and other)
    if words[:1] == ["!"] and len(words) in (2, 3, 4):
        return not holds(words[1:])
    if len(words) <= 1:
        return words not in ([], [""])
    if len(words) == 2:
        return _of_one(*words)
    if len(words) == 3:
        return _of_two(words[0], words[1], words[2], lambda: words[0] == words[2])
    raise Failed(f"sh: [: {words[1]}: unexpected operator/operand", WRONG)


def holds_unsplit(words: Sequence[Word], expander: Expander) -> bool:
    """Whether the words of `[[ .. ]]` hold: none is split, and what is right of `==` is a pattern."""
    for join in ("||", "&&"):
        at = next((index for index, it in enumerate(words) if plain(it) == join), None)
        if at is not None:
            first = holds_unsplit(words[:at], expander)
            decides = first if join == "||" else not first
            return first if decides else holds_unsplit(words[at + 1 :], expander)
    if words and plain(words[0]) == "!":
        return not holds_unsplit(words[1:], expander)
    if len(words) == 1:
        return bool(expander.text(words[0]))
    if len(words) == 2:
        return _of_one(plain(words[0]) or "", expander.text(words[1]))
    if len(words) == 3:
        one, other = expander.text(words[0]), expander.text(words[2])
        return _of_two(one, plain(words[1]) or "", other, lambda: fnmatch.fnmatchcase(one, expander.pattern(words[2])))
    raise NotServed(words_shell.no_condition("[[ ]]"))


def _of_one(name: str, value: str) -> bool:
    if name in ("-z", "-n"):
        return (value == "") == (name == "-z")
    if name in OF_FILES:
        raise NotServed(words_shell.no_files(f"{name} {value}"))
    raise Failed(f"sh: [: {name}: unexpected operator/operand", WRONG)


def _of_two(one: str, name: str, other: str, is_alike: Callable[[], bool]) -> bool:
    if name in TEXTS:
        return is_alike() == (name != "!=")
    if name in NUMBERS:
        for it in (one, other):
            if not NUMBER.fullmatch(it):
                raise Failed(f"sh: [: {it}: unexpected operator/operand" if it else "sh: [: unexpected operator/operand", WRONG)
        return NUMBERS[name](int(one), int(other))
    raise NotServed(words_shell.no_condition(name))
