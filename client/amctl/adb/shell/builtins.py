"""The commands that the device's shell has itself."""
import re
import time
from collections.abc import Callable, Mapping, Sequence
from dataclasses import dataclass

from amctl.adb.console import Console, Failed
from amctl.adb.shell.conditions import holds

ESCAPED = re.compile(r"\\([\\nrt])")
ESCAPES = {"n": "\n", "r": "\r", "t": "\t", "\\": "\\"}
ECHO_OPTION = re.compile(r"-[neE]+")
SECONDS = re.compile(r"([0-9]*\.?[0-9]+)([smh]?)")
UNITS = {"": 1, "s": 1, "m": 60, "h": 3600}


@dataclass
class Ended(Exception):
    """`exit`, and `break` and `continue` of a loop."""

    how: str
    status: int


def echo(words: Sequence[str], console: Console) -> int:
    rest = list(words)
    given = ""
    while rest and ECHO_OPTION.fullmatch(rest[0]):
        given += rest.pop(0)[1:]
    text = " ".join(rest)
    if "E" not in given:
        text = ESCAPED.sub(lambda it: ESCAPES[it[1]], text)
    console.write(text if "n" in given else f"{text}\n")
    return 0


def sleep(words: Sequence[str], console: Console) -> int:
    found = SECONDS.fullmatch(words[0]) if len(words) == 1 else None
    if found is None:
        raise Failed("sleep: needs a number of seconds")
    time.sleep(float(found[1]) * UNITS[found[2]])
    return 0


def test(words: Sequence[str], console: Console) -> int:
    return 0 if holds(words) else 1


def bracket(words: Sequence[str], console: Console) -> int:
    if list(words[-1:]) != ["]"]:
        raise Failed("sh: [: missing ]", 2)
    return test(words[:-1], console)


def ends(how: str) -> "Builtin":
    def end(words: Sequence[str], console: Console) -> int:
        number = words[0] if words and words[0].isdecimal() else "0"
        raise Ended(how, int(number) & 0xFF if how == "exit" else 0)

    return end


Builtin = Callable[[Sequence[str], Console], int]
BUILTINS: Mapping[str, Builtin] = {
    **{"echo": echo, "sleep": sleep, "test": test, "[": bracket},
    **dict.fromkeys(("true", ":"), lambda words, console: 0),
    "false": lambda words, console: 1,
    **{how: ends(how) for how in ("exit", "break", "continue")},
}
