"""The words of a command, read one after the other as Android's `ShellCommand` reads them."""
import re
from collections.abc import Sequence

from amctl import words_adb
from amctl.adb.console import NotServed, Thrown

# the names of the one user that there is
USERS = ("0", "current", "cur")
WHOLE = re.compile(r"[+-]?[0-9]{1,30}")
TRUTHS = {"true": True, "t": True, "false": False, "f": False}


class Words:
    """What is left of a command's words."""

    def __init__(self, words: Sequence[str], name: str = "") -> None:
        self._words = list(words)
        self._last = name
        self._attached: str | None = None

    def option(self) -> str | None:
        """The next option; none if a bare word comes next. A short one may have its value attached, as in `-nCOMPONENT`."""
        if self._attached is not None:
            raise Thrown.argument(f'No argument expected after "{self._last}"')
        if not self._words or not self._words[0].startswith("-"):
            return None
        self._last = self._words.pop(0)
        if self._last == "--":
            return None
        if self._last[:2] != "--" and len(self._last) > 2:
            self._attached = self._last[2:]
            return self._last[:2]
        return self._last

    def bare(self) -> str | None:
        if self._attached is not None:
            attached, self._attached = self._attached, None
            return attached
        if not self._words:
            return None
        self._last = self._words.pop(0)
        return self._last

    def value(self) -> str:
        """The next word, which must be there."""
        found = self.bare()
        if found is None:
            raise Thrown.argument(f'Argument expected after "{self._last}"')
        return found

    def rest(self) -> tuple[str, ...]:
        found = tuple(self._words)
        self._words.clear()
        return found


def number(text: str) -> int:
    """A number as `Integer.decode` reads it: decimal, 0x.., #.. or octal, of 32 bits."""
    sign, digits = (-1, text[1:]) if text.startswith("-") else (1, text.removeprefix("+"))
    base = 16 if digits[:2].lower() == "0x" or digits[:1] == "#" else 8 if digits[:1] == "0" and len(digits) > 1 else 10
    bare = digits[2:] if digits[:2].lower() == "0x" else digits.removeprefix("#")
    try:
        found = sign * int(bare, base) if bare.isalnum() else None
    except ValueError:
        found = None
    if found is None or not -(1 << 31) <= found < 1 << 31:
        raise Thrown("java.lang.NumberFormatException", f'For input string: "{text}"')
    return found


def long_number(text: str) -> int:
    """A number as `Long.valueOf` reads it: decimal, of 64 bits."""
    if not WHOLE.fullmatch(text) or not -(1 << 63) <= int(text) < 1 << 63:
        raise Thrown("java.lang.NumberFormatException", f'For input string: "{text}"')
    return int(text)


def truth(text: str) -> bool:
    """A truth as `am` reads it on Android: by name, or a number that isn't 0."""
    word = text.lower()
    try:
        return TRUTHS[word] if word in TRUTHS else number(word) != 0
    except Thrown:
        raise Thrown.argument(f"Invalid boolean value: {word}") from None


def user(text: str) -> str:
    """The user: `0` or `all`, which are the same ones here."""
    if text in USERS:
        return "0"
    if text == "all":
        return text
    if text.isdecimal():
        raise NotServed(words_adb.no_user(text))
    raise Thrown.argument(f"Bad user number: {text}")
