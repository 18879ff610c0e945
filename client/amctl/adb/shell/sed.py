"""`sed`, as far as its lines are printed, deleted and substituted in."""
import re
from collections.abc import Iterator, Sequence
from dataclasses import dataclass

from amctl import words_shell
from amctl.adb.console import NotServed
from amctl.adb.shell.patterns import compiled



@dataclass(frozen=True)
class Address:
    """The line of a number, the last one, or those that a pattern finds."""

    number: int | None = None
    pattern: re.Pattern[str] | None = None

    def takes(self, number: int, line: str, is_last: bool) -> bool:
        if self.pattern is not None:
            return self.pattern.search(line) is not None
        return is_last if self.number is None else number == self.number


@dataclass(frozen=True)
class Substitution:
    pattern: re.Pattern[str]
    by: str
    is_global: bool
    prints: bool


@dataclass(frozen=True)
class Edit:
    """A command of sed with the lines that it is for: one address, two for a range, or none for all."""

    name: str
    addresses: tuple[Address, ...] = ()
    substitution: Substitution | None = None


def read(script: str, *, is_extended: bool) -> list[Edit]:
    """The commands of a script."""
    reader = _Reader(script, is_extended)
    found = []
    while reader.skip():
        found.append(reader.edit())
    return found


def run(edits: Sequence[Edit], lines: Sequence[str], *, prints: bool) -> list[str]:
    """What it prints of these lines."""
    found: list[str] = []
    open_ranges: set[int] = set()
    for number, line in enumerate(lines, 1):
        is_deleted = False
        for at, edit in enumerate(edits):
            if not _is_for(edit, at, number, line, number == len(lines), open_ranges):
                continue
            if edit.name == "d":
                is_deleted = True
                break
            if edit.name == "p":
                found.append(line)
            elif edit.substitution is not None:
                line, count = _substituted(line, edit.substitution)
                found += [line] if count and edit.substitution.prints else []
        found += [] if is_deleted or not prints else [line]
    return found


def _is_for(edit: Edit, at: int, number: int, line: str, is_last: bool, open_ranges: set[int]) -> bool:
    if len(edit.addresses) < 2:
        return not edit.addresses or edit.addresses[0].takes(number, line, is_last)
    first, last = edit.addresses
    if at in open_ranges:
        if last.takes(number, line, is_last):
            open_ranges.discard(at)
        return True
    if not first.takes(number, line, is_last):
        return False
    # a range whose end is a number that is passed has one line
    if last.pattern is not None or last.number is None or last.number > number:
        open_ranges.add(at)
    return True


def _substituted(line: str, of: Substitution) -> tuple[str, int]:
    """The line after it, and how often something was found. Nothing right behind what was found isn't found again."""
    pieces: list[str] = []
    end = count = 0
    for found in of.pattern.finditer(line):
        if count and found.start() == found.end() == end:
            continue
        pieces += [line[end : found.start()], _replaced(found, of.by)]
        end, count = found.end(), count + 1
        if not of.is_global:
            break
    return "".join((*pieces, line[end:])), count


def _replaced(found: re.Match[str], by: str) -> str:
    """The text in the place of what was found: `&` is all of it, and `\\1` its first group."""

    def piece(of: re.Match[str]) -> str:
        if of[0] == "&":
            return found[0]
        return (found[int(of[1])] or "") if of[1].isdecimal() else {"n": "\n", "t": "\t"}.get(of[1], of[1])

    try:
        return re.sub(r"&|\\(.)", piece, by)
    except IndexError:
        raise NotServed(words_shell.no_sed(by)) from None


class _Reader:
    """Reads a script from front to back."""

    def __init__(self, text: str, is_extended: bool) -> None:
        self.text = text
        self.is_extended = is_extended
        self.at = 0

    def skip(self) -> bool:
        """Whether there is more behind blanks and ends of commands."""
        while self.text[self.at : self.at + 1] in (" ", "\t", ";", "\n"):
            self.at += 1
        return self.at < len(self.text)

    def edit(self) -> Edit:
        addresses = tuple(self._addresses())
        name = self.text[self.at : self.at + 1]
        self.at += 1
        if name in ("p", "d"):
            self._end()
            return Edit(name, addresses)
        if name == "s":
            return Edit(name, addresses, self._substitution())
        raise NotServed(words_shell.no_sed(self.text))

    def _addresses(self) -> Iterator[Address]:
        for before in ("", ","):
            if not self.text.startswith(before, self.at):
                return
            self.at += len(before)
            found = re.compile(r"([0-9]+)|(\$)|/((?:[^/\\]|\\.)*)/").match(self.text, self.at)
            if found is None:
                return
            self.at = found.end()
            pattern = None if found[3] is None else compiled(found[3].replace(r"\/", "/"), is_extended=self.is_extended)
            yield Address(int(found[1]) if found[1] else None, pattern)

    def _substitution(self) -> Substitution:
        by = re.escape(self.text[self.at : self.at + 1])
        found = re.compile(rf"{by}((?:[^\\]|\\.)*?){by}((?:[^\\]|\\.)*?){by}([gp]*)", re.S).match(self.text, self.at) if by else None
        if found is None:
            raise NotServed(words_shell.no_sed(self.text))
        self.at = found.end()
        self._end()
        divided = self.text[found.start() : found.start() + 1]
        pattern = found[1].replace(f"\\{divided}", divided)
        return Substitution(compiled(pattern, is_extended=self.is_extended), found[2].replace(f"\\{divided}", divided), "g" in found[3], "p" in found[3])

    def _end(self) -> None:
        if self.text[self.at : self.at + 1] not in ("", " ", ";", "\n", "\t"):
            raise NotServed(words_shell.no_sed(self.text))
