"""What is reported: one line for each thing that was left out, and one for each input that can't be read."""
from dataclasses import dataclass, field
from typing import TextIO

SHOWN = 200


def shown(text: str) -> str:
    """A text on one line, at most so long, with what can't be printed written as escapes."""
    cut = text[:SHOWN] + "..." if len(text) > SHOWN else text
    return "".join(c if c.isprintable() else c.encode("unicode_escape").decode() for c in cut)


def quoted(text: str) -> str:
    return f'"{shown(text)}"'


@dataclass(frozen=True)
class Told:
    """What was left out or changed, and at which component or package of which file."""

    file: str
    place: str
    words: str

    def line(self) -> str:
        return f"{shown(self.file)}: {shown(self.place)}: {self.words}"


@dataclass
class Report:
    """Keeps what is reported, and writes its lines if there is a stream."""

    stream: TextIO | None = None
    told: list[Told] = field(default_factory=list)
    unread: int = 0

    def tell(self, told: Told) -> None:
        self.told.append(told)
        self.write(told.line())

    def fault(self, file: str, why: str) -> None:
        self.unread += 1
        self.write(f"{shown(file)}: can't be read: {shown(why)}")

    def write(self, line: str) -> None:
        if self.stream is not None:
            print(line, file=self.stream)


@dataclass(frozen=True)
class Place:
    """Where in the inputs something is: the file, and the component or the package in it."""

    report: Report
    file: str
    name: str

    def within(self, name: str) -> "Place":
        return Place(self.report, self.file, name)

    def left_out(self, what: str, why: object) -> None:
        self.changed(f"left out {what}: {why}")

    def changed(self, words: str) -> None:
        self.report.tell(Told(self.file, self.name, words))
