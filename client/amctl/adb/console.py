"""Where a command prints, and the ways in which it ends early."""
from dataclasses import dataclass, field
from typing import TextIO

from amctl.errors import AmctlError

# what a shell on Android makes of a command's -1
FAILED = 255


@dataclass(frozen=True)
class Console:
    """Standard output and standard error. A line of adb's own may go to either, one of this client's only to the latter.

    `refused` has what wasn't served, sentence by sentence.
    """

    out: TextIO
    err: TextIO
    refused: list[str] = field(default_factory=list)

    def say(self, line: str = "") -> None:
        print(line, file=self.out)

    def write(self, text: str) -> None:
        self.out.write(text)

    def complain(self, line: str = "") -> None:
        print(line, file=self.err)

    def note(self, sentence: str) -> None:
        """A sentence that adb wouldn't print."""
        print(f"amctl: {sentence}", file=self.err)

    def refuse(self, refused: "NotServed") -> int:
        """Says that something isn't served, and gives the status."""
        self.refused.append(str(refused))
        self.note(str(refused))
        return 1

    def fail(self, failed: "Failed") -> int:
        """Prints how a command failed, and gives the status."""
        (self.say if failed.is_said else self.complain)(str(failed))
        if failed.note is not None:
            self.note(failed.note)
        return failed.status

    def throw(self, thrown: "Thrown", name: str) -> int:
        """Prints an exception as Android does, without the place in its code where it was thrown, and gives the status."""
        for line in ("", f"Exception occurred while executing '{name}':", str(thrown)):
            self.complain(line)
        return FAILED


class NotServed(AmctlError):
    """A word of adb's that has no answer here."""


class Thrown(AmctlError):
    """An exception that Android's command throws; it shows its text."""

    def __init__(self, kind: str, message: str) -> None:
        super().__init__(f"{kind}: {message}")

    @classmethod
    def argument(cls, message: str) -> "Thrown":
        return cls("java.lang.IllegalArgumentException", message)

    @classmethod
    def security(cls, message: str) -> "Thrown":
        return cls("java.lang.SecurityException", message)


class Failed(AmctlError):
    """A line that adb or Android prints as its last, and the status that goes with it. One that `is_said` goes to standard output."""

    def __init__(self, line: str, status: int = 1, *, is_said: bool = False, note: str | None = None) -> None:
        super().__init__(line)
        self.status = status
        self.is_said = is_said
        self.note = note
