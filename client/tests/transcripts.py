"""Transcripts of a terminal: a line that begins with `$ ` is a command, what follows is what it prints.

A line of standard error begins with `2> `, and `[N]` is a status that isn't 0.
"""
import shlex
from collections.abc import Callable, Iterator
from dataclasses import dataclass
from pathlib import Path

import pytest

Command = Callable[[list[str]], int]


@dataclass(frozen=True)
class Said:
    command: str
    printed: tuple[str, ...]


def read(path: Path) -> Iterator[Said]:
    """The commands of a transcript with what they print. A line that begins with `# ` is a comment."""
    parts = ("\n" + path.read_text(encoding="utf-8").removesuffix("\n")).split("\n$ ")
    for part in parts[1:]:
        command, *printed = part.split("\n")
        yield Said(command, tuple(it for it in printed if not it.startswith("# ")))


def run(command: str, main: Command, capsys: "pytest.CaptureFixture[str]") -> Said:
    """What the command prints now."""
    name, *words = shlex.split(command)
    assert name == "adb"
    status = main(words)
    captured = capsys.readouterr()
    out = captured.out.split("\n")[:-1]
    err = [f"2> {line}".rstrip() for line in captured.err.split("\n")[:-1]]
    return Said(command, (*out, *err, *([f"[{status}]"] if status else [])))
