"""adb's words, so that scripts written for adb run with `alias adb='amctl adb'`."""
import os
import sys

from amctl.adb import tally
from amctl.adb.console import Console, Failed, NotServed
from amctl.adb.tool import COUNTING, Asked, carry_out, read_words
from amctl.errors import AmctlError

__all__ = ["main"]

INTERRUPTED = 130


def main(argv: list[str]) -> int:
    """Does what the words after `amctl adb` say, and gives the exit status."""
    console = Console(sys.stdout, sys.stderr)
    try:
        status = _counted(argv, console)
        sys.stdout.flush()
        return status
    except BrokenPipeError:
        # who reads no further, such as `grep -q`, has what it wanted
        os.dup2(os.open(os.devnull, os.O_WRONLY), sys.stdout.fileno())
        return 0
    except KeyboardInterrupt:
        return INTERRUPTED


def _counted(argv: list[str], console: Console) -> int:
    """Carries the words out; what isn't served is counted if the environment asks for it."""
    try:
        status = _read_and_carried_out(argv, console)
        if not set(argv) & set(COUNTING):
            tally.keep(console.refused)
        return status
    except AmctlError as fault:
        console.note(fault.told)
        return 1


def _read_and_carried_out(argv: list[str], console: Console) -> int:
    try:
        return _carried_out(read_words(argv), console)
    except Failed as failed:
        return console.fail(failed)
    except NotServed as refused:
        return console.refuse(refused)


def _carried_out(asked: Asked, console: Console) -> int:
    try:
        status = carry_out(asked, console)
        if asked.connection.ends:
            console.note(asked.connection.ends)
        return status
    finally:
        asked.connection.close()
