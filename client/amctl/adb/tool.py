"""adb's own commands: what comes before `shell`, or in its place."""
import os
import sys
from collections.abc import Callable, Mapping
from dataclasses import dataclass
from pathlib import Path

from amctl import words_adb
from amctl.adb import shell, tally
from amctl.adb.console import Console, Failed, NotServed, Thrown
from amctl.adb.lines import OnDevice, read_line, thrower
from amctl.adb.options import Words
from amctl.adb.packages import Install
from amctl.adb.phone import Connection, Phone, target_of
from amctl.adb.properties import Properties
from amctl.device import Refusal
from amctl.errors import BadWords, NoServer
from amctl.where import Where

OURS = ("--url", "--device", "--store", "--am", "--user", "--ca")
SHELL_OPTIONS = ("-n", "-t", "-tt", "-T", "-x")


@dataclass(frozen=True)
class Asked:
    """adb's words, and which device they are for."""

    connection: Connection
    words: tuple[str, ...]


def read_words(argv: list[str], environment: Mapping[str, str] = os.environ) -> Asked:
    """Reads this client's words for the device, and adb's; both come before the command."""
    ours: dict[str, str] = {}
    serial = None
    rest = list(argv)
    while rest and rest[0].startswith("-"):
        if rest[0] in TOOLS:
            break
        name, equals, value = rest.pop(0).partition("=")
        if name in OURS or name == "-s":
            given = value if equals else rest.pop(0) if rest else None
            if not given:
                raise BadWords(words_adb.no_value(name))
            if name == "-s":
                serial = given
            else:
                ours[name] = given
        elif name not in ("-d", "-e"):
            # there is one device, whichever way adb would reach it
            raise NotServed(words_adb.no_option("adb", name))
    return Asked(Connection(target_of(_where(ours), environment, serial)), tuple(rest))


def _where(ours: Mapping[str, str]) -> Where:
    paths = {name: Path(ours[f"--{name}"]) for name in ("device", "store", "am", "ca") if f"--{name}" in ours}
    return Where(url=ours.get("--url"), user=ours.get("--user"), **paths)


def carry_out(asked: Asked, console: Console) -> int:
    if not asked.words:
        raise BadWords(words_adb.NO_COMMAND)
    name, rest = asked.words[0], asked.words[1:]
    if name not in TOOLS:
        raise NotServed(words_adb.no_command(name))
    if name not in WITHOUT_DEVICE:
        asked.connection.target.check()
    return TOOLS[name](asked, rest, console)


def _devices(asked: Asked, rest: tuple[str, ...], console: Console) -> int:
    console.say("List of devices attached")
    try:
        asked.connection.phone().device.system.status()
        serial = asked.connection.target.serial
        console.say(f"{serial:<22} device transport_id:1" if "-l" in rest else f"{serial}\tdevice")
    except NoServer as fault:
        console.note(str(fault))
    console.say()
    return 0


def _state(asked: Asked, rest: tuple[str, ...], console: Console) -> int:
    asked.connection.phone().device.system.status()
    console.say("device")
    return 0


def _serial(asked: Asked, rest: tuple[str, ...], console: Console) -> int:
    console.say(asked.connection.target.serial)
    return 0


def _wait(asked: Asked, rest: tuple[str, ...], console: Console) -> int:
    asked.connection.target.wait()
    return carry_out(Asked(asked.connection, rest), console) if rest else 0


def _nothing(asked: Asked, rest: tuple[str, ...], console: Console) -> int:
    # there is no server of adb's here
    return 0


def _version(asked: Asked, rest: tuple[str, ...], console: Console) -> int:
    for line in VERSION:
        console.say(line)
    return 0


def _summary(asked: Asked, rest: tuple[str, ...], console: Console) -> int:
    return tally.summary(console)


def _strict(asked: Asked, rest: tuple[str, ...], console: Console) -> int:
    return tally.run_strictly(rest, asked.connection.target.where, console)


def _install(asked: Asked, rest: tuple[str, ...], console: Console) -> int:
    def run() -> int:
        command = Install.read(Words(rest, "install"), "install")
        asked.connection.left.add(command.leaves)
        return command.run_streamed(asked.connection.phone(), console)

    return _guarded("install", console, run)


def _uninstall(asked: Asked, rest: tuple[str, ...], console: Console) -> int:
    return _run_line(asked.connection, ("pm", "uninstall", *rest), console)


def _shell(asked: Asked, rest: tuple[str, ...], console: Console) -> int:
    while rest and rest[0] in SHELL_OPTIONS:
        rest = rest[1:]
    # adb hands the words over as one line, and the device's shell reads it again; without words it reads what is piped to it
    text = " ".join(rest) or ("" if sys.stdin is None or sys.stdin.isatty() else sys.stdin.read())
    script = shell.parse(text)
    if not script.steps:
        raise NotServed(words_adb.NO_INTERACTIVE_SHELL)
    return shell.Runner(lambda words, to: _run_line(asked.connection, words, to)).run(script, console)


def _run_line(connection: Connection, words: tuple[str, ...], console: Console) -> int:
    def run() -> int:
        found = read_line(words)
        if isinstance(found, Properties):
            for line in found.lines:
                console.say(line)
            return 0
        return _run(connection, found, console)

    return _guarded(thrower(words), console, run)


def _guarded(name: str, console: Console, run: Callable[[], int]) -> int:
    """Runs a command; what Android would print of its end is printed, and the next one may run."""
    try:
        return run()
    except Thrown as thrown:
        return console.throw(thrown, name)
    except Failed as failed:
        return console.fail(failed)


def _run(connection: Connection, asked: OnDevice, console: Console) -> int:
    phone = connection.phone(asked.package)
    if asked.package is not None:
        _check_package(phone, asked.package)
    connection.left.add(asked.command.leaves)
    return asked.command.run(phone, console)


def _check_package(phone: Phone, package: str) -> None:
    try:
        phone.caller.tasks()
    except (BadWords, Refusal):
        raise Failed(f"run-as: unknown package: {package}") from None


VERSION = ("Android Debug Bridge version 1.0.41", "Version 31.0.3-amctl", "Installed as amctl adb")
# these count what others were refused, and aren't counted themselves
COUNTING = ("--summary", "--strict")
WITHOUT_DEVICE = ("devices", "start-server", "kill-server", "version", "--version", *COUNTING)
Tool = Callable[[Asked, tuple[str, ...], Console], int]
TOOLS: Mapping[str, Tool] = {
    "devices": _devices,
    "get-state": _state,
    "get-serialno": _serial,
    **dict.fromkeys(("wait-for-device", "wait-for-local-device", "wait-for-usb-device", "wait-for-any-device"), _wait),
    **dict.fromkeys(("start-server", "kill-server"), _nothing),
    **dict.fromkeys(("version", "--version"), _version),
    **{"--summary": _summary, "--strict": _strict},
    "install": _install,
    "uninstall": _uninstall,
    **dict.fromkeys(("shell", "exec-out"), _shell),
}
