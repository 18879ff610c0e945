"""What adb's words ask: its own commands, and the commands of the device's shell."""
from collections.abc import Callable, Mapping
from dataclasses import dataclass

from amctl import words_adb
from amctl.adb import activities, broadcasts, dumps, keys, links, monkey, packages, resolving, services
from amctl.adb.command import Command
from amctl.adb.console import FAILED, Failed, NotServed
from amctl.adb.options import Words
from amctl.adb.properties import Properties

Reader = Callable[[Words, str], Command]
AM: Mapping[str, Reader] = {
    **dict.fromkeys(("start", "start-activity"), activities.Start.read),
    **dict.fromkeys(("startservice", "start-service"), services.StartService.read),
    **dict.fromkeys(("stopservice", "stop-service"), services.StopService.read),
    "broadcast": broadcasts.Broadcast.read,
    "force-stop": activities.ForceStop.read,
    "get-current-user": activities.CurrentUser.read,
    "stack": activities.StackList.read,
}
PM: Mapping[str, Reader] = {
    "list": packages.ListPackages.read,
    "path": packages.ApkPath.read,
    "clear": activities.Clear.read,
    "dump": dumps.Dump.read_package,
    "install": packages.Install.read,
    "uninstall": packages.Uninstall.read,
    **dict.fromkeys(("grant", "revoke"), packages.Grant.read),
    **dict.fromkeys(("query-activities", "query-services", "query-receivers"), resolving.Query.read),
    "resolve-activity": resolving.Resolve.read,
    "set-app-links": links.SetAppLinks.read,
    "get-app-links": links.GetAppLinks.read,
}
SERVICES = {"activity": ("am", AM), "package": ("pm", PM)}


@dataclass(frozen=True)
class OnDevice:
    """A command of the device's shell, and the package as which `run-as` makes it."""

    command: Command
    package: str | None = None


def read_line(words: tuple[str, ...]) -> OnDevice | Properties:
    """What a line of the device's shell asks."""
    first, rest = words[0], words[1:]
    if first == "run-as":
        return _as_package(rest)
    if first == "cmd" and rest and rest[0] in SERVICES:
        return OnDevice(_read(*SERVICES[rest[0]], rest[1:]))
    if first in ("am", "pm"):
        return OnDevice(_read(first, AM if first == "am" else PM, rest))
    if first == "dumpsys":
        return OnDevice(dumps.Dump.read(Words(rest, first), first))
    if first == "getprop":
        return Properties.read(rest)
    if first == "input" and rest[:1] == ("keyevent",):
        return OnDevice(keys.KeyEvents.read(Words(rest[1:], "keyevent"), "keyevent"))
    if first == "monkey":
        return OnDevice(monkey.Monkey.read(Words(rest, first), first))
    raise NotServed(words_adb.no_shell_command(" ".join(words[:2]) if first == "cmd" else first))


def thrower(words: tuple[str, ...]) -> str:
    """The word that Android names if a line throws."""
    if words[0] == "run-as" and len(words) > 2:
        return thrower(words[2:])
    if words[0] not in ("am", "pm", "cmd"):
        return words[0]
    at = 2 if words[0] == "cmd" else 1
    return words[at] if len(words) > at else words[0]


def _read(tool: str, readers: Mapping[str, Reader], words: tuple[str, ...]) -> Command:
    if not words:
        raise NotServed(words_adb.no_subcommand(tool, ""))
    name, rest = words[0], words[1:]
    if name in readers:
        return readers[name](Words(rest, name), name)
    if name in words_adb.NO_SUBCOMMANDS:
        raise NotServed(words_adb.no_subcommand(tool, name))
    raise Failed(f"Unknown command: {name}", FAILED, is_said=True, note=words_adb.unknown_subcommand(tool, tuple(readers)))


def _as_package(words: tuple[str, ...]) -> OnDevice:
    if len(words) < 2:
        raise Failed("usage: run-as <package-name> [--user <uid>] <command> [<args>]")
    package, line = words[0], words[1:]
    found = read_line(line) if line[:1] == ("am",) or line[:2] == ("cmd", "activity") else None
    if not isinstance(found, OnDevice) or isinstance(found.command, (activities.ForceStop, activities.StackList)):
        raise NotServed(words_adb.no_run_as(line[0]))
    return OnDevice(found.command, package)
