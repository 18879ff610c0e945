"""Sentences of `amctl adb`: what is refused and why, and what to do instead."""
from collections.abc import Sequence
from pathlib import Path

NO_DEVICE = (
    "no device is named: set AMCTL_DEVICE to a device file, and AMCTL_URL too if `am serve` runs on it, as in http://127.0.0.1:8080;"
    " or begin with `amctl adb --device FILE [--url URL]`."
)
NO_COMMAND = "no command is given: write one of adb's, such as `amctl adb shell am start -a android.intent.action.VIEW`; docs/ADB.md lists them."
NO_INTERACTIVE_SHELL = "`adb shell` without a command isn't served: write the command behind it, such as `adb shell pm list packages`."
NO_MANIFEST = "no file is given: name an APK, an AndroidManifest.xml, or a manifest in TOML as docs/DEVICE.md describes it."
NO_GRANTS_OF_TOML = "-g isn't served: a manifest in TOML doesn't list the permissions that its app asks for; give each by `pm grant`."
NO_MONKEY = "monkey isn't served without -p PACKAGE: name the app that it starts."
STATE_ENDS = (
    "what was started, sent or stopped ends with this session: start `amctl serve device.toml`, and set AMCTL_URL to its address,"
    " as in http://127.0.0.1:8080, so that it lasts."
)
RIGHTS_END = (
    "what was installed, granted or approved ends with this session: set AMCTL_STORE to a file that keeps it, or AMCTL_URL to a"
    " server's address."
)
NO_ALL_PACKAGES = "`--package all` isn't served: name one package at a time."
IMPLICIT_SERVICE = "the intent names neither a component nor a package, which a service needs: add -n or -p."

LEFT_OUT = {
    "logcat": "there are no logs; what was asked is in `amctl history`",
    "push": "there are no files on the device",
    "pull": "there are no files on the device",
    "sync": "there are no files on the device",
    "forward": "there are no ports on the device",
    "reverse": "there are no ports on the device",
    "connect": "set AMCTL_URL to the server instead",
    "disconnect": "unset AMCTL_URL instead",
    "tcpip": "a server listens by `am serve` alone",
    "usb": "a server listens by `am serve` alone",
    "root": "calls are the system's already",
    "unroot": "calls are the system's; `run-as PACKAGE` makes one a package's",
    "reboot": "a device ends with its session or server",
    "remount": "there are no files on the device",
    "emu": "the device is no emulator of a whole phone",
    "bugreport": "there are no logs; what was asked is in `amctl history`",
    "install-multiple": "a package has one manifest: use `install`",
    "sideload": "there is no system to replace",
    "backup": "apps have no data here",
    "restore": "apps have no data here",
    "help": "docs/ADB.md lists what is served",
    "--help": "docs/ADB.md lists what is served",
    "-H": "there is no server of adb's; set AMCTL_URL instead",
    "-P": "there is no server of adb's; set AMCTL_URL instead",
    "-t": "there are no transport ids; use -s",
    "-L": "there is no server of adb's; set AMCTL_URL instead",
}

SHELL_LEFT_OUT = {
    "input": "there is no screen to touch; start the activity with `am start`, and go back by `input keyevent KEYCODE_BACK`",
    "screencap": "there is no screen",
    "screenrecord": "there is no screen",
    "uiautomator": "there is no screen",
    "wm": "there is no screen",
    "logcat": "there are no logs; what was asked is in `amctl history`",
    "content": "content providers are left out",
    "cmd content": "content providers are left out",
    "settings": "settings aren't simulated",
    "svc": "networks and power aren't simulated",
    "setprop": "properties can't be set",
    "ps": "there are no processes; `dumpsys activity services` shows what runs",
    "pidof": "there are no processes; `dumpsys activity services` shows what runs",
    "kill": "there are no processes; use `am force-stop`",
    "ls": "there are no files on the device",
    "cat": "there are no files on the device",
    "rm": "there are no files on the device",
    "mkdir": "there are no files on the device",
    "su": "calls are the system's already; `run-as PACKAGE am ..` makes one a package's",
    "instrument": "apps don't run here",
    "appops": "app-ops are left out",
    "cmd appops": "app-ops are left out",
    "cmd jobscheduler": "jobs are left out",
    "cmd alarm": "alarms are left out",
    "awk": "pipe on your own side: put `| awk ..` outside the quotes",
    "xargs": "pipe on your own side: put `| xargs ..` outside the quotes",
}

# what Android has and `am` leaves out, by tool; a word that isn't listed anywhere is unknown to Android too
NO_SUBCOMMANDS = {
    **dict.fromkeys(("startforegroundservice", "start-foreground-service", "startfgservice", "start-fg-service"), "foreground services are left out"),
    "instrument": "apps don't run here",
    "kill": "there are no processes; use `am force-stop`",
    "kill-all": "there are no processes; use `am force-stop` for each package",
    "stop-app": "use `am force-stop`",
    "crash": "there are no processes",
    "monitor": "apps don't run here",
    "profile": "apps don't run here",
    "dumpheap": "apps don't run here",
    "set-debug-app": "apps don't run here",
    "clear-debug-app": "apps don't run here",
    "task": "tasks are moved by intents alone; `am stack list` shows them",
    "switch-user": "several users are left out",
    "start-user": "several users are left out",
    "stop-user": "several users are left out",
    "to-uri": "intents as URIs are left out",
    "to-intent-uri": "intents as URIs are left out",
    "to-app-uri": "intents as URIs are left out",
    "hang": "apps don't run here",
    "restart": "a device ends with its session or server",
    "idle-maintenance": "jobs are left out",
    "set-inactive": "limits of the background are left out",
    "get-inactive": "limits of the background are left out",
    "make-uid-idle": "limits of the background are left out",
    "enable": "a component is enabled or not by its manifest",
    "disable": "a component is enabled or not by its manifest",
    "disable-user": "a component is enabled or not by its manifest",
    "default-state": "a component is enabled or not by its manifest",
    "hide": "packages can't be hidden; use `pm uninstall`",
    "unhide": "packages can't be hidden",
    "suspend": "packages can't be suspended",
    "unsuspend": "packages can't be suspended",
    "install-existing": "there is one user, 0",
    "install-create": "a package has one manifest: use `pm install`",
    "install-write": "a package has one manifest: use `pm install`",
    "install-commit": "a package has one manifest: use `pm install`",
    "reset-permissions": "revoke each by `pm revoke`",
    "set-permission-enforced": "decisions on permissions are left out",
    "get-install-location": "packages have no files here",
    "set-install-location": "packages have no files here",
    "set-home-activity": "stored preferences are left out",
    "set-installer": "installers are left out",
    "create-user": "several users are left out",
    "remove-user": "several users are left out",
    "get-max-users": "there is one user, 0",
    "verify-app-links": "there is no network; use `pm set-app-links`",
    "reset-app-links": "use `pm set-app-links --package PACKAGE STATE_NO_RESPONSE all`",
    "set-app-link": "use `pm set-app-links`",
    "get-app-link": "use `pm get-app-links`",
    "set-app-links-user-selection": "the user's selection is left out; use `pm set-app-links`",
    "set-app-links-allowed": "the user's selection is left out",
    "get-app-link-owners": "use `pm get-app-links`",
    "trim-caches": "packages have no files here",
    "compile": "packages have no code here",
    "stack": "only `list` is served",
    "list": "only `list packages` is served",
    "set-stop-user-on-switch": "several users are left out",
}

NO_OPTIONS = {
    "--selector": "--selector isn't served: selectors are left out.",
    "-D": "-D isn't served: apps don't run here, so there is nothing to debug.",
    "-N": "-N isn't served: apps don't run here, so there is nothing to debug.",
    "-R": "-R isn't served: write the start again.",
    "-P": "-P isn't served: apps don't run here, so there is nothing to profile.",
    "--start-profiler": "--start-profiler isn't served: apps don't run here, so there is nothing to profile.",
    "--sampling": "--sampling isn't served: apps don't run here, so there is nothing to profile.",
    "--streaming": "--streaming isn't served: apps don't run here, so there is nothing to profile.",
    "--attach-agent": "--attach-agent isn't served: apps don't run here.",
    "--attach-agent-bind": "--attach-agent-bind isn't served: apps don't run here.",
    "--track-allocation": "--track-allocation isn't served: apps don't run here.",
    "--display": "--display isn't served: there is one display, 0.",
    "--windowingMode": "--windowingMode isn't served: there are no windows.",
    "--activityType": "--activityType isn't served: all activities are standard ones.",
    "--task": "--task isn't served: tasks are chosen by the intent and the launch mode.",
    "--task-overlay": "--task-overlay isn't served: there are no windows.",
    "--lock-task": "--lock-task isn't served: there are no windows.",
    "--allow-background-activity-starts": "--allow-background-activity-starts isn't served: limits of the background are left out.",
}

NO_INSTALL_OPTIONS = {
    "-i": "-i isn't served: installers are left out.",
    "-l": "-l isn't served: packages have no files here.",
    "-s": "-s isn't served: packages have no files here.",
    "-f": "-f isn't served: packages have no files here.",
    "-p": "-p isn't served: a package has one manifest.",
    "-S": "-S isn't served: name a manifest's file instead of sending one.",
    "--instant": "--instant isn't served: instant apps are left out.",
    "--abi": "--abi isn't served: packages have no code here.",
}


def no_command(name: str) -> str:
    return _not_served(f"adb {name}", LEFT_OUT.get(name, "docs/ADB.md lists what is served"))


def no_shell_command(name: str) -> str:
    return _not_served(f"adb shell {name}", SHELL_LEFT_OUT.get(name, "docs/ADB.md lists what is served"))


def no_subcommand(tool: str, name: str) -> str:
    # of a word that has words of its own, such as `am stack`, the first one says what is served
    why = NO_SUBCOMMANDS.get(name, NO_SUBCOMMANDS.get(tool.split()[-1], "docs/ADB.md lists what is served"))
    return _not_served(f"{tool} {name}".rstrip(), why)


def no_option(tool: str, option: str) -> str:
    return _not_served(f"{tool} {option}", LEFT_OUT.get(option, "docs/ADB.md lists what is served"))


def no_dump(asked: str) -> str:
    why = "use `dumpsys activity activities`, `services` or `broadcasts`, `dumpsys package NAME` or `dumpsys window`"
    return _not_served(f"dumpsys {asked}".rstrip(), why)


def no_run_as(command: str) -> str:
    return _not_served(f"run-as with {command}", "only `am start`, `startservice`, `stopservice` and `broadcast` can be made as a package")


def no_typed_extra(option: str) -> str:
    return _not_served(option, "an extra is a text (--es), a whole number (--ei, --el) or a truth (--ez) here")


def no_flag(name: str, bit: int) -> str:
    return _not_served(f"{name} (0x{bit:x})", "`am` doesn't simulate this flag, so its answer could be another one than a device's; leave it out")


def no_query_flags(mask: int) -> str:
    return _not_served(f"--query-flags 0x{mask:x}", "only 0x10000 (MATCH_DEFAULT_ONLY) is")


def no_user(number: str) -> str:
    return _not_served(f"--user {number}", "several users are left out; there is user 0")


def no_intent_uri(uri: str) -> str:
    return _not_served(uri, "intents as URIs are left out; write its parts as -a, -d, -c and the others")


def no_bundle(path: str) -> str:
    return _not_served(path, "a package has one manifest here; install an APK that has it")


def dropped_flag(name: str) -> str:
    return f"{name} isn't sent: `am` doesn't simulate it, and a device may take activities away from the task that it finds."


def no_key(key: str) -> str:
    what = f"input keyevent {key}".rstrip()
    return _not_served(what, "there is no screen that a key reaches; KEYCODE_BACK is, and MENU and WAKEUP, which do nothing")


def no_lock(key: str) -> str:
    return f"{key} changes nothing: there is no screen to wake or to unlock."


def only_stopped(package: str) -> str:
    return f"{package} was stopped alone: apps have no data here, and its grants stay."


def no_monkey_count(count: str) -> str:
    return _not_served(f"monkey with the count {count or '(none)'}", "there is no screen to touch; the count 1 starts the app")


def first_started(found: Sequence[str]) -> str:
    return f"{_and(found)} are in the launcher, of which a device takes any; this starts the first."


def left_out(number: int, path: Path) -> str:
    what = "1 thing of it is" if number == 1 else f"{number} things of it are"
    return f"{path}: {what} left out or written otherwise: `amctl check {path}` lists each."


def granted_all(number: int, package: str) -> str:
    what = "the permission that it asks for, whatever its level" if number == 1 else f"the {number} permissions that it asks for, whatever their levels"
    return f"{package} was granted {what}."


def tally(commands: int, refused: int) -> str:
    return f"{refused} of {commands} {'command' if commands == 1 else 'commands'} of adb had words that aren't served."


def no_tally(path: str, why: str) -> str:
    return f"{path} can't be used to count what isn't served ({why}): set AMCTL_REFUSED to another file."


def no_tally_named(variable: str) -> str:
    return f"nothing was counted: set {variable} to a file before the script, or run it by `amctl adb --strict SCRIPT`."


def no_script(path: str, why: str) -> str:
    return f"{path} can't be read ({why}): name a script after --strict."


def unknown_subcommand(tool: str, known: Sequence[str]) -> str:
    return f"{tool} has {', '.join(known)} here."


def no_value(option: str) -> str:
    return f"{option} needs a value behind it."


def other_serial(asked: str, serial: str) -> str:
    return f"the device is called {serial}; set AMCTL_SERIAL={asked} to call it so."


def choice(found: Sequence[str]) -> str:
    return f"{tie(found)} Nothing was started; name one by -n."


def tie(found: Sequence[str]) -> str:
    return f"{_and(found)} share the greatest priority, so the user would choose."


def first_of(found: Sequence[str]) -> str:
    return f"{_and(found)} match, and none has the default category; this is the first of them."


def no_update(package: str) -> str:
    return f"`am` doesn't update a package: uninstall {package} first, which takes its grants and links away."


def unknown_packages(number: int) -> str:
    what = "package declares" if number == 1 else "packages declare"
    return f"{number} more installed {what} no component and can't be named: a request before this server's start installed it."


def _not_served(what: str, why: str) -> str:
    return f"{what} isn't served: {why}."


def _and(names: Sequence[str]) -> str:
    return f"{', '.join(names[:-1])} and {names[-1]}" if len(names) > 1 else names[0]
