"""Sentences of `amctl from-phone`: what is so, what wasn't learnt, and what to do."""
from collections.abc import Sequence
from pathlib import Path

LEVEL = "31"
NO_ADB = "no `adb` is on PATH: install Debian's package adb, or name the program by `--adb`."
NO_BASE = "none of its APKs is the base"
EXEMPT = "exempt: adb doesn't tell which broadcasts other apps' manifest receivers get; add here the actions that you need."
NO_BROWSER = "browser: the phone has no default browser."
NO_BROWSER_KNOWN = "browser: adb's lines didn't tell which app is the default browser; write it here."
NO_STATE = "`dumpsys package` didn't tell what is granted, switched off and stopped: the grants are missing, and components are as the manifest has them."
NO_LINKS = "`pm get-app-links` didn't tell for which hosts it is approved (Android 12 has it): the links are missing."
NO_DISABLED = "`pm list packages -d` didn't tell whether the package is disabled: it is written as its manifest has it."
STOPPED = "on the phone the package is stopped, so broadcasts pass it over until it is started once; here it isn't."
HIDDEN = "on the phone the package is hidden or suspended, so it isn't found or started; here it is."
UNLINKED = "the user switched the handling of its links off, so it is approved for no host."


def lost(said: str) -> str:
    return f"adb has no phone to ask ({said}): see `adb devices`, allow this computer on the phone's screen, or name one phone by `--serial`; then run it again."


def silent(command: str, seconds: float) -> str:
    return f"`adb {command}` said nothing for {seconds:.0f} seconds: look at the phone and its cable, and run it again."


def not_run(path: Path, why: str) -> str:
    return f"{path} can't be run ({why}): name the program adb by `--adb`."


def no_program(path: Path) -> str:
    return f"{path} isn't a program: name adb by `--adb`, or leave it out to take the one on PATH."


def not_listed(said: str) -> str:
    return f"`pm list packages -f -U` answered in lines that aren't known ({said}): send what it prints to the maintainers."


def others_folder(folder: Path) -> str:
    return f"{folder} has files of others in it: name a new folder by `--kept`, or the one of the run that was interrupted."


def no_folder(folder: Path, why: str) -> str:
    return f"{folder} can't be made ({why}): name another folder by `--kept`."


def not_pulled(remote: str, said: str) -> str:
    return f"`adb pull {remote}` failed ({said})"


def no_path(said: str) -> str:
    return f"`pm path` doesn't tell where its APK is ({said})"


def other_name(name: str) -> str:
    return f"its manifest calls it {name}"


def not_read(package: str, why: str) -> str:
    return f"{package} isn't here, since it can't be read: {why}."


def no_protected(why: str) -> str:
    return f"protected: the system's own manifest can't be read ({why}); write here the actions that only the system may broadcast."


def too_many_protected(number: int) -> str:
    return f"protected: {number} more actions are left out, since a device file takes 1,024."


def beyond(package: str) -> str:
    return f"{package} isn't here, since a device file takes 256 packages in 16,777,216 bytes; name by `--packages` which it should have."


def wildcard(host: str) -> str:
    return f"the phone says that it is approved for {host.removeprefix('*.')}, which its filters have as {host}: both are written."


def head(serial: str, release: str, level: str) -> Sequence[str]:
    said = [f"Read by `amctl from-phone` from the phone {serial}, Android {release}, API level {level}. The keys are drawn."]
    if level != LEVEL:
        said.append(f"`am` answers as a device of API level {LEVEL}: where Android has changed since or before, the phone differs.")
    return said


def reading(number: int, all_: int, package: str) -> str:
    return f"[{number}/{all_}] {package}"


def done(packages: int, comments: int, unread: Sequence[str]) -> str:
    said = f"{packages} {'package' if packages == 1 else 'packages'}; comments in the file say what else is so: {comments} in all."
    return said if not unread else f"{said} Not read: {', '.join(unread)}."


def no_package(name: str, near: Sequence[str]) -> str:
    meant = f" Did you mean {near[0]}?" if near else ""
    return f"the phone has no package {name}: `adb shell pm list packages` shows all.{meant}"
