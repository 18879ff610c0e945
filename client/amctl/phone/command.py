"""`amctl from-phone`: what it does with its words."""
import difflib
import gc
import sys
from collections.abc import Sequence
from dataclasses import dataclass
from pathlib import Path
from typing import TextIO

from amctl import words_phone
from amctl.apps.device import PACKAGE_LIMIT
from amctl.apps.manifests import SYSTEM
from amctl.errors import BadWords
from amctl.phone import adb as real
from amctl.phone.adb import Adb
from amctl.phone.asked import Learnt, learn, learn_whole, listed, names_listed
from amctl.phone.file import written
from amctl.phone.kept import Kept, kept_of
from amctl.phone.lines import Listed

UNREAD = 1


@dataclass(frozen=True)
class Asked:
    """Which phone, which of its packages, and where a run that is interrupted goes on."""

    serial: str | None = None
    packages: tuple[str, ...] = ()
    adb: Path | None = None
    kept: Path | None = None


def main(asked: Asked, out: TextIO | None = None, err: TextIO | None = None) -> int:
    """Writes the device file; the status is 1 if a package couldn't be read."""
    return from_phone(real.phone(asked.adb, asked.serial), asked, out or sys.stdout, err or sys.stderr)


def from_phone(adb: Adb, asked: Asked, out: TextIO, err: TextIO) -> int:
    serial = adb.name()
    kept = kept_of(asked.kept, serial)
    packages = listed(adb)
    chosen = _chosen(adb, packages, asked.packages)
    whole = learn_whole(adb, kept, serial, packages)
    learnt = _learn_all(adb, kept, chosen, err)
    file = written(whole, learnt, [it.name for it in packages if not asked.packages and it not in chosen and it.name != SYSTEM])
    out.write(file.text)
    out.flush()
    kept.remove()
    unread = [it.name for it in learnt if it.name not in file.names]
    print(words_phone.done(len(file.names), sum(len(it.said) for it in learnt), unread), file=err)
    return UNREAD if unread else 0


def _learn_all(adb: Adb, kept: Kept, chosen: Sequence[Listed], err: TextIO) -> list[Learnt]:
    disabled = names_listed(adb, "-d")
    learnt = []
    was = gc.isenabled()
    gc.disable()  # what the readers build has no cycles, and looking for them takes a third of the time
    try:
        for number, package in enumerate(chosen, 1):
            print(words_phone.reading(number, len(chosen), package.name), file=err, flush=True)
            learnt.append(learn(adb, kept, package, disabled))
    finally:
        if was:
            gc.enable()
    return learnt


def _chosen(adb: Adb, packages: Sequence[Listed], names: Sequence[str]) -> list[Listed]:
    """The packages that are named, or as many as a device file takes: before the system's own those that somebody installed."""
    apps = [it for it in packages if it.name != SYSTEM]
    if names:
        known = [it.name for it in apps]
        for name in names:
            if name not in known:
                raise BadWords(words_phone.no_package(name, difflib.get_close_matches(name, known, 1, 0.5)))
        return [it for it in apps if it.name in names]
    if len(apps) <= PACKAGE_LIMIT:
        return apps
    installed = names_listed(adb, "-3") or frozenset()
    first = sorted(apps, key=lambda it: it.name not in installed)[:PACKAGE_LIMIT]
    return [it for it in apps if it in first]
