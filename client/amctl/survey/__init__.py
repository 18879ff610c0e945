"""All apps of a folder: who reaches whom, which links several claim, and who is most exposed.

    inputs      the apps of the folder, and their manifests
    made        the device on which they are
    links       the links that a package's filters name
    asking      what the device is asked, and what it answers
    jobs        a piece of work, which needs nothing but what it carries
    mapping     jobs on processors of this machine, or over Dask
    kept        what was done, so that it isn't done again
    exposure    the most exposed packages
    tables      the CSV files
    picture     the matrix as SVG
"""
import dataclasses
import sys
from collections.abc import Callable, Mapping, Sequence
from dataclasses import dataclass
from pathlib import Path
from typing import Any, TextIO

from amctl import show, words_survey
from amctl.apps.told import shown
from amctl.devicefile import DeviceFile
from amctl.errors import BadWords, DeviceFault
from amctl.survey import exposure, made, picture, tables
from amctl.survey.inputs import App, files_of
from amctl.survey.jobs import AGAIN, Accept, AskEach, AskOne, Job, Read
from amctl.survey.kept import Kept, program_mark
from amctl.survey.mapping import Run, runner

__all__ = ["Asked", "Found", "main", "survey"]

MOST_PACKAGES = 256
UNREADABLE = 1
Answers = Mapping[str, Any]


@dataclass(frozen=True)
class Asked:
    """What is surveyed: the apps of a folder, all on one device, or each on a copy of it."""

    folder: Path
    device: Path | None = None
    is_each: bool = False
    into: Path = Path("survey")
    jobs: int = 1
    dask: str | None = None
    am: Path | None = None


@dataclass(frozen=True)
class Found:
    """What the device answered, by package, and by file the apps that can't be read and what wasn't looked at of the others."""

    apps: tuple[str, ...]
    others: tuple[str, ...]
    components: tuple[exposure.Named, ...]
    answers: tuple[Answers, ...]
    unreadable: tuple[tuple[str, str], ...]
    left_out: tuple[tuple[str, str, str], ...] = ()


def survey(asked: Asked) -> Found:
    """Asks what isn't in the folder yet. The order in which jobs end doesn't matter."""
    base = made.base_of(asked.device)
    files = files_of(asked.folder, asked.into, *([asked.device] if asked.device else []))
    _refuse_too_many(asked, base, len(files))
    kept = Kept.open(asked.into)
    with runner(min(asked.jobs, len(files)), asked.dask) as run:
        return _asked(asked, base, files, kept, run)


def _asked(asked: Asked, base: DeviceFile, files: Sequence[str], kept: Kept, run: Run) -> Found:
    read = _done([Read.of(asked.folder, it) for it in files], kept, run, words_survey.READING)
    apps = [App.from_json(it["app"]) for it in read if "app" in it]
    _refuse_doubled(asked, base, apps)
    mark = program_mark(asked.am)
    accepting = [Accept(it, asked.am, mark) for it in apps]
    if not asked.is_each:
        _accept_together(accepting, kept)
    tried = _done(accepting, kept, run, words_survey.TRYING)
    taken = sorted((app for app, it in zip(apps, tried) if "reason" not in it), key=lambda it: it.package)
    device = made.device_of(base, [] if asked.is_each else taken)
    made.check(asked.device, device, asked.am)
    asking: list[Job]
    if asked.is_each:
        asking = [AskEach(it, device, asked.am, mark) for it in taken]
    else:
        asking = [AskOne(it, device, asked.am, mark) for it in made.names_of(device)]
    answers = _done(asking, kept, run, words_survey.ASKING)
    found = _found(base, device, taken, answers, [it for it in (*read, *tried, *answers) if "reason" in it])
    return dataclasses.replace(found, left_out=_left_out(read, found.apps))


def _left_out(read: Sequence[Answers], apps: Sequence[str]) -> tuple[tuple[str, str, str], ...]:
    """What wasn't looked at of these apps: each with its file, its component or package, and what it was."""
    known = [it for it in read if "app" in it and it["app"]["package"] in apps]
    return tuple(sorted((str(it["app"]["file"]), str(place), str(what)) for it in known for place, what in it["leftOut"]))


def _found(base: DeviceFile, device: str, taken: Sequence[App], answers: Sequence[Answers], faults: Sequence[Answers]) -> Found:
    unfit = {it["file"] for it in faults}
    taken = [it for it in taken if it.file not in unfit]
    answers = [it for it in answers if "reason" not in it]
    names = tuple(it.package for it in taken)
    whole = made.parsed(device)
    listed = [*(it for package in whole.packages for it in package.components)]
    known = {it.package for it in listed}
    listed += [it for app in taken if app.package not in known for it in app.components]
    unreadable = sorted((str(it["file"]), str(it["reason"])) for it in faults)
    return Found(names, base.names, tuple((it.package, it.kind, it.name) for it in listed), tuple(answers), tuple(unreadable))


def _done(jobs: Sequence[Job], kept: Kept, run: Run, what: str) -> list[Answers]:
    """What the jobs give, in their order: what is kept, and what is done now and then kept."""
    keys = [it.key for it in jobs]
    done = {key: found for key in keys if (found := kept.get(key)) is not None}
    rest = {key: job for key, job in zip(keys, jobs) if key not in done}
    for key, found in run(rest, what, len(done)):
        if AGAIN not in found:
            kept.put(key, found)
        done[key] = found
    return [done[key] for key in keys]


def _accept_together(jobs: Sequence[Accept], kept: Kept) -> None:
    """Keeps that `am` takes all apps at once, as many as a device has: what it takes so it takes one by one too."""
    rest = [it for it in jobs if kept.get(it.key) is None]
    if not rest:
        return
    try:
        made.opened(made.device_of(made.parsed(made.BARE), [it.app for it in rest]), rest[0].am).close()
    except DeviceFault:
        # each is asked by itself
        return
    for it in rest:
        kept.put(it.key, {})


def _refuse_too_many(asked: Asked, base: DeviceFile, files: int) -> None:
    """What would come to nothing is said before anything runs."""
    apps = min(files, 1) if asked.is_each else files
    if len(base.packages) + apps > MOST_PACKAGES:
        raise BadWords(words_survey.too_many(files, len(base.packages), MOST_PACKAGES, is_each=asked.is_each))


def _refuse_doubled(asked: Asked, base: DeviceFile, apps: Sequence[App]) -> None:
    first: dict[str, str] = {name: str(asked.device) for name in base.names}
    for app in sorted(apps, key=lambda it: it.file):
        if app.package in first:
            raise BadWords(words_survey.doubled(tables.short_name(app.package), shown(first[app.package]), shown(app.file)))
        first[app.package] = app.file


def main(asked: Asked, out: TextIO | None = None) -> int:
    """Writes what is found and prints the most exposed. The status is 1 if an app can't be read."""
    if asked.is_each and asked.device is None:
        raise BadWords(words_survey.NO_DEVICE)
    # a worker elsewhere is in another folder
    asked = dataclasses.replace(asked, am=asked.am.resolve() if asked.am else None)
    found = survey(asked)
    names = found.apps if asked.is_each else (*found.apps, *found.others)
    ranked = exposure.ranked(names, found.components, found.answers)
    shown = [it.package for it in ranked]
    writes: dict[str, Callable[[], str]] = {
        "reach.csv": lambda: tables.reach(found.answers),
        "links.csv": lambda: tables.links(found.answers),
        "exposed.csv": lambda: tables.exposed(ranked),
        "left-out.csv": lambda: tables.left_out(found.left_out),
        "unreadable.csv": lambda: tables.unreadable(found.unreadable),
        "reach.svg": lambda: picture.drawn(found.apps, found.others, found.answers, shown, is_each=asked.is_each),
    }
    kept = Kept.open(asked.into)
    kept.write_all({name: text() for name, text in writes.items()})
    show.show_table(words_survey.COLUMNS, [words_survey.COLUMNS, *tables.short(ranked)][_header(out) :], out)
    for line in words_survey.remarks(found.unreadable, found.left_out, sum(it["left"] for it in found.answers), asked.into):
        print(f"amctl: {line}", file=sys.stderr)
    return UNREADABLE if found.unreadable else 0


def _header(out: TextIO | None) -> int:
    """How many rows a terminal's own table makes needless: its header."""
    return 1 if (out or sys.stdout).isatty() else 0
