"""Jobs: each needs nothing but what it carries, and a program `am`; only a reader of an app needs the app's folder."""
import hashlib
import json
import os
import re
from collections.abc import Sequence
from dataclasses import dataclass, field
from pathlib import Path
from typing import Any, Protocol

from amctl import words, words_survey
from amctl.errors import DeviceFault
from amctl.survey import asking, made
from amctl.survey.asking import Sessions
from amctl.survey.inputs import App, Unreadable, read

# part of each key: what another form of answers has kept isn't taken
FORM = 2
# what isn't kept, so that the next survey does it again
AGAIN = "again"
IN_DEVICE = re.compile(r"package\[\d+\]\.(manifest\.)?")


class Job(Protocol):
    @property
    def key(self) -> str: ...

    def run(self, sessions: Sessions) -> dict[str, Any]: ...


def run_job(job: Job, sessions: Sessions) -> dict[str, Any]:
    """What a job gives, on the session of the one before it if that asked the same device."""
    return job.run(sessions)


def run_jobs(jobs: Sequence[Job]) -> list[dict[str, Any]]:
    """What jobs give, in their order, as another process is asked for it."""
    with Sessions() as sessions:
        return [run_job(it, sessions) for it in jobs]


def key_of(*parts: object) -> str:
    """The name of what a job gives: of all that it depends on."""
    return hashlib.sha256(json.dumps([FORM, *parts]).encode("utf-8", "surrogateescape")).hexdigest()


@dataclass(frozen=True)
class Read:
    """Reads an app. What is kept of it counts until the file is written again."""

    folder: Path
    file: str
    state: tuple[int, int]

    @classmethod
    def of(cls, folder: Path, file: str) -> "Read":
        # a worker elsewhere is in another folder
        folder = folder.resolve()
        try:
            found = os.stat(folder / file)
        except OSError:
            # a link that leads nowhere: the reader says so
            return cls(folder, file, (0, 0))
        return cls(folder, file, (found.st_size, found.st_mtime_ns))

    @property
    def key(self) -> str:
        return key_of("read", str(self.folder), self.file, self.state)

    def run(self, sessions: Sessions) -> dict[str, Any]:
        try:
            app, left_out = read(self.folder, self.file)
            return {"app": app.to_json(), "leftOut": left_out}
        except Unreadable as fault:
            # perhaps it was the machine's fault
            return {"file": self.file, "reason": str(fault), AGAIN: True}


@dataclass(frozen=True)
class Accept:
    """Whether `am` takes an app, by itself on a device."""

    app: App
    am: Path | None
    mark: str

    @property
    def key(self) -> str:
        return key_of("accept", self.mark, self.app.file, self.app.manifest)

    def run(self, sessions: Sessions) -> dict[str, Any]:
        text = made.device_of(made.parsed(made.BARE), [self.app])
        try:
            made.opened(text, self.am).close()
            return {}
        except DeviceFault as fault:
            return {"file": self.app.file, "reason": _refused(fault)}


def _refused(fault: DeviceFault) -> str:
    """The fault with the place in the app's own manifest, and not in the device's file."""
    if fault.refused is None:
        return str(fault)
    name = IN_DEVICE.sub("", fault.refused)
    return words_survey.refused(words.fault(name).text, name)


@dataclass(frozen=True)
class AskOne:
    """Whom a package of the device reaches, and who else claims its links."""

    package: str
    device: str = field(repr=False)
    am: Path | None
    mark: str

    @property
    def key(self) -> str:
        return key_of("one", self.mark, self.package, self.device)

    def run(self, sessions: Sessions) -> dict[str, Any]:
        copy = sessions.on(self.device, self.am)
        claimed, left = asking.claims(copy, self.package)
        return {"reach": asking.reach(copy, [self.package], copy.file.names), "links": claimed, "left": left}


@dataclass(frozen=True)
class AskEach:
    """On a copy of the device: whom the app reaches, who reaches it, and who else claims its links."""

    app: App
    device: str = field(repr=False)
    am: Path | None
    mark: str

    @property
    def key(self) -> str:
        return key_of("each", self.mark, self.app.package, self.app.manifest, self.device)

    def run(self, sessions: Sessions) -> dict[str, Any]:
        try:
            return self._answers(sessions)
        except DeviceFault as fault:
            # with the device's packages it may be too much
            return {"file": self.app.file, "reason": _refused(fault)}

    def _answers(self, sessions: Sessions) -> dict[str, Any]:
        base, name = made.parsed(self.device), self.app.package
        copy = sessions.on(made.device_of(base, [self.app]), self.am)
        claimed, left = asking.claims(copy, name)
        both = asking.reach(copy, [name], base.names) + asking.reach(copy, base.names, [name])
        return {"reach": both, "links": claimed, "left": left}
