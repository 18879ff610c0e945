"""A history: which of its calls are the app's."""
import json
from collections.abc import Iterator, Mapping, Sequence
from dataclasses import dataclass
from pathlib import Path
from typing import Any

from amctl import words_check
from amctl.device import Device, Refusal
from amctl.errors import BadWords
from amctl.intents import Intent
from amctl.kept import manifest_of
from amctl.results import Entry

FIRST_UID = 10000
ADMINS = (0, 1000)
FORM = "name a file with one entry a line, as `POST /v1/history` shows it"


@dataclass(frozen=True)
class Call:
    """A stored call, by its number in the history."""

    number: int
    route: str
    request: Mapping[str, Any]


def read_history(path: Path) -> tuple[Entry, ...]:
    try:
        lines = path.read_text(encoding="utf-8").splitlines()
        return tuple(_entry(json.loads(it)) for it in lines if it.strip())
    except OSError as fault:
        raise BadWords(words_check.bad_file(path, "a history", fault.strerror or str(fault), FORM)) from None
    except (AttributeError, TypeError, ValueError) as fault:
        raise BadWords(words_check.bad_file(path, "a history", str(fault), FORM)) from None


def _entry(fields: Mapping[str, Any]) -> Entry:
    """An entry whose request is one, with an intent that is one."""
    entry = Entry(**fields)
    Intent.from_json(entry.request.get("intent", {}))
    return entry


def calls_of(path: Path, package: str, device: Path, am: Path | None) -> list[Call]:
    """The app's calls. Its uid is what an installation in the history gives it, or the next one after the device file's packages."""
    entries = read_history(path)
    with Device.open(device, am=am) as copy:
        uids = _uids(copy, entries, package)
    found = [Call(number, it.route, it.request) for number, it in enumerate(entries) if it.uid in uids]
    if not found:
        raise BadWords(words_check.no_calls(package, path))
    return found


def _uids(device: Device, entries: Sequence[Entry], package: str) -> set[int]:
    """The uids that the app had: the installations are made again, since a history has no replies."""
    given: dict[int, str] = {}
    for entry in entries:
        given.update(_installed(device, entry))
    behind = FIRST_UID + len(device.file.packages)
    named = {uid for uid, name in given.items() if name == package}
    # a history of a device whose file had the app as its last package
    return named or ({behind} if behind not in given else set())


def _installed(device: Device, entry: Entry) -> Iterator[tuple[int, str]]:
    if entry.uid not in ADMINS or not entry.kept:
        return
    try:
        if entry.route == "/v1/install":
            manifest = str(entry.request["manifest"])
            yield device.system.install(manifest, key=str(entry.request["key"])), str(manifest_of(manifest).get("package"))
        elif entry.route == "/v1/uninstall":
            device.system.uninstall(str(entry.request["package"]))
    except Refusal:
        # it was refused when it was stored, too
        return
