"""Before an app is published: what it takes from a device's apps, what it opens to them, and what they catch of it.

    app         the app, and where its parts are
    facts       what the converter writes apart from a device file
    intents     the intents to ask with, by the witnesses of `witness`
    asking      the device without the app, with it, and with its links approved
    resolution  what other intents open now
    links       the app's web links
    exposed     what any app reaches
    caught      what others get of the app's calls, by `history` or its `queries`
    names       names that collide
    left_out    what the converter leaves out
    merged      one finding for the links of a host

What is found is told by `amctl.findings`, as of `amctl lint`.
"""
import sys
import tempfile
from collections.abc import Iterator, Sequence
from contextlib import contextmanager
from dataclasses import dataclass
from pathlib import Path
from typing import TextIO

from amctl import words_check
from amctl.check import caught, exposed, history, left_out, links, names, resolution
from amctl.check.app import App, Unreadable, read
from amctl.check.asking import Copies, caller_name
from amctl.check.assetlinks import Statements, read_statements
from amctl.check.facts import read_facts
from amctl.check.history import Call
from amctl.check.intents import questions
from amctl.device import Refusal
from amctl.devicefile import DeviceFile
from amctl.errors import BadWords
from amctl.findings.command import Telling
from amctl.findings.finding import Finding
from amctl.findings.report import Report, ordered
from amctl.findings.rule import Severity
from amctl.transport import body_of

__all__ = ["Asked", "Finding", "Report", "Severity", "check", "main"]

MOST_PACKAGES = 256
# an installation is one request, and its body has at most so many bytes
MOST_BODY = 65_536
UNUSABLE = 2
# the device of a check without one
BARE = 'system_key = "system"\n'
# how `am` refuses an app that is too large, or that it can't read
UNFIT = ("bad_manifest", "bad_request", "over_limit")


@dataclass(frozen=True)
class Asked:
    """What is checked on which device, and what else is known. Without a device the app is alone."""

    app: Path
    device: Path | None = None
    facts: Path | None = None
    assetlinks: Path | None = None
    history: Path | None = None
    am: Path | None = None


def check(asked: Asked) -> Report:
    """What is found. An app that can't be read is a finding of its own."""
    with _device(asked) as path:
        return _checked(asked, DeviceFile.read(path))


@contextmanager
def _device(asked: Asked) -> Iterator[Path]:
    """The device file, or one without packages."""
    if asked.device is not None:
        yield asked.device
        return
    with tempfile.TemporaryDirectory(prefix="amctl_check_") as folder:
        path = Path(folder) / "device.toml"
        path.write_text(BARE, encoding="utf-8")
        yield path


def _checked(asked: Asked, device: DeviceFile) -> Report:
    facts, statements = read_facts(asked.facts), None if asked.assetlinks is None else read_statements(asked.assetlinks)
    try:
        app = read(asked.app, facts)
        _refuse(app, device)
        calls = None if asked.history is None else history.calls_of(asked.history, app.package, device.path, asked.am)
        found = ordered(_findings(asked, app, device, statements, calls))
        return Report(asked.app, asked.device, found, left_out=len(app.left_out))
    except Unreadable as fault:
        return Report(asked.app, asked.device, (Finding("unreadable", asked.app.name, str(fault), fault.place),))


def _refuse(app: App, device: DeviceFile) -> None:
    """What would come to nothing is said before anything runs."""
    size = len(body_of({"key": device.key_for_new(app.package), "manifest": app.text}))
    if size > MOST_BODY:
        raise Unreadable(words_check.too_large(size, MOST_BODY))
    if device.package(app.package):
        raise BadWords(words_check.installed_already(app.package, device.path))
    if len(device.packages) + 2 > MOST_PACKAGES:
        raise BadWords(words_check.too_many(len(device.packages), device.path, MOST_PACKAGES))


def _findings(asked: Asked, app: App, device: DeviceFile, statements: Statements | None, calls: Sequence[Call] | None) -> Iterator[Finding]:
    yield from left_out.check(app)
    yield from names.check(app, device)
    with Copies(device.path, asked.am, caller_name(device, app.package)) as copies:
        _install(copies, app)
        others = [it for package in device.packages for it in package.components]
        touched = resolution.concerned(copies, app, questions([*app.components, *others]))
        yield from resolution.check(copies, app, touched)
        yield from links.check(copies, app, links.web_links(app, touched), statements)
        yield from exposed.check(copies, app)
        if calls is None:
            yield from caught.of_queries(copies, app)
        else:
            yield from caught.of_calls(copies, app, calls)
            yield from caught.pending(app, calls)


def _install(copies: Copies, app: App) -> None:
    try:
        copies.install(app.text)
    except Refusal as refused:
        if refused.rule == "bad_manifest" and refused.name:
            raise app.refused(refused.name) from None
        if refused.rule in UNFIT:
            raise Unreadable(words_check.refused(refused.told)) from None
        raise


def main(asked: Asked, *, severity: str = "error", form: str = "text", baseline: Path | None = None, out: TextIO | None = None) -> int:
    """Prints the findings, and gives the exit status: 1 from the chosen severity on, and 2 for an app that can't be used."""
    telling = Telling.of(severity, form, baseline)
    whole = check(asked)
    status = telling.tell(whole, out or sys.stdout)
    return UNUSABLE if any(it.rule == "unreadable" for it in whole.findings) else status
