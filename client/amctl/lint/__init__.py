"""Likely mistakes in a device file."""
import sys
from pathlib import Path
from typing import TextIO

from amctl.devicefile import DeviceFile
from amctl.errors import NotToml
from amctl.findings.command import Telling
from amctl.findings.finding import Finding
from amctl.findings.report import Report
from amctl.kept import read_kept
from amctl.lint import access, keys, rows, values
from amctl.lint.refused import not_toml, refused

__all__ = ["Finding", "lint", "main"]


def lint(path: Path, *, store: Path | None = None, am: Path | None = None) -> list[Finding]:
    """What is found in a device file, from its top on; with a store, what of it doesn't fit."""
    try:
        file = DeviceFile.read(path)
    except NotToml as fault:
        return [not_toml(path, fault)]
    kept = None if store is None else read_kept(store)
    found = [*refused(file, am), *keys.check(file), *values.check(file), *access.check(file, kept)]
    if store is not None and kept is not None:
        found += rows.check(file, store, kept)
    return sorted(set(found), key=lambda it: (*it.line_and_column, it.rule, it.message))


def main(
    path: Path,
    *,
    store: Path | None = None,
    severity: str = "note",
    form: str = "text",
    baseline: Path | None = None,
    am: Path | None = None,
    out: TextIO | None = None,
) -> int:
    """Prints the findings, and gives the exit status: 1 from the chosen severity on."""
    telling = Telling.of(severity, form, baseline)
    return telling.tell(Report(None, path, tuple(lint(path, store=store, am=am))), out or sys.stdout)
