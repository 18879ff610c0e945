"""A report of what was found, as text and as JSON."""
import dataclasses
import json
from collections.abc import Iterable, Mapping, Sequence
from dataclasses import dataclass
from pathlib import Path
from typing import TextIO

from amctl import show, words_check
from amctl.findings.finding import LEFT_OUT, RULES, Finding, Tool
from amctl.findings.rule import SEVERITIES, Rule, Severity, at_least

COLUMNS = ("severity", "rule", "place", "by", "what", "")


@dataclass(frozen=True)
class Report:
    """What was found in a file: a device's, or an app's, on a device if it isn't alone.

    `hidden` were in the baseline, and `left_out` wasn't looked at.
    """

    app: Path | None
    device: Path | None
    findings: tuple[Finding, ...]
    hidden: int = 0
    left_out: int = 0

    @property
    def tool(self) -> Tool:
        return "lint" if self.app is None else "check"

    @property
    def file(self) -> Path:
        """What the findings are in."""
        found = self.app or self.device
        if found is None:
            raise ValueError("a report is of an app or of a device")
        return found

    @property
    def rules(self) -> Mapping[str, Rule]:
        return RULES[self.tool]

    def has(self, least: Severity) -> bool:
        return any(at_least(it.severity, least) for it in self.findings)

    def without(self, ids: Iterable[str]) -> "Report":
        """Only what is new."""
        known = set(ids)
        kept = tuple(it for it in self.findings if it.id not in known)
        return dataclasses.replace(self, findings=kept, hidden=len(self.findings) - len(kept))


def ordered(findings: Iterable[Finding]) -> tuple[Finding, ...]:
    """Rule by rule in their order, and then as the manifest has them; what was found twice once."""
    rules = list(words_check.RULES)

    def key(found: Finding) -> tuple[int, int, int, str, str]:
        return rules.index(found.rule), *found.line_and_column, found.about, found.message

    return tuple({it.id: it for it in sorted(findings, key=key)}.values())


def write_text(report: Report, out: TextIO) -> None:
    """A check's table with what each finding is about, and the counts below; or the lines of a device file, as a compiler tells them."""
    if not report.findings:
        print(words_check.nothing_new(str(report.file)) if report.hidden else words_check.nothing(str(report.file)), file=out)
    elif report.tool == "lint":
        print("\n".join(_line(it, report.file) for it in report.findings), file=out)
    else:
        _write_table(report, out)
    if report.left_out:
        print(words_check.not_looked_at(report.left_out), file=out)


def _line(found: Finding, file: Path) -> str:
    where = f"{file}:{found.place}" if found.place else str(file)
    shown = f"\n    {found.shown.strip()}" if found.shown else ""
    return f"{where}: {found.rule}: {found.message}{shown}"


def _write_table(report: Report, out: TextIO) -> None:
    if out.isatty():
        show.show_table(COLUMNS, [(*_head(it), it.about, it.message) for it in report.findings], out)
    else:
        print("\n".join(_plain(report.findings)), file=out)
    print(words_check.summary({it: sum(found.severity == it for found in report.findings) for it in reversed(SEVERITIES)}), file=out)


def _head(found: Finding) -> tuple[str, str, str, str]:
    by = words_check.BY_CONVERTER if found.rule == LEFT_OUT else words_check.BY_COMPARISON if found.is_compared else words_check.BY_AM
    return found.severity, found.rule, str(found.place or found.at or "-"), by


def _plain(findings: Sequence[Finding]) -> Iterable[str]:
    """Two lines for each finding: what it is about, and what was found."""
    rows = [(*_head(it), it.about) for it in findings]
    for line, found in zip(show.plain_lines(rows), findings):
        yield line
        yield f"    {found.message}"


def write_json(report: Report, out: TextIO) -> None:
    findings = [it.to_json(str(report.file)) for it in report.findings]
    of_app: dict[str, str | int] = {} if report.app is None else {"app": str(report.app), "leftOut": report.left_out}
    device = None if report.device is None else str(report.device)
    document: dict[str, object] = {**of_app, "device": device, "hidden": report.hidden, "findings": findings}
    json.dump(document, out, ensure_ascii=False, indent=1, sort_keys=True)
    print(file=out)
