"""What `amctl lint` and `amctl check` do with what they found: the form that is asked for, and the status."""
from collections.abc import Callable, Mapping
from dataclasses import dataclass
from pathlib import Path
from typing import TextIO

from amctl import words_check
from amctl.errors import BadWords
from amctl.findings import junit, sarif
from amctl.findings.baseline import read_ids
from amctl.findings.report import Report, write_json, write_text
from amctl.findings.rule import SEVERITIES, Severity

FOUND = 1
Write = Callable[[Report, Severity, TextIO], None]
FORMS: Mapping[str, Write] = {
    "text": lambda report, least, out: write_text(report, out),
    "json": lambda report, least, out: write_json(report, out),
    "sarif": lambda report, least, out: sarif.write(report, out),
    "junit": junit.write,
}


@dataclass(frozen=True)
class Telling:
    """How findings are told: from which severity on the status is 1, in which form, and without what an earlier run found."""

    least: Severity
    form: str
    known: frozenset[str]

    @classmethod
    def of(cls, severity: str, form: str, baseline: Path | None) -> "Telling":
        """What wrong words would come to is said before anything runs."""
        least = next((it for it in SEVERITIES if it == severity), None)
        if least is None:
            raise BadWords(words_check.no_severity(severity, SEVERITIES))
        if form not in FORMS:
            raise BadWords(words_check.no_format(form, tuple(FORMS)))
        return cls(least, form, frozenset[str]() if baseline is None else read_ids(baseline))

    def tell(self, whole: Report, out: TextIO) -> int:
        """Writes what is new, and gives the status."""
        report = whole.without(self.known)
        FORMS[self.form](report, self.least, out)
        return FOUND if report.has(self.least) else 0
