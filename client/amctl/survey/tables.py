"""The CSV files, each sorted, so the order of answers doesn't matter."""
import csv
import io
from collections.abc import Iterable, Mapping, Sequence
from typing import Any

from amctl.apps.told import shown
from amctl.devicefile import KINDS
from amctl.survey.asking import UNASKED
from amctl.survey.exposure import MOST, Exposed

Answers = Mapping[str, Any]
MOST_LETTERS = 48
VERDICTS = ("reached", "needs_permission", "not_exported", "disabled", UNASKED)


def _text(columns: Sequence[str], rows: Iterable[Sequence[object]]) -> str:
    out = io.StringIO()
    writer = csv.writer(out, lineterminator="\n")
    writer.writerow(columns)
    writer.writerows(rows)
    return out.getvalue()


def reach(answers: Iterable[Answers]) -> str:
    """A line for each caller, target and kind of which the target has components."""
    rows = []
    for row in (row for it in answers for row in it["reach"]):
        for kind, verdicts in row["verdicts"].items():
            said = [verdict for _, verdict in verdicts]
            rows.append((row["caller"], row["target"], KINDS.index(kind), kind, len(said), *(said.count(it) for it in VERDICTS)))
    rows.sort()
    return _text(("caller", "target", "kind", "components", *VERDICTS), [(*it[:2], *it[3:]) for it in rows])


def links(answers: Iterable[Answers]) -> str:
    """A line for each link and component that claims it, if several packages do."""
    rows = {(it["link"], to, verdict) for answer in answers for it in answer["links"] for to, verdict in it["claims"]}
    return _text(("link", "component", "verdict"), sorted(rows))


def exposed(ranked: Sequence[Exposed]) -> str:
    columns = ("rank", "package", "components", "open", "activities", "services", "receivers", "callers")
    return _text(columns, [(rank, it.package, it.components, *_counts(it)) for rank, it in enumerate(ranked[:MOST], 1)])


def short(ranked: Sequence[Exposed]) -> list[tuple[str, ...]]:
    """The same for a person, as rows of texts."""
    return [(short_name(it.package), str(it.components), *map(str, _counts(it))) for it in ranked[:MOST]]


def short_name(package: str) -> str:
    """A package's name on a line of a terminal, whatever is in it."""
    return shown(package if len(package) <= MOST_LETTERS else package[: MOST_LETTERS - 1] + "…")


def _counts(found: Exposed) -> tuple[int, ...]:
    return (len(found.open), *map(found.of_kind, KINDS), len(found.callers))


def left_out(told: Sequence[tuple[str, str, str]]) -> str:
    """A line for each thing that the converter left out of an app or wrote otherwise, and at which component or package."""
    return _text(("file", "place", "what"), told)


def unreadable(faults: Sequence[tuple[str, str]]) -> str:
    return _text(("file", "reason"), [(file, " ".join(reason.split())) for file, reason in faults])
