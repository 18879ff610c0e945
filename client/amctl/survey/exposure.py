"""The most exposed packages: those with the most components that others reach."""
from collections.abc import Iterable, Mapping, Sequence
from dataclasses import dataclass, field
from typing import Any

MOST = 10
# a package, a kind and a class
Named = tuple[str, str, str]


@dataclass
class Exposed:
    """What others reach of a package: its components that any other reaches, and who reaches one."""

    package: str
    components: int = 0
    open: set[tuple[str, str]] = field(default_factory=set)
    callers: set[str] = field(default_factory=set)

    def of_kind(self, kind: str) -> int:
        return sum(it == kind for it, _ in self.open)

    @property
    def rank(self) -> tuple[int, int, str]:
        return -len(self.open), -len(self.callers), self.package


def ranked(names: Sequence[str], components: Iterable[Named], answers: Iterable[Mapping[str, Any]]) -> list[Exposed]:
    """All packages of these names, the most exposed first."""
    found = {it: Exposed(it) for it in names}
    for package, _, _ in components:
        if package in found:
            found[package].components += 1
    for row in (row for it in answers for row in it["reach"] if row["target"] in found):
        exposed = found[row["target"]]
        reached = [(kind, name) for kind, verdicts in row["verdicts"].items() for name, verdict in verdicts if verdict == "reached"]
        exposed.open.update(reached)
        exposed.callers.update([row["caller"]] if reached else [])
    return sorted(found.values(), key=lambda it: it.rank)
