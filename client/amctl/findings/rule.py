"""A rule of `lint` or of `check`, and how bad what it finds is."""
from dataclasses import dataclass
from typing import Literal

Severity = Literal["note", "warning", "error"]
SEVERITIES: tuple[Severity, ...] = ("note", "warning", "error")


@dataclass(frozen=True)
class Rule:
    """What a rule finds, and how bad that is."""

    group: str
    severity: Severity
    finds: str


def at_least(severity: Severity, least: Severity) -> bool:
    return SEVERITIES.index(severity) >= SEVERITIES.index(least)
