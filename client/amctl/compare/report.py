"""What was compared, as text and as JSON."""
import json
from collections.abc import Iterator
from dataclasses import dataclass
from pathlib import Path
from typing import Any, TextIO

from amctl import results, show, words_compare
from amctl.compare.phone import Answer
from amctl.compare.question import Outcome, Question
from amctl.compare.rules import Rule
from amctl.results import Account
from amctl.words import About, account, shown

# of a component that isn't in the device file, and of one that `am` lists; no other verdict is this client's
ABSENT, LISTED = "absent", "listed"


@dataclass(frozen=True)
class Other:
    """What the other rules answer."""

    rules: str
    outcome: Outcome


@dataclass(frozen=True)
class Compared:
    """A question with both answers. Of a difference there is what `am` says of the components that only one of both has."""

    question: Question
    phone: Answer
    am: Outcome | None
    why_not: str = ""
    accounts: tuple[Account, ...] = ()
    rules: tuple[Rule, ...] = ()
    other: Other | None = None
    about: About | None = None

    @property
    def differs(self) -> bool:
        return self.phone.outcome is not None and self.am is not None and not self.phone.outcome.agrees(self.am)

    @property
    def agrees(self) -> bool:
        return self.phone.outcome is not None and self.am is not None and self.phone.outcome.agrees(self.am)

    @property
    def is_ordered_otherwise(self) -> bool:
        """Whether both list the same in another order, which is no difference."""
        return self.agrees and self.phone.outcome is not None and self.am is not None and self.am.way == "lists" and self.phone.outcome != self.am


@dataclass(frozen=True)
class Report:
    suite: str
    device: Path
    serial: str
    level: str
    rules: str
    has_other_rules: bool
    compared: tuple[Compared, ...]
    stopped: tuple[str, ...] = ()

    @property
    def differing(self) -> tuple[Compared, ...]:
        return tuple(it for it in self.compared if it.differs)

    @property
    def counts(self) -> dict[str, int]:
        agree, differ = sum(it.agrees for it in self.compared), len(self.differing)
        return {"asked": len(self.compared), "agree": agree, "differ": differ, "unasked": len(self.compared) - agree - differ}


def write_text(report: Report, out: TextIO) -> None:
    for it in report.compared:
        if not it.agrees:
            print("\n".join(_lines(it, report)), end="\n\n", file=out)
    print(words_compare.summary(**report.counts), file=out)


def _lines(it: Compared, report: Report) -> Iterator[str]:
    if not it.differs:
        yield f"not compared  {it.question.name}"
        yield f"    {it.why_not or it.phone.why_not}"
        return
    yield f"differs  {it.question.name}"
    yield from (f"    {line}" for line in details(it, report))


def details(it: Compared, report: Report) -> Iterator[str]:
    """What both answered, and why `am` did."""
    if it.phone.line != it.question.name:
        yield f"asked  {it.phone.line}"
    yield f"phone  {_said(it.phone.outcome)}"
    yield f"am     {_said(it.am)}"
    rows = [(shown(one.to), *_account(one, it)) for one in it.accounts]
    yield from show.account_lines(rows)
    yield from (f"rule   {rule}" for rule in it.rules)
    if it.other is not None:
        agrees = it.phone.outcome is not None and it.phone.outcome.agrees(it.other.outcome)
        yield f"rules  {it.other.rules} {words_compare.OTHER_AGREES if agrees else 'answers: ' + _said(it.other.outcome)}"
    elif not report.has_other_rules:
        yield f"rules  {words_compare.NO_OTHER_RULES}"


def _said(outcome: Outcome | None) -> str:
    return "" if outcome is None else words_compare.outcome(outcome.way, outcome.components, outcome.rule, outcome.permission)


def _account(one: Account, it: Compared) -> tuple[str, str]:
    if one.verdict == ABSENT or it.about is None:
        return words_compare.NOT_THERE, ""
    if one.verdict == LISTED:
        return words_compare.AM_LISTS, ""
    sentence = account(one, it.about)
    return sentence.says, sentence.change


def write_json(report: Report, out: TextIO) -> None:
    document = {
        "suite": report.suite,
        "device": str(report.device),
        "phone": {"serial": report.serial, "level": report.level},
        "rules": report.rules,
        "counts": report.counts,
        "stopped": list(report.stopped),
        "questions": [_to_json(it) for it in report.compared],
    }
    json.dump(document, out, ensure_ascii=False, indent=1, sort_keys=True)
    print(file=out)


def _to_json(it: Compared) -> dict[str, Any]:
    said = it.phone.said
    phone = {"line": it.phone.line, "status": said.status, "out": said.out, "err": said.err, **_json(it.phone.outcome)}
    found: dict[str, Any] = {
        "name": it.question.name,
        "ask": it.question.ask,
        "verdict": "differs" if it.differs else "agrees" if it.agrees else "unasked",
        "phone": phone,
        "am": _json(it.am),
    }
    if it.is_ordered_otherwise:
        found["order"] = words_compare.other_order()
    if it.differs:
        found["accounts"] = [results.to_json(one) for one in it.accounts]
        found["rules"] = [{"heading": rule.heading, "rule": rule.name.rstrip(".")} for rule in it.rules]
        if it.other is not None and it.phone.outcome is not None:
            found["other_rules"] = {"rules": it.other.rules, "agrees": it.phone.outcome.agrees(it.other.outcome), **_json(it.other.outcome)}
    elif not it.agrees:
        found["why"] = it.why_not or it.phone.why_not
    return found


def _json(outcome: Outcome | None) -> dict[str, Any]:
    return {} if outcome is None else outcome.to_json()
