"""`amctl compare`: what it does with its words."""
import sys
from collections.abc import Callable, Sequence
from dataclasses import dataclass, replace
from pathlib import Path
from typing import TextIO

from amctl import words_compare
from amctl.compare import junit
from amctl.compare.everyday import everyday
from amctl.compare.lines import line_of
from amctl.compare.phone import Answer, Phone
from amctl.compare.question import SHELL, Question
from amctl.compare.report import ABSENT, LISTED, Compared, Other, Report, write_json, write_text
from amctl.compare.rules import rules_of
from amctl.compare.simulated import OTHER, Simulated, under_other_rules
from amctl.compare.suite import read_suite
from amctl.device import Device, Refusal
from amctl.devicefile import SYSTEM, DeviceFile
from amctl.errors import BadWords
from amctl.phone import adb as real
from amctl.phone.adb import Adb
from amctl.phone.asked import property_of
from amctl.results import Account, To
from amctl.words import About

EVERYDAY = "everyday"
FORMATS = ("text", "json", "junit")
DIFFERS, UNUSABLE = 1, 2
INCLUDE_STOPPED = "INCLUDE_STOPPED"


@dataclass(frozen=True)
class Asked:
    """What is compared with which phone."""

    device: Path
    suite: Path | None = None
    own: str | None = None
    serial: str | None = None
    adb: Path | None = None
    am: Path | None = None
    form: str = "text"
    is_confirmed: bool = False

    @property
    def name(self) -> str:
        return str(self.suite) if self.suite else str(self.own)


def main(asked: Asked, *, is_listed: bool = False) -> int:
    """Prints what differs, or the suite's lines; the status is 1 if something differs, and 2 if nothing could be compared."""
    if asked.form not in FORMATS:
        raise BadWords(words_compare.no_format(asked.form, FORMATS))
    file = DeviceFile.read(asked.device)
    questions = questions_of(asked, file)
    if is_listed:
        print("\n".join(line_of(it) for it in questions))
        return 0
    return compare(real.phone(asked.adb, asked.serial), asked, file, questions, sys.stdout, sys.stderr, _confirmed)


def questions_of(asked: Asked, file: DeviceFile) -> tuple[Question, ...]:
    """The questions of the suite that is named."""
    if asked.suite is not None and asked.own is not None:
        raise BadWords(words_compare.TWO_SUITES)
    if asked.suite is not None:
        return read_suite(asked.suite)
    if asked.own is None:
        raise BadWords(words_compare.NO_SUITE)
    if asked.own != EVERYDAY:
        raise BadWords(words_compare.no_such_suite(asked.own))
    return everyday(file)


def _confirmed(sentence: str) -> bool:
    """Whether the person at the terminal goes on."""
    if not sys.stdin.isatty():
        raise BadWords(f"{sentence} {words_compare.UNCONFIRMED}")
    print(f"{sentence}\n{words_compare.GO_ON}", end="", file=sys.stderr, flush=True)
    return sys.stdin.readline().strip().lower() in ("y", "yes")


def compare(
    adb: Adb, asked: Asked, file: DeviceFile, questions: Sequence[Question], out: TextIO, err: TextIO, confirmed: Callable[[str], bool]
) -> int:
    serial, level = adb.name(), property_of(adb, "ro.build.version.sdk")
    starts, broadcasts = (sum(it.ask == ask for it in questions) for ask in ("start", "broadcast"))
    if starts + broadcasts and not asked.is_confirmed and not confirmed(words_compare.announced(serial, starts, broadcasts)):
        print(f"amctl: {words_compare.NOT_ASKED}", file=err)
        return UNUSABLE
    with Device.open(file.path, am=asked.am) as device, under_other_rules(file, asked.am) as other:
        both = _Both(Phone(adb, lambda package: print(words_compare.stopped(package), file=err, flush=True)), Simulated(device), other)
        both.stop_what_is_stopped(questions)
        compared = tuple(both.ask(it) for it in questions)
        report = Report(asked.name, file.path, serial, level, file.rules, other is not None, compared, tuple(both.phone.stopped))
    {"text": write_text, "json": write_json, "junit": junit.write}[asked.form](report, out)
    if report.counts["unasked"] == len(compared):
        print(f"amctl: {words_compare.NOTHING_ASKED}", file=err)
        return UNUSABLE
    return DIFFERS if report.differing else 0


@dataclass(frozen=True)
class _Both:
    """The phone and `am`."""

    phone: Phone
    am: Simulated
    other: Simulated | None

    def stop_what_is_stopped(self, questions: Sequence[Question]) -> None:
        """Stops here what is stopped there, if a broadcast would tell."""
        if any(it.ask == "broadcast" and INCLUDE_STOPPED not in it.intent.flags for it in questions):
            for package in self.am.device.file.names:
                if self.phone.is_stopped(package):
                    self._stop(package)

    def _stop(self, package: str) -> None:
        for simulated in (self.am, self.other):
            if simulated is not None:
                simulated.stop(package)

    def ask(self, question: Question) -> Compared:
        try:
            expected = self.am.ask(question)
        except (Refusal, BadWords) as refused:
            return Compared(question, Answer(line_of(question)), None, words_compare.refused_by_am(str(refused)))
        before = len(self.phone.stopped)
        answer = self.phone.ask(question)
        if answer.outcome is not None and not answer.outcome.agrees(expected):
            answer = self.phone.found_by_log(question, answer)
        compared = Compared(question, answer, expected)
        found = self._explained(compared) if compared.differs else compared
        for package in self.phone.stopped[before:]:
            self._stop(package)
        return found

    def _explained(self, compared: Compared) -> Compared:
        """A difference with what `am` says of it, the rules of that, and what the other rules answer."""
        question, phone, am = compared.question, compared.phone.outcome, compared.am
        assert phone is not None and am is not None
        said: dict[To, Account] = {it.to: it for it in self.am.accounts(question)}
        # a list asks neither for a gate nor for the first among them
        said |= {it: Account(it, LISTED) for it in am.components if am.way == "lists"}
        accounts = tuple(said.get(it, Account(it, ABSENT)) for it in am.apart(phone))
        other = None
        if self.other is not None:
            other = Other(OTHER[self.am.device.file.rules], self.other.ask(question))
        caller = question.caller or SHELL if question.changes else SYSTEM
        about = About(caller, question.kind, question.intent, self.am.device.file)
        rules = rules_of(accounts, question.kind, question.intent, phone.rule)
        return replace(compared, accounts=accounts, rules=rules, other=other, about=about)
