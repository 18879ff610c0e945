"""Asks the phone, and puts back what that changed."""
import secrets
from collections.abc import Callable
from dataclasses import dataclass, field, replace

from amctl import words_compare
from amctl.apps.manifests import SYSTEM
from amctl.compare import lines
from amctl.compare.question import SHELL, Outcome, Question
from amctl.phone.adb import Adb, Said, Silent
from amctl.phone.lines import state_of

BACK = ("input", "keyevent", "4")
LOG = ("logcat", "-d", "-s", "ActivityTaskManager:I")
ACTIVITIES = ("dumpsys", "activity", "activities")
BROADCASTS = ("dumpsys", "activity", "broadcasts")
# what isn't an app that can be stopped
UNSTOPPED = (SYSTEM, SHELL)
NOT_DEBUGGABLE = "run-as: "


@dataclass(frozen=True)
class Answer:
    """What came of a question on the phone: with the line that asked it and what adb printed. Without an outcome there is the reason."""

    line: str
    said: Said = Said(0, "", "")
    outcome: Outcome | None = None
    why_not: str = ""


@dataclass
class Phone:
    """The phone. `stopped` are the apps that it has stopped by force to put back a start, and whoever listens is told of each."""

    adb: Adb
    told: Callable[[str], None] = lambda package: None
    stopped: list[str] = field(default_factory=list)
    # marks this run's broadcasts among those that the phone remembers
    mark: str = field(default_factory=lambda: f"amctl-{secrets.token_hex(4)}")
    sent: int = 0

    def ask(self, question: Question) -> Answer:
        try:
            return {"start": self._start, "broadcast": self._broadcast, "query": self._list, "link": self._resolve}[question.ask](question)
        except Silent as silent:
            # an app may never show what was started
            return Answer(lines.line_of(question), why_not=str(silent))

    def _list(self, question: Question) -> Answer:
        answer = self._said(question)
        return _with(answer, lines.listed(answer.said, question.kind))

    def _resolve(self, question: Question) -> Answer:
        answer = self._said(question)
        return _with(answer, lines.resolved(answer.said))

    def is_stopped(self, package: str) -> bool:
        state = state_of(self.adb.shell("dumpsys", "package", package).out, package)
        return state is not None and state.is_stopped

    def found_by_log(self, question: Question, answer: Answer) -> Answer:
        """The answer with the activity that a start of adb's shell found: the one that is shown may be another, which that one started."""
        is_opened = question.ask == "start" and answer.outcome is not None and answer.outcome.way == "opens"
        found = lines.found_by_shell(self.adb.shell(*LOG)) if is_opened and question.caller is None else None
        return answer if found is None else replace(answer, outcome=Outcome("opens", (found,)))

    def _said(self, question: Question) -> Answer:
        return Answer(lines.line_of(question), self.adb.shell(*lines.words_of(question)))

    def _start(self, question: Question) -> Answer:
        answer = self._said(question)
        outcome = None if _is_barred(answer) else lines.started(answer.said)
        if outcome is None and answer.said.status == 0 and "Status: " in answer.said.out:
            # a start that takes too long has no line for its activity
            outcome = lines.resumed(self.adb.shell(*ACTIVITIES))
        if outcome is not None:
            self._put_back(outcome)
        return _with(answer, outcome)

    def _put_back(self, outcome: Outcome) -> None:
        """Ends what a start has opened."""
        if outcome.way == "chooses":
            self.adb.shell(*BACK)
        if outcome.way == "opens":
            package = outcome.components[0].partition("/")[0]
            if package not in UNSTOPPED:
                self.adb.shell("am", "force-stop", package)
                if package not in self.stopped:
                    self.stopped.append(package)
                    self.told(package)

    def _broadcast(self, question: Question) -> Answer:
        self.sent += 1
        marked = f"{self.mark}-{self.sent}"
        answer = self._said(replace(question, intent=replace(question.intent, identifier=marked)))
        if _is_barred(answer):
            return _with(answer, None)
        if lines.is_refused_broadcast(answer.said):
            return _with(answer, Outcome("refuses", rule="protected_action"))
        return _with(answer, lines.received(self.adb.shell(*BROADCASTS), marked))


def _is_barred(answer: Answer) -> bool:
    """Whether the phone lets nobody ask as this app."""
    return answer.said.status != 0 and (answer.said.err or answer.said.out).startswith(NOT_DEBUGGABLE)


def _with(answer: Answer, outcome: Outcome | None) -> Answer:
    if outcome is not None:
        return replace(answer, outcome=outcome)
    why = words_compare.not_as(answer.said.last_line) if _is_barred(answer) else words_compare.unknown_lines(answer.said.last_line)
    return replace(answer, why_not=why)
