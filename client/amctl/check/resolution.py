"""What the app changes on the device: the answers before are compared with those after."""
from collections.abc import Iterator, Sequence

from amctl import words, words_check
from amctl.check.app import App
from amctl.check.asking import Copies, Exchange, Outcome
from amctl.findings.finding import Finding
from amctl.check.intents import Question
from amctl.check.made import at
from amctl.check.merged import Said, of_hosts
from amctl.device import Refusal
from amctl.results import Account

# URIs of these schemes are taken by a filter that lists only types
LOCAL = ("content", "file")
# a component of these verdicts isn't touched by the intent
PASSED_OVER = ("filters", "other_component", "other_package", "disabled")


def concerned(copies: Copies, app: App, asked: Sequence[Question]) -> list[Question]:
    """The questions whose intent some component of the app takes: no other answer can change."""
    filters = [filter for it in app.components for filter in it.filters]
    actions = {it for filter in filters for it in filter.actions}
    schemes = {"", *LOCAL, *(row.get("scheme") for filter in filters for row in filter.data)}
    # on a device of many apps most intents aren't worth a question
    worth = [it for it in asked if it.intent.action in actions and _scheme(it) in schemes]
    return [it for it in worth if any(account.verdict not in PASSED_OVER for account in _accounts(copies, app, it))]


def _scheme(question: Question) -> str:
    return (question.intent.data or "").partition(":")[0]


def _accounts(copies: Copies, app: App, question: Question) -> Sequence[Account]:
    """The app's accounts; none if no such intent can be sent, as for a host that no URI has or a URI that is too long."""
    try:
        return copies.ask("after", question.kind, question.intent, of=app.package).accounts
    except Refusal as refused:
        if refused.rule != "bad_request":
            raise
        return ()


def check(copies: Copies, app: App, asked: Sequence[Question]) -> Iterator[Finding]:
    """What changes. An intent with categories is reported only if they make a difference."""
    yield from of_hosts(_changes(copies, app, asked))


def _changes(copies: Copies, app: App, asked: Sequence[Question]) -> Iterator[Said]:
    said: dict[tuple[object, ...], str] = {}
    for question in sorted(asked, key=lambda it: len(it.intent.categories) > 0):
        found = _activity(copies, app, question) if question.kind == "activity" else _receiver(copies, app, question)
        if found is None:
            continue
        if not question.intent.categories or said.get(question.plain_key) != found.message:
            yield question.intent, found
        said[question.key] = found.message


def _activity(copies: Copies, app: App, question: Question) -> Finding | None:
    before, after = copies.ask("before", "activity", question.intent), copies.ask("after", "activity", question.intent)
    old, new = Outcome.of(before), Outcome.of(after)
    if old == new:
        return None
    system = copies.as_system(after)
    said = _said(old, new, _why_not(copies, after, old), _of_system(new, system))
    if said is None:
        return None
    rule, message = said
    return at(app, _path(app, question, new), rule, words.intent(question.intent), message, before, after, system)


def _of_system(new: Outcome, exchange: Exchange | None) -> str:
    """What the system's start does, if it isn't what the app's does."""
    found = Outcome.of(exchange) if exchange else new
    return words_check.system_opens(found.components[0]) if found != new and found.way == "opens" else ""


def _said(old: Outcome, new: Outcome, why: str, system: str) -> tuple[str, str] | None:
    """The rule and the sentence of a change, if there is something to say."""
    if old.way == "opens":
        return _was_opened(old.components[0], new, why, system)
    if old.way == "asks":
        if new.way == "asks":
            return "one-more", words_check.one_more(old.components, new.components)
        if new.way == "nothing":
            return "refused", words_check.shut_all(old.components, "")
        return ("refused" if new.way == "refuses" else "taken"), words_check.choice_ends(old.components, new.components[0])
    if new.way == "asks":
        return "opens", words_check.opens_many(new.components)
    if new.way == "refuses":
        return "opens", words_check.shut(new.components[0], system)
    # what refused its caller, and now ties with others that do, opens for nobody more or less
    return None if new.way == "nothing" else ("opens", words_check.opens(new.components[0]))


def _was_opened(old: str, new: Outcome, why: str, system: str) -> tuple[str, str]:
    if new.way == "nothing":
        return "refused", words_check.shut_all((old,), why)
    if new.way == "asks":
        return "asks", words_check.asks(old, new.components, why)
    if new.way == "refuses":
        return "refused", words_check.turned_down(old, new.components[0], why, system)
    return "taken", words_check.taken(old, new.components[0], why, system)


def _why_not(copies: Copies, after: Exchange, old: Outcome) -> str:
    """The rule by which what opened the intent alone no longer does."""
    return why_not(copies, after, old.components[0]) if old.way == "opens" else ""


def why_not(copies: Copies, after: Exchange, component: str) -> str:
    """The rule by which a component no longer opens the intent."""
    account = after.account(component)
    rule = (account.by or account.verdict) if account else ""
    return words_check.why(rule, answers_as_phone=copies.answers_as_phone)


def _path(app: App, question: Question, new: Outcome) -> str:
    """The filter that the intent was made for, or else the app's component that takes it."""
    if question.component.package == app.package:
        return question.filter.at
    taking = [it for it in app.components if it.component in new.components]
    return f"{taking[0].at}.name" if taking else "package"


def _receiver(copies: Copies, app: App, question: Question) -> Finding | None:
    """A broadcast that names nobody and the app hears too; of protected actions the system is the sender."""
    after = copies.ask("after", "receiver", question.intent)
    found = _own(app, after)
    system = None
    if not found:
        system = copies.as_system(after)
        found = _own(app, system) if system else ()
    if not found:
        return None
    receiver = next(it for it in app.components if it.component == found[0])
    path = question.filter.at if question.component.component == found[0] else f"{receiver.at}.name"
    return at(app, path, "hears", words.intent(question.intent), words_check.hears(found[0], system is not None), after, system)


def _own(app: App, exchange: Exchange) -> tuple[str, ...]:
    return tuple(it for it in exchange.reached if it.startswith(f"{app.package}/"))
