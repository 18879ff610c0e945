"""The app's web links: what they open as it is, and once its hosts are approved."""
from collections.abc import Iterator, Sequence

from amctl import words, words_check
from amctl.check.app import App
from amctl.check.assetlinks import Statements
from amctl.check.asking import Copies, Exchange, Outcome
from amctl.findings.finding import Finding
from amctl.check.intents import WEB, Question
from amctl.check.made import at
from amctl.check.merged import Said, of_hosts
from amctl.check.resolution import why_not
from amctl.check.witness import takes_host
from amctl.intents import VIEW
from amctl.words import host_and_path


def hosts_of(questions: Sequence[Question]) -> tuple[str, ...]:
    """The hosts of web links, each once."""
    return tuple(dict.fromkeys(host for it in questions if (host := _host(it))))


def web_links(app: App, questions: Sequence[Question]) -> list[Question]:
    """The app's own web links, of the questions that its filters were made into."""
    return [it for it in questions if it.component.package == app.package and _names_hosts(it) and _host(it) and not it.intent.categories]


def _host(question: Question) -> str:
    """The host of a web link, or nothing."""
    data = question.intent.data or ""
    is_web = question.intent.action == VIEW and data.partition(":")[0] in WEB and question.intent.type is None
    return host_and_path(data)[0] if is_web else ""


def _names_hosts(question: Question) -> bool:
    """Whether the filter names a host: what takes any link has none to be approved for."""
    return any(isinstance(row.get("host"), str) for row in question.filter.data)


def unverified(app: App, links: Sequence[Question]) -> set[str]:
    """The hosts that the app doesn't ask to have verified, if its facts are known."""
    facts = app.facts.of(app.package)
    return set() if facts is None else {it for it in hosts_of(links) if not any(takes_host(asked, it) for asked in facts.auto_verify)}


def unstated(app: App, links: Sequence[Question], statements: Statements | None) -> set[str]:
    """The hosts whose statements don't name the app."""
    if statements is None:
        return set()
    return {host for host in hosts_of(links) if not any(statements.name(it, app.package) for it in (host, *_wildcards(links, host)))}


def _wildcards(links: Sequence[Question], host: str) -> Iterator[str]:
    """The wildcards that a host is a witness of: their statements are at the host below."""
    rows = (row for it in links if _host(it) == host for row in it.filter.data)
    yield from (it for row in rows if isinstance(it := row.get("host"), str) and it.startswith("*.") and host.endswith(it[1:].lower()))


def check(copies: Copies, app: App, links: Sequence[Question], statements: Statements | None) -> Iterator[Finding]:
    yield from of_hosts(_said(copies, app, links, statements))


def _said(copies: Copies, app: App, links: Sequence[Question], statements: Statements | None) -> Iterator[Said]:
    unsaid, unasked = unstated(app, links, statements), unverified(app, links)
    # with statements it is known which hosts would be approved; without them all are taken to be
    unapproved = unsaid | unasked if statements else set()
    for host in hosts_of(links):
        _approve(copies, app, links, host, approved=host not in unapproved)
        for question in (it for it in links if _host(it) == host):
            about, path = words.intent(question.intent), question.filter.at
            if host in unsaid:
                yield question.intent, at(app, path, "link-unstated", about, words_check.link_unstated(host, app.package))
            if host in unasked:
                yield question.intent, at(app, path, "link-unverified", about, words_check.link_unverified(host))
            yield question.intent, _compared(copies, app, question)
        _approve(copies, app, links, host, approved=False)


def _approve(copies: Copies, app: App, links: Sequence[Question], host: str, *, approved: bool) -> None:
    """Approves the app for a host, or withdraws that. A phone asks for the host as the app's filters have it."""
    for it in (host, *_wildcards(links, host)) if copies.answers_as_phone else (host,):
        copies.approve(app.package, it, approved=approved)


def _compared(copies: Copies, app: App, question: Question) -> Finding:
    """Whom the link opens as it is, and once the app is approved for its host."""
    now, approved = copies.ask("after", "activity", question.intent), copies.ask("approved", "activity", question.intent)
    soon, later = Outcome.of(now), Outcome.of(approved)
    why = why_not(copies, approved, soon.components[0]) if soon.way == "opens" and soon != later else ""
    rule = _rule(app, later)
    if rule == "link" and _was_others(copies, app, now, soon):
        rule, message = "taken", words_check.link_taken(soon.components[0], later.components[0], why)
    else:
        first, last = (words_check.says_outcome(it.way, it.components) for it in (soon, later))
        message = words_check.link(first, last, why)
    return at(app, question.filter.at, rule, words.intent(question.intent), message, now, approved)


def _was_others(copies: Copies, app: App, now: Exchange, soon: Outcome) -> bool:
    """Whether a phone opens another app that is approved for the link: then this one takes it, as the one installed last."""
    of_app = [it for it in now.accounts if str(it.to).startswith(f"{app.package}/")]
    return copies.answers_as_phone and soon.way == "opens" and any(it.by == "approved" for it in of_app)


def _rule(app: App, later: Outcome) -> str:
    if later.way == "asks":
        return "link-asks"
    is_own = all(it.startswith(f"{app.package}/") for it in later.components)
    return "link" if later.way == "opens" and is_own else "link-lost"
