"""Calls of the app that name nobody, and who gets them."""
from collections.abc import Iterator, Mapping, Sequence
from typing import Any, Literal

from amctl import words, words_check
from amctl.check.app import App, Unreadable
from amctl.check.asking import Copies, Exchange, Outcome
from amctl.findings.finding import Finding
from amctl.check.history import Call
from amctl.check.intents import STARTED_ONCE
from amctl.check.made import at
from amctl.check.witness import ANY, host_of, types_of
from amctl.device import Refusal
from amctl.devicefile import Kind
from amctl.intents import Intent

ROUTES: Mapping[str, Kind] = {"/v1/send": "receiver", "/v1/start": "activity"}
TAKEN: Sequence[Literal["activity", "receiver"]] = ("activity", "receiver")


def of_calls(copies: Copies, app: App, calls: Sequence[Call]) -> Iterator[Finding]:
    """What others get of the app's stored broadcasts and starts, each intent once."""
    asked: set[tuple[str, str]] = set()
    for call in calls:
        kind = ROUTES.get(call.route)
        intent = _implicit(call)
        if kind is None or intent is None or (call.route, words.intent(intent)) in asked:
            continue
        asked.add((call.route, words.intent(intent)))
        permission = call.request.get("permission")
        exchange = copies.ask("after", kind, intent, caller=app.package, permission=permission)
        yield from _broadcast(app, exchange) if kind == "receiver" else _start(app, exchange)


def _implicit(call: Call) -> Intent | None:
    """The intent of a call, if it names nobody."""
    fields = call.request.get("intent")
    intent = Intent.from_json(fields) if isinstance(fields, dict) else None
    return intent if intent and intent.component is None and intent.package is None else None


def _broadcast(app: App, exchange: Exchange) -> Iterator[Finding]:
    others = _others(app, exchange.reached)
    if others:
        message = words_check.caught_broadcast(others, exchange.permission)
        yield at(app, "package", "caught-broadcast", words.intent(exchange.intent), message, exchange)


def _start(app: App, exchange: Exchange) -> Iterator[Finding]:
    outcome = Outcome.of(exchange)
    if _others(app, outcome.components):
        message = words_check.caught_start(outcome.way, outcome.components)
        yield at(app, "package", "caught-start", words.intent(exchange.intent), message, exchange)


def _others(app: App, components: Sequence[str]) -> tuple[str, ...]:
    return tuple(it for it in components if not it.startswith(f"{app.package}/"))


def of_queries(copies: Copies, app: App) -> Iterator[Finding]:
    """Without a history only `queries` says which intents the app may send."""
    rows = app.queries.get("intent")
    for index, row in enumerate(rows if isinstance(rows, list) else ()):
        for kind in TAKEN if isinstance(row, dict) else ():
            exchange = _ask(copies, app, index, _asked(row, kind), kind)
            others = _others(app, Outcome.of(exchange).components if kind == "activity" else exchange.reached)
            if others:
                message = words_check.may_be_caught(kind, others)
                yield at(app, f"queries.intent[{index}]", "may-be-caught", words.intent(exchange.intent), message, exchange)


def _ask(copies: Copies, app: App, index: int, intent: Intent, kind: Kind) -> Exchange:
    """A session doesn't read `queries`, so a fault of theirs comes out here."""
    try:
        return copies.ask("after", kind, intent, caller=app.package)
    except Refusal as refused:
        if refused.rule == "bad_request":
            raise Unreadable(words_check.bad_query(refused.told), app.place(f"queries.intent[{index}]")) from None
        raise


def _asked(row: Mapping[str, Any], kind: Kind) -> Intent:
    """An intent of a signature of `queries`."""
    scheme, host, mime = (row.get(it) for it in ("scheme", "host", "mimeType"))
    data = None
    if isinstance(scheme, str):
        data = f"{scheme}://{host_of(host)}/" if isinstance(host, str) else f"{scheme}://{ANY}.example/" if scheme in ("http", "https") else f"{scheme}:{ANY}"
    categories = tuple(it for it in row.get("category") or () if isinstance(it, str))
    mime = types_of(mime, ())[0] if isinstance(mime, str) else None
    flags = STARTED_ONCE if kind == "receiver" else ()
    return Intent(action=row.get("action"), data=data, type=mime, categories=categories, flags=flags)


def pending(app: App, calls: Sequence[Call]) -> Iterator[Finding]:
    """Mutable pending intents that name nobody: their holder fills in the package, and the app starts it."""
    asked: set[str] = set()
    for call in calls:
        intent = _implicit(call)
        if call.route != "/v1/pending/get" or intent is None or "MUTABLE" not in call.request.get("flags", ()):
            continue
        about = f"{call.request.get('kind')} {words.intent(intent)}"
        if about not in asked:
            asked.add(about)
            yield at(app, "package", "mutable-implicit", about, words_check.mutable_implicit(call.number))
