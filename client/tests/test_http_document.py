"""Every exchange of docs/HTTP.md passes through a Device: its methods write the frames there, and give their answers."""
import json
import re
from collections.abc import Mapping
from dataclasses import dataclass, field
from pathlib import Path
from typing import Any

import pytest

from amctl import App, Device, Intent, IntentFilter, Refusal
from amctl.results import to_json
from amctl.transport import Answer, Ask, Transport, body_of
from conftest import TOP

BLOCK = re.compile(r"^```(toml device|http request(?: at \d+)?|http next request|http response)\n(.*?)^```$", re.M | re.S)
# the first moment in the document's history, so its entries come out as shown there
FIRST_MOMENT = 1767225600000


@dataclass
class Exchange:
    """A request of the document and its response."""

    method: str
    path: str
    key: str
    body: str
    status: int = 0
    answer: Mapping[str, Any] = field(default_factory=dict)


@dataclass
class Talk:
    """The exchanges of one session on a device."""

    device: str
    # the moment at which its clock stands still, if it does
    at: int | None = None
    exchanges: list[Exchange] = field(default_factory=list)


def _request(text: str) -> Exchange:
    head, _, body = text.partition("\n\n")
    method, path, _ = head.split("\n")[0].split(" ")
    key = re.search(r"^AM-Key: (.*)$", head, re.M)
    return Exchange(method, path, key[1] if key else "", body.strip())


def talks() -> list[Talk]:
    found: list[Talk] = []
    device = ""
    for kind, text in BLOCK.findall((TOP / "docs" / "HTTP.md").read_text(encoding="utf-8")):
        if kind == "toml device":
            device = text
        elif kind == "http response":
            head, _, body = text.partition("\n\n")
            last = found[-1].exchanges[-1]
            last.status, last.answer = int(head.split(" ")[1]), json.loads(body)
        else:
            if kind.startswith("http request"):
                moment = kind.removeprefix("http request").removeprefix(" at ")
                found.append(Talk(device, int(moment) if moment else None))
            found[-1].exchanges.append(_request(text))
    return found


class Recorder:
    """Passes requests on and keeps what was asked and answered."""

    def __init__(self, inner: Transport) -> None:
        self.inner = inner
        self.asks: list[Ask] = []
        self.answers: list[Answer] = []

    def ask(self, ask: Ask) -> Answer:
        answer = self.inner.ask(ask)
        self.asks.append(ask)
        self.answers.append(answer)
        return answer

    def close(self) -> None:
        self.inner.close()


def call(app: App, path: str, fields: dict[str, Any]) -> Any:
    """Asks by the method of the route, and gives its result in the form of the reply."""
    given = dict(fields)
    for name in ("intent", "fill"):
        if name in given:
            given[name] = Intent.from_json(given[name])
    route = path.removeprefix("/v1/").replace("/", "_")
    if route in ("query", "explain"):
        renamed = {{"as": "as_", "defaultOnly": "default_only"}.get(name, name): value for name, value in given.items()}
        found = getattr(app, route)(**renamed)
        return {{"query": "components", "explain": "accounts"}[route]: to_json(found)}
    if route == "register":
        given["filter"] = IntentFilter(**{name: tuple(it) if isinstance(it, list) else it for name, it in given["filter"].items()})
        return {"number": app.register(**given)}
    if route == "history":
        return {"entries": to_json(app.history(given["from"])), "from": given["from"]}
    return _reply(route, getattr(app, route)(**given))


WRAPPED = {"back": "finished", "tasks": "tasks", "services": "services", "inbox": "items", "pending_get": "token", "install": "uid"}


def _reply(route: str, found: Any) -> Any:
    if route in WRAPPED:
        return {WRAPPED[route]: to_json(found)}
    return {} if found is None else to_json(found)


def timeless(value: Any) -> object:
    """The value without the machine's moments."""
    found: object = json.loads(re.sub(r'"moment": \d+', '"moment": 0', json.dumps(value, sort_keys=True)))
    return found


def first_route(talk: Talk) -> str:
    return talk.exchanges[0].path.removeprefix("/v1/")


@pytest.mark.parametrize("talk", talks(), ids=first_route)
def test_exchanges(talk: Talk, tmp_path: Path) -> None:
    file = tmp_path / "device.toml"
    file.write_text(talk.device, encoding="utf-8")
    clock = (FIRST_MOMENT, 1) if talk.at is None else (talk.at, 0)
    with Device.open(file, at=clock[0], step=clock[1]) as device:
        recorder = device._transport = Recorder(device._transport)
        for exchange in talk.exchanges:
            fields = json.loads(exchange.body or "{}")
            app = device.with_key(exchange.key)
            try:
                reply = call(app, exchange.path, fields)
            except Refusal as refused:
                reply = {"error": refused.rule, **({} if refused.name is None else {"name": refused.name})}
                assert refused.status == exchange.status
                assert refused.sentence.endswith(".") and refused.rule not in refused.sentence.split()
            assert timeless(reply) == timeless(exchange.answer)
            ask, answer = recorder.asks[-1], recorder.answers[-1]
            assert (ask.method, ask.path, ask.key) == (exchange.method, exchange.path, exchange.key)
            assert json.loads(ask.body or b"{}") == fields
            assert (answer.status, timeless(answer.body)) == (exchange.status, timeless(exchange.answer))
        assert len(recorder.asks) == len(talk.exchanges)


def test_the_document_has_every_route() -> None:
    shown = {it.path for talk in talks() for it in talk.exchanges}
    text = (TOP / "docs" / "HTTP.md").read_text(encoding="utf-8")
    listed = set(re.findall(r"^\| \[`(?:GET|POST) (/v1/[a-z_/]+)`\]", text, re.M))
    assert len(listed) == 27
    assert shown == listed


def test_a_body_is_written_in_the_order_of_its_keys() -> None:
    assert body_of({"kind": "activity", "intent": {"data": "x:ü"}}) == '{"intent":{"data":"x:ü"},"kind":"activity"}'.encode()
