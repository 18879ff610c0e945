"""The page's gateway, without a browser: what it answers, what it refuses, and that no key leaves it."""
import re
import shlex
import signal
import socket
import subprocess
from collections.abc import Iterator
from contextlib import closing
from pathlib import Path
from typing import Any

import pytest

from amctl import Device, Intent, IntentFilter, Refusal
from amctl.results import Entry
from conftest import EXAMPLES, port_of, run_python, started
from ui_devices import LINK as SHOP, NEWS, many_apps

pytest.importorskip("httpx", reason="Debian's python3-httpx isn't installed")
pytest.importorskip("starlette", reason="Debian's python3-starlette isn't installed")
pytest.importorskip("uvicorn", reason="Debian's python3-uvicorn isn't installed")
pytest.importorskip("jinja2", reason="Debian's python3-jinja2 isn't installed")

from starlette.testclient import TestClient

from amctl import words_ui
from amctl.ui import run
from amctl.ui.ask import Question
from amctl.ui.desk import Desk, note_on
from amctl.ui.example import example
from amctl.ui.gateway import SCRIPTS, make_app
from amctl.ui.past import Replay

PORT = 8080
OWN = f"http://127.0.0.1:{PORT}"
LINK = "https://www.photos.example/album/cats"
QUESTION = {"from": "com.browser", "kind": "activity", "action": "android.intent.action.VIEW", "data": LINK}
APPROVAL = {"change": "link", "package": "com.photos", "what": "www.photos.example"}
ORDER = Intent(action="org.example.ORDER")
KEYED = """system_key = "KEY-of-system"
root_key = "KEY-of-root"
[[package]]
key = "KEY-of-one"
manifest = { package = "com.one" }
[[package]]
key = "KEY-of-two"
[package.manifest]
package = "com.two"
[[package.manifest.service]]
name = ".Sync"
exported = true
permission = "two.SYNC"
"""


class Page:
    """The page's gateway over a device."""

    def __init__(self, device: Device, url: str | None = None) -> None:
        self.device = device
        self.desk = Desk(device, url=url)
        self.client = TestClient(make_app(self.desk, PORT), base_url=OWN)

    def get(self, path: str) -> Any:
        return self.client.get(f"/api/{path}").json()

    def ask(self, **fields: Any) -> Any:
        return self.client.post("/api/ask", json={**QUESTION, **fields}).json()

    def close(self) -> None:
        self.desk.close()


@pytest.fixture
def page() -> Iterator[Page]:
    with closing(Page(Device.open(EXAMPLES / "device.toml"))) as made:
        yield made


@pytest.fixture
def shop() -> Iterator[Page]:
    with closing(Page(Device.open(EXAMPLES / "orders.toml"))) as made:
        yield made


def keyed(folder: Path) -> Device:
    file = folder / "device.toml"
    file.write_text(KEYED, encoding="utf-8")
    return Device.open(file)


def test_the_deciding_component_stands_on_top_with_its_reason_in_words(page: Page) -> None:
    found = page.ask()
    assert found["line"] == "com.browser/.Page opens."
    assert [it["to"] for it in found["accounts"]][:2] == ["com.browser/.Page", "com.photos/.Album"]
    album = found["accounts"][1]
    assert album["says"] == "not approved for www.photos.example, and no default browser is set"
    assert [it["label"] for it in album["buttons"]] == ["Approve com.photos for www.photos.example"]


def test_an_approval_turns_the_answer_round_on_a_copy_alone(page: Page) -> None:
    assert page.ask(changes=[APPROVAL])["line"] == "com.photos/.Album opens."
    assert page.ask()["line"] == "com.browser/.Page opens."
    assert page.device.system.status().history == 0


def test_a_tie_is_the_user_s_choice(tmp_path: Path) -> None:
    activity = '[[package.manifest.activity]]\nname = ".A"\nexported = true\n'
    activity += 'intent-filter = [{ action = ["x.A"], category = ["android.intent.category.DEFAULT"] }]\n'
    file = tmp_path / "device.toml"
    packages = [f'[[package]]\nkey = "k{it}"\n[package.manifest]\npackage = "com.p{it}"\n{activity}' for it in (1, 2, 3)]
    file.write_text('system_key = "s"\n' + "".join(packages), encoding="utf-8")
    with closing(Page(Device.open(file))) as page:
        assert page.ask(**{"from": "com.p1", "action": "x.A", "data": ""})["line"] == "The user would choose between com.p1/.A, com.p2/.A and com.p3/.A."
        assert page.ask(**{"from": "com.p1", "action": "x.B", "data": ""})["line"] == "Nobody gets it."


def test_a_copy_has_what_the_history_did(page: Page) -> None:
    page.device.system.link("com.browser", "www.photos.example")
    found = page.ask(changes=[APPROVAL])
    said = {it["to"]: it["says"] for it in found["accounts"]}
    # both are approved there, so that priority decides
    assert said["com.browser/.Page"] == "another one has a greater priority, or comes before it"
    assert found["line"] == "com.photos/.Album opens."
    assert page.ask()["line"] == "com.browser/.Page opens."


def test_a_grant_is_offered_and_tried(tmp_path: Path) -> None:
    with closing(Page(keyed(tmp_path))) as page:
        asked = {"from": "com.one", "kind": "service", "package": "", "component": "com.two/.Sync", "data": "", "action": ""}
        first = page.ask(**asked)
        button = first["accounts"][0]["buttons"][0]
        assert (first["line"], button["label"]) == ("Nobody gets it.", "Grant com.one two.SYNC")
        assert page.ask(**asked, changes=[button])["line"] == "com.two/.Sync starts."


@pytest.mark.parametrize(
    ("fields", "sentence"),
    [
        ({"kind": "window"}, words_ui.no_kind("window")),
        ({"changes": [{"change": "wipe"}]}, words_ui.no_change("wipe")),
        ({"data": "cats"}, "the data isn't a URI: it has no scheme"),
        ({"from": "com.none"}, "no installed package is called com.none"),
    ],
)
def test_a_question_that_is_refused_is_said(page: Page, fields: dict[str, Any], sentence: str) -> None:
    assert page.ask(**fields)["error"].startswith(sentence)


def test_every_field_of_an_intent_is_asked(page: Page) -> None:
    named = page.ask(action="", data="", component="com.photos/.Viewer")
    assert named["line"] == "com.photos/.Viewer opens."
    wrong = page.ask(flags=["NEW_TASKS"])
    assert "NEW_TASKS" in wrong["error"]
    extras = [{"key": "a b", "sort": "text", "value": "it's"}, {"key": "n", "sort": "number", "value": "-7"}, {"key": "", "sort": "text", "value": ""}]
    asked = Question.of({**QUESTION, "flags": ["NEW_TASK"], "extras": [*extras, {"key": "all", "sort": "truth", "value": "true"}]})
    assert asked.intent.extras == {"a b": "it's", "n": -7, "all": True}
    assert (asked.intent.flags, page.ask(extras=extras)["line"]) == (("NEW_TASK",), "com.browser/.Page opens.")


@pytest.mark.parametrize(
    ("extra", "sentence"),
    [
        ({"key": "n", "sort": "number", "value": "7.5"}, words_ui.no_number("n", "7.5")),
        ({"key": "n", "sort": "number", "value": str(2**63)}, words_ui.no_number("n", str(2**63))),
        ({"key": "t", "sort": "truth", "value": "yes"}, words_ui.no_truth("t", "yes")),
        ({"key": "", "sort": "text", "value": "cats"}, words_ui.no_extra_name("cats")),
    ],
)
def test_an_extra_of_another_sort_is_said(page: Page, extra: dict[str, str], sentence: str) -> None:
    assert page.ask(extras=[extra])["error"] == sentence


def test_a_receiver_s_permission_is_asked(shop: Page) -> None:
    asked = {"from": "com.shop", "kind": "receiver", "action": "org.example.ORDER", "data": ""}
    assert shop.ask(**asked)["line"] == "com.shop/.Ledger and com.guard/.Check get it."
    lacking = shop.ask(**asked, permission="org.example.AUDIT")
    button = lacking["accounts"][0]["buttons"][0]
    assert (lacking["line"], button["label"]) == ("Nobody gets it.", "Grant com.shop org.example.AUDIT")
    assert shop.ask(**asked, permission="org.example.AUDIT", changes=[button])["line"] == "com.shop/.Ledger gets it."


def test_the_example_is_a_question_that_the_device_answers(page: Page, shop: Page, tmp_path: Path) -> None:
    link = page.get("about")["example"]
    assert link == {"from": "com.browser", "kind": "activity", "action": "android.intent.action.VIEW", "data": "https://any.photos.example/album/any"}
    assert page.ask(**link)["line"] == "com.browser/.Page opens."
    order = shop.get("about")["example"]
    assert order == {"from": "com.shop", "kind": "receiver", "action": "org.example.ORDER"}
    assert shop.ask(**{"data": "", **order})["line"] == "com.shop/.Ledger and com.guard/.Check get it."
    (tmp_path / "device.toml").write_text('system_key = "s"\n', encoding="utf-8")
    with Device.open(tmp_path / "device.toml") as empty:
        assert example(empty.file) == {"from": "android", "kind": "activity", "action": "android.intent.action.VIEW"}


def test_a_device_of_many_apps_is_answered_by_what_decides(tmp_path: Path) -> None:
    with closing(Page(Device.open(many_apps(tmp_path, 60)))) as page:
        found = page.ask(**{"from": "com.app01", "data": SHOP})
        assert [it["to"] for it in found["accounts"]] == ["com.browser/.Page", *(f"com.app{it:02}/.Offers" for it in range(5, 51, 5))]
        assert [it["label"] for it in found["groups"]] == ["59 whose filters don't list the action", "1 not approved for the host"]
        assert [it["to"] for it in found["groups"][1]["accounts"]] == ["com.app55/.Offers"]
        # nobody is lost
        assert len(found["accounts"]) + sum(len(it["accounts"]) for it in found["groups"]) == len(page.device.system.explain("activity", Intent()))
        news = page.ask(**{"from": "com.browser", "kind": "receiver", "action": NEWS, "data": ""})
        assert news["line"] == "com.app01/.News, com.app02/.News, com.app03/.News, com.app04/.News and 55 more get it."
        assert (len(news["accounts"]), [it["label"] for it in news["groups"]]) == (10, ["49 more that get it"])
        # what asks for something else altogether is folded too, and nothing of it is shown
        named = page.ask(**{"from": "com.browser", "action": "", "data": "", "component": "com.app07/.Main"})
        assert [it["to"] for it in named["accounts"]] == ["com.app07/.Main"]
        assert [it["label"] for it in named["groups"]] == ["70 that the intent doesn't name"]
        # if nothing comes nearer, what is misspelt is seen by what stands there
        none = page.ask(**{"from": "com.browser", "action": "android.intent.action.MAINLY", "data": ""})
        assert none["accounts"][0]["says"] == "its filter doesn't list the action MAINLY, but VIEW"
        assert (len(none["accounts"]), none["groups"][0]["label"]) == (10, "61 whose filters don't list the action")


def test_another_host_is_refused(page: Page) -> None:
    got = page.client.get("/api/now", headers={"Host": f"evil.example:{PORT}"})
    assert (got.status_code, got.json()) == (403, {"error": words_ui.OTHER_HOST})
    assert page.client.get("/", headers={"Host": "127.0.0.1:1"}).status_code == 403
    assert page.client.get("/", headers={"Host": f"localhost:{PORT}"}).status_code == 200


def test_another_origin_is_refused(page: Page) -> None:
    for origin in ("https://evil.example", "null", f"http://127.0.0.1:{PORT + 1}"):
        got = page.client.post("/api/ask", json=QUESTION, headers={"Origin": origin})
        assert (got.status_code, got.json()) == (403, {"error": words_ui.OTHER_ORIGIN})
    assert page.client.post("/api/ask", json=QUESTION, headers={"Origin": OWN}).status_code == 200


def test_another_page_that_sends_no_origin_is_refused(page: Page) -> None:
    assert page.client.get("/api/now", headers={"Sec-Fetch-Site": "cross-site"}).status_code == 403
    assert page.client.get("/api/now", headers={"Sec-Fetch-Site": "same-origin"}).status_code == 200


def test_what_is_no_json_and_no_page_is_said(page: Page) -> None:
    assert page.client.post("/api/ask", content=b"{", headers={"Content-Type": "application/json"}).json() == {"error": words_ui.NOT_JSON}
    assert page.client.post("/api/ask", content=b"{}", headers={"Content-Type": "text/plain"}).json() == {"error": words_ui.NOT_JSON}
    assert page.client.get("/none").json() == {"error": words_ui.NO_PAGE}
    assert page.get("entry?at=0") == {"error": words_ui.no_entry(0)}


def test_nothing_comes_from_outside(page: Page) -> None:
    paths = ["/", "/page.css", *(f"/{it}.js" for it in SCRIPTS)]
    texts = [page.client.get(it) for it in paths]
    assert [it.status_code for it in texts] == [200] * len(paths)
    assert all("http" not in it.text.replace("https://www.example.org/", "") for it in texts)
    # what a script imports is served too
    assert {f"/{name}.js" for it in texts for name in re.findall(r'from "\./([a-z]+)\.js"', it.text)} < set(paths)
    assert "default-src 'self'" in page.client.get("/").headers["content-security-policy"]


def test_no_response_has_a_key(tmp_path: Path) -> None:
    with closing(Page(keyed(tmp_path))) as page:
        page.device.system.install('package = "com.new"\n', key="KEY-of-new")
        page.device.app("com.one").send(ORDER)
        views = ("about", "alive", "now", "history", "entry?at=0", "entry?at=1", "test?at=1", "device")
        paths = ["/", "/page.js", "/page.css", "/none", *(f"/api/{it}" for it in views)]
        answers = [page.client.get(it) for it in paths] + [page.client.post("/api/ask", json={**QUESTION, "from": it}) for it in ("android", "root", "com.one")]
        answers.append(page.client.post("/api/ask", json={**QUESTION, "changes": [{"change": "grant", "package": "com.one", "what": "two.SYNC"}]}))
        assert len(answers) == 16
        for it in answers:
            assert "KEY-of" not in it.text and "KEY-of" not in str(it.headers)
        # the call that has a key is among them
        assert page.get("entry?at=0")["request"] == {"manifest": 'package = "com.new"\n', "key": "(the package's key)"}
        assert [it["name"] for it in page.get("device")["packages"]] == ["com.one", "com.two", "com.new"]


def test_an_ordered_broadcast_is_shown_turn_by_turn(shop: Page) -> None:
    shop.device.app("com.shop").send(ORDER, ordered=True, code=1, result=True)
    found = shop.get("now")["broadcasts"]
    assert [(it["to"], it["state"]) for it in found[0]["rows"]] == [("com.guard/.Check", "turn"), ("com.shop/.Ledger", "waits")]
    assert found[0]["rows"][0]["left"] == "until 60000 ms, 60,000 ms after the last call"
    shop.device.app("com.guard").finish(1, code=2, data="looked at")
    rows = shop.get("now")["broadcasts"][0]["rows"]
    assert [(it["to"], it["state"], it["so_far"]) for it in rows] == [("com.guard/.Check", "done", ""), ("com.shop/.Ledger", "turn", "code 2, data looked at")]
    shop.device.app("com.shop").finish(2)
    over = shop.get("now")
    assert (over["broadcasts"], over["results"]) == ([], ["com.shop: result of broadcast 1: code 2, data looked at"])


def test_deadlines_are_the_program_s(shop: Page) -> None:
    app = shop.device.app("com.shop")
    app.send(ORDER.with_flag("FOREGROUND"), ordered=True)
    shop.device.advance(4000)
    app.send(ORDER)
    assert shop.get("now")["moment"] == "The last call was at 4000 ms; the next deadline is 6,000 ms later, at 10000 ms."
    ordered, normal = shop.get("now")["broadcasts"]
    assert [it["left"] for it in ordered["rows"]] == ["until 10000 ms, 6,000 ms after the last call", ""]
    assert [it["left"] for it in normal["rows"]] == ["until 64000 ms, 60,000 ms after the last call"] * 2
    shop.device.advance(6000)
    later = shop.get("now")["broadcasts"][0]["rows"]
    assert [(it["state"], it["left"]) for it in later] == [("done", ""), ("turn", "until 20000 ms, 10,000 ms after the last call")]
    shop.device.advance(10_000)
    assert [it["broadcast"] for it in shop.get("now")["broadcasts"]] == [2]
    shop.device.advance(44_000)
    assert (shop.get("now")["broadcasts"], shop.get("now")["moment"]) == ([], "The last call was at 64000 ms.")


def test_one_delivery_has_the_one_deadline(shop: Page, monkeypatch: pytest.MonkeyPatch) -> None:
    monkeypatch.setattr("amctl.ui.desk.MOST_COPIED", 0)
    shop.device.app("com.shop").send(ORDER, ordered=True)
    assert shop.get("now")["broadcasts"][0]["rows"][0]["left"] == "until 60000 ms, 60,000 ms after the last call"
    # of several ones after very many calls only the next is known
    shop.device.app("com.shop").send(ORDER)
    found = shop.get("now")
    assert [row["left"] for it in found["broadcasts"] for row in it["rows"]] == [""] * 4
    assert found["moment"] == "The last call was at 0 ms; the next deadline is 60,000 ms later, at 60000 ms."


def test_calls_are_made_again_at_their_moments() -> None:
    with Device.open(EXAMPLES / "orders.toml", at=1_000_000, step=61_000) as device:
        late(device)
        with closing(Page(device)) as page:
            assert [it["moment"] for it in page.get("history")["rows"]] == ["1000000 ms", "1061000 ms", "1122000 ms"]
            # the guard was late by the clock alone
            assert page.get("entry?at=1")["changed"] == [
                "now: delivery 2 for com.shop/.Ledger, broadcast 1: -a org.example.ORDER, so far code 0",
                "no more: delivery 1 for com.guard/.Check, broadcast 1: -a org.example.ORDER, so far code 0",
            ]
            assert page.get("entry?at=2")["reply"] == {"status": 404, "body": {"error": "no_delivery"}}


def late(device: Device) -> None:
    """A broadcast whose receivers are late, each after a minute: the second one answers when it's over."""
    device.app("com.shop").send(ORDER, ordered=True)
    device.system.tick()
    with pytest.raises(Refusal):
        device.app("com.shop").finish(2)


def test_tasks_stand_with_their_front_and_top_first(page: Page) -> None:
    page.device.app("com.browser").start(Intent.view(LINK).with_flag("NEW_TASK"))
    page.device.app("com.browser").start(Intent(component="com.browser/.Settings"), source=1)
    page.device.app("com.photos").start(Intent(component="com.photos/.Album").with_flag("NEW_TASK"))
    tasks = page.get("now")["tasks"]
    assert [[it["component"] for it in task["instances"]] for task in tasks] == [["com.photos/.Album"], ["com.browser/.Settings", "com.browser/.Page"]]


def test_registered_receivers_are_as_the_history_tells_them(shop: Page) -> None:
    guard = shop.device.app("com.guard")
    guard.register(IntentFilter(("a.NEWS",), priority=3))
    second = guard.register(IntentFilter(("a.MAIL",)))
    guard.unregister(second)
    assert shop.get("now")["registered"] == [{"number": 1, "owner": "com.guard", "filter": "a.NEWS · priority 3"}]


def test_a_call_is_shown_with_its_reply_and_what_it_changed(shop: Page) -> None:
    shop.device.app("com.shop").send(ORDER, ordered=True, code=1)
    shop.device.app("com.guard").finish(1, abort=True)
    with pytest.raises(Refusal):
        shop.device.app("com.guard").finish(1)
    assert [(it["caller"], it["call"]) for it in shop.get("history")["rows"]] == [("com.shop", "send"), ("com.guard", "finish"), ("com.guard", "finish")]
    first = shop.get("entry?at=0")
    assert first["reply"]["body"]["broadcast"] == 1
    assert first["changed"] == ["now: delivery 1 for com.guard/.Check, broadcast 1: -a org.example.ORDER, so far code 1"]
    assert shop.get("entry?at=2")["reply"] == {"status": 404, "body": {"error": "no_delivery"}}
    assert shop.get("entry?at=1")["changed"] == [words_ui.vanished(first["changed"][0].removeprefix("now: "))]
    # a step back is the same as before
    assert shop.get("entry?at=0") == first


def test_a_replay_begins_anew_before_its_session_ends(shop: Page, monkeypatch: pytest.MonkeyPatch) -> None:
    monkeypatch.setattr("amctl.ui.past.MOST_REQUESTS", 20)
    for _ in range(10):
        shop.device.system.tick()
    assert [shop.get(f"entry?at={it}")["reply"]["status"] for it in range(10)] == [200] * 10
    stepping = shop.desk._stepping
    assert stepping is not None and stepping.requests < 40


def test_a_server_that_began_anew_has_another_history(shop: Page) -> None:
    shop.device.app("com.shop").send(ORDER, ordered=True)
    assert shop.get("now")["broadcasts"][0]["rows"][1]["state"] == "waits"
    with Device.open(EXAMPLES / "orders.toml", at=5) as other:
        shop.desk.device = other
        other.app("com.guard").register(IntentFilter(("a.NEWS",)))
        other.app("com.shop").register(IntentFilter(("a.MAIL",)))
        found = shop.get("now")
    assert [(it["number"], it["owner"]) for it in found["registered"]] == [(1, "com.guard"), (2, "com.shop")]
    shop.device.close()


def test_a_session_of_its_own_says_why_nothing_is_there(page: Page) -> None:
    assert page.get("about")["note"] == words_ui.OWN_SESSION
    assert page.get("alive") == {"history": None}


def test_history_comes_in_pages(shop: Page) -> None:
    for _ in range(70):
        shop.device.system.tick()
    found = [shop.get(f"history?from={it}") for it in (0, 64, 128)]
    assert [(it["total"], len(it["rows"])) for it in found] == [(70, 64), (70, 6), (70, 0)]
    assert [found[0]["count"], words_ui.stored(1, 1), words_ui.stored(0, 0)] == ["70 stored calls", "1 stored call", "No stored calls."]


def test_refused_calls_are_marked_and_found(shop: Page) -> None:
    for number in (7, 8):
        with pytest.raises(Refusal):
            shop.device.app("com.guard").finish(number)
    shop.device.system.tick()
    with pytest.raises(Refusal):
        shop.device.app("com.guard").tick()
    found = shop.get("history")
    assert [(it["call"], it["refused"]) for it in found["rows"]] == [("finish", "no_delivery"), ("finish", "no_delivery"), ("tick", ""), ("tick", "admin_only")]
    assert found["names"] == {"caller": ["android", "com.guard"], "call": ["finish", "tick"]}
    ways = {"refused=on": [0, 1, 3], "caller=com.guard&call=tick": [3], "call=tick": [2, 3], "caller=android&refused=on": [], "caller=&call=": [0, 1, 2, 3]}
    assert {it: [row["at"] for row in shop.get(f"history?from=0&{it}")["rows"]] for it in ways} == ways
    assert (shop.get("history?refused=on")["count"], shop.get("history?refused=on&from=2")["rows"][0]["at"]) == ("3 of 4 stored calls", 3)


def test_a_history_that_is_too_long_says_so(shop: Page, monkeypatch: pytest.MonkeyPatch) -> None:
    monkeypatch.setattr("amctl.ui.past.MOST_REQUESTS", 20)
    for _ in range(30):
        shop.device.system.tick()
    found = shop.get("history")
    assert (len(found["rows"]), found["total"], found["note"]) == (30, 30, words_ui.LONG_HISTORY)
    assert (shop.get("now")["note"], shop.get("entry?at=25")["note"]) == (words_ui.LONG_HISTORY, words_ui.LONG_HISTORY)
    assert shop.get("test?at=29")["test"].endswith(f"    # {words_ui.LONG_HISTORY}\n")


def test_a_call_that_had_no_reply_says_why(tmp_path: Path) -> None:
    def entry(at: int, uid: int, kept: bool) -> Entry:
        return Entry(at=at, desk=0, kept=kept, now=0, request={}, route="/v1/tick", uid=uid, weight=2)

    device = keyed(tmp_path)
    with closing(device), closing(Replay(device, None)) as replay:
        replies = [replay.play(it) for it in (entry(0, 1000, True), entry(1, 1000, False), entry(2, 10009, True))]
    assert [None if it is None else it.status for it in replies] == [200, None, None]
    notes = [note_on(entry(at, 1000, kept), reply) for at, kept, reply in ((0, True, replies[0]), (1, False, None), (2, True, None))]
    assert notes == [words_ui.REPLAYED, words_ui.NOT_KEPT, words_ui.STORED_BEFORE]
    assert note_on(entry(9, 1000, True), None, is_reached=False) == words_ui.LONG_HISTORY


def test_copies_do_what_the_call_did(page: Page, tmp_path: Path) -> None:
    page.device.system.link("com.photos", "www.photos.example")
    page.device.app("com.browser").start(Intent.view(LINK, extras={"a b": "it's", "n": True}).with_flag("NEW_TASK"))
    copies = [page.get(f"entry?at={it}")["copies"] for it in (0, 1)]
    assert copies[0]["amctl"] == "amctl link com.photos www.photos.example"
    test = tmp_path / "test_copied.py"
    test.write_text(copies[1]["pytest"], encoding="utf-8")
    (tmp_path / "device.toml").write_bytes((EXAMPLES / "device.toml").read_bytes())
    ran = run_python("-m", "pytest", "-q", "-p", "amctl.pytest_plugin", str(test), cwd=tmp_path)
    assert "1 passed" in ran.out, ran.out
    ran = run_python("-m", *shlex.split(copies[1]["amctl"]), cwd=tmp_path)
    assert (ran.status, ran.out) == (0, "com.browser/.Page: a new instance (instance 1, task 1)\n")
    assert shlex.split(copies[0]["curl"])[-1] == '{"approved":true,"host":"www.photos.example","package":"com.photos"}'


def pasted(page: Page, number: int, folder: Path, change: tuple[str, str] = ("", "")) -> str:
    """How pytest ends on the test of all calls up to this one, as it is pasted into an empty folder."""
    test = folder / "test_pasted.py"
    test.write_text(page.get(f"test?at={number}")["test"].replace(*change), encoding="utf-8")
    return run_python("-m", "pytest", "-q", "-p", "no:cacheprovider", "-p", "amctl.pytest_plugin", str(test), cwd=folder).out


def test_calls_up_to_one_are_a_test_that_passes(page: Page, tmp_path: Path) -> None:
    system, browser, photos = page.device.system, page.device.app("com.browser"), page.device.app("com.photos")
    system.link("com.photos", "www.photos.example")
    browser.start(Intent.view(LINK, extras={"a b": "it's", "n": True}).with_flag("NEW_TASK"))
    browser.start(Intent(component="com.browser/.Settings").with_flag("NEW_TASK"))
    system.back()
    system.install('package = "com.new"\nactivity = [{ name = ".Main", exported = true }]\n')
    page.device.app("com.new").start(Intent(component="com.new/.Main").with_flag("NEW_TASK"))
    with pytest.raises(Refusal):
        browser.start(Intent(component="com.photos/.None").with_flag("NEW_TASK"))
    token = photos.pending_get("activity", 1, Intent(component="com.photos/.Album", flags=("NEW_TASK",)), ["MUTABLE"])
    assert token is not None
    photos.pending_give(token, "com.browser")
    browser.pending_send(token, fill=Intent(extras={"from": "the browser"}))
    photos.pending_cancel(token)
    system.grant("com.browser", "org.example.READ")
    photos.register(IntentFilter(("a.NEWS",), data=({"scheme": "https"},), priority=3))
    system.force_stop("com.photos")
    system.uninstall("com.new")
    assert "1 passed" in pasted(page, 14, tmp_path)
    assert "1 failed" in pasted(page, 14, tmp_path, ("'placed': 'fresh'", "'placed': 'fronted'"))


def test_the_time_between_calls_is_in_the_test_while_a_deadline_runs(tmp_path: Path) -> None:
    with Device.open(EXAMPLES / "orders.toml", at=1_000_000, step=61_000) as device:
        device.system.tick()
        late(device)
        device.system.tick()
        with closing(Page(device)) as page:
            assert page.get("test?at=4")["test"].count("am_device.advance(61000)") == 2
            assert "1 passed" in pasted(page, 4, tmp_path)
            assert "1 failed" in pasted(page, 4, tmp_path, ("'no_delivery'", "'not_yours'"))
            assert page.get("test?at=5") == {"error": words_ui.no_entry(5)}


def test_a_read_that_noticed_a_deadline_is_made_again(tmp_path: Path) -> None:
    with Device.open(EXAMPLES / "orders.toml", at=0, step=40_000) as device:
        device.app("com.shop").send(ORDER, ordered=True)
        device.system.tick()
        assert device.app("com.guard").inbox() == ()
        with closing(Page(device)) as page:
            assert [it["call"] for it in page.get("history")["rows"]] == ["send", "tick", "inbox"]
            found = page.get("entry?at=2")
            assert found["reply"] == {"status": 200, "body": {"items": []}}
            assert found["copies"]["curl"].endswith("/v1/inbox")
            assert "1 passed" in pasted(page, 2, tmp_path)


def test_a_refused_call_is_copied_as_a_refusal(shop: Page, tmp_path: Path) -> None:
    with pytest.raises(Refusal, match="no delivery or result 7"):
        shop.device.app("com.guard").finish(7)
    test = tmp_path / "test_copied.py"
    test.write_text(shop.get("entry?at=0")["copies"]["pytest"], encoding="utf-8")
    (tmp_path / "device.toml").write_bytes((EXAMPLES / "orders.toml").read_bytes())
    assert "1 passed" in run_python("-m", "pytest", "-q", "-p", "amctl.pytest_plugin", str(test), cwd=tmp_path).out
    assert shop.get("entry?at=0")["copies"]["amctl"] == words_ui.NO_COMMAND


def test_who_may_reach_a_component_is_said(tmp_path: Path) -> None:
    with closing(Page(keyed(tmp_path))) as page:
        two = page.get("device")["packages"][1]
        assert [(it["name"], it["reach"]) for it in two["components"]] == [("com.two/.Sync", "any app that holds two.SYNC")]


def test_a_server_that_is_gone_is_said() -> None:
    program = started("serve", str(EXAMPLES / "orders.toml"))
    url = f"http://127.0.0.1:{port_of(program)}"
    with closing(Page(Device.connect(url, EXAMPLES / "orders.toml"), url)) as page:
        assert page.get("alive") == {"history": 0}
        program.terminate()
        program.communicate()
        assert page.get("now")["gone"].startswith(f"nothing listens at {url}")
        assert page.ask()["gone"].startswith(f"nothing listens at {url}")


def test_a_port_in_use_and_a_refused_file_are_said(tmp_path: Path) -> None:
    with socket.socket() as taken:
        taken.bind(("127.0.0.1", 0))
        taken.listen()
        port = taken.getsockname()[1]
        ran = run_python("-m", "amctl", "ui", "--device", str(EXAMPLES / "device.toml"), "--port", str(port))
    assert (ran.status, ran.out) == (2, "")
    assert ran.err.startswith(f"amctl: port {port} of 127.0.0.1 is in use")
    (tmp_path / "device.toml").write_text("system_key = 1\n", encoding="utf-8")
    ran = run_python("-m", "amctl", "ui", "--device", str(tmp_path / "device.toml"))
    assert (ran.status, ran.out) == (2, "") and "`system_key` has a value of another kind" in ran.err


def test_a_server_that_was_never_there_and_a_missing_browser_are_said() -> None:
    with socket.socket() as free:
        free.bind(("127.0.0.1", 0))
        url = f"http://127.0.0.1:{free.getsockname()[1]}"
        ran = run_python("-m", "amctl", "ui", "--device", str(EXAMPLES / "device.toml"), "--url", url)
    assert (ran.status, ran.out) == (2, "") and ran.err.startswith(f"amctl: nothing listens at {url}")
    assert words_ui.no_browser("URL") == "no browser is found: open URL in one yourself."


def test_missing_packages_are_said() -> None:
    ran = run_python("-c", "import sys; sys.modules['starlette'] = None; from amctl.cli import main; sys.exit(main(['ui', '--device', 'none']))")
    assert (ran.status, ran.out, ran.err) == (2, "", f"amctl: {words_ui.NO_LIBRARY}\n")


@pytest.mark.parametrize("number", [signal.SIGINT, signal.SIGTERM, signal.SIGHUP])
def test_nothing_is_left_running(number: signal.Signals) -> None:
    program = started("ui", "--device", str(EXAMPLES / "device.toml"))
    assert program.stdout is not None
    assert program.stdout.readline().startswith("the page is at http://127.0.0.1:")
    children = [int(it) for it in Path(f"/proc/{program.pid}/task/{program.pid}/children").read_text().split()]
    assert len(children) == 1
    program.send_signal(number)
    program.communicate(timeout=30)
    # a session ends when its input does
    for _ in range(100):
        if not Path(f"/proc/{children[0]}").exists():
            break
        subprocess.run(["sleep", "0.05"], check=True)
    assert not Path(f"/proc/{children[0]}").exists()


def test_a_browser_is_opened_if_it_is_asked_for(monkeypatch: pytest.MonkeyPatch, capsys: pytest.CaptureFixture[str]) -> None:
    from amctl.where import Where

    monkeypatch.setattr("webbrowser.open", lambda url: False)
    monkeypatch.setattr("uvicorn.Server.run", lambda self, sockets: None)
    assert run.run(Where(EXAMPLES / "device.toml"), None, True) == 0
    opened, missing = capsys.readouterr().out.splitlines()
    assert missing == words_ui.no_browser(opened.split()[4])
