"""The Device apart from what docs/HTTP.md shows: sessions, keys, refusals, stores and servers."""
import dataclasses
import http.server
import re
import socket
import threading
from collections.abc import Callable, Iterator
from pathlib import Path
from typing import Any

import pytest

from amctl import Advanced, Choose, Device, Intent, IntentFilter, Refusal, results, transport
from amctl.errors import BadWords, DeviceFault, Ended, NoProgram, NoServer, OtherAnswer
from amctl.results import Delivery, OrderedDelivery, Placed, Result
from amctl.serve import free_port, listeners
from conftest import CLIENT, EXAMPLES, TOP, answering, port_of, run_python, started

LINK = Intent.view("https://www.photos.example/album/cats", flags=("NEW_TASK",))
MAPS = 'package = "com.maps"\n[[activity]]\nname = ".Show"\nexported = true\n[[activity.intent-filter]]\naction = ["a.MAP"]\n'
TWO = """
system_key = "system-secret"
[[package]]
key = "one-secret"
manifest = { package = "com.one", activity = [{ name = ".A", exported = true, intent-filter = [{ action = ["a.X"], category = ["android.intent.category.DEFAULT"] }] }] }
[[package]]
key = "two-secret"
manifest = { package = "com.two", activity = [{ name = ".A", exported = true, intent-filter = [{ action = ["a.X"], category = ["android.intent.category.DEFAULT"] }] }] }
"""


def test_the_link_goes_to_the_browser_until_the_album_is_approved(photos: Device) -> None:
    browser = photos.app("com.browser")
    first = browser.start(LINK)
    assert isinstance(first, Placed) and photos.component_of(first) == "com.browser/com.browser.Page"
    photos.system.link("com.photos", "www.photos.example")
    second = browser.start(LINK)
    assert isinstance(second, Placed) and photos.component_of(second) == "com.photos/com.photos.Album"
    assert [it.by for it in browser.explain("activity", LINK) if it.verdict == "narrowed"] == ["approved"]


def test_a_text_is_an_intent_wherever_one_is_taken(photos: Device) -> None:
    browser = photos.app("com.browser")
    text, link = "https://www.photos.example/album/cats", Intent.view("https://www.photos.example/album/cats")
    assert browser.query("activity", text) == browser.query("activity", link)
    assert browser.explain("activity", text) == browser.explain("activity", link)
    assert photos.visible("com.browser", "activity", text) == photos.visible("com.browser", "activity", link)
    # a text can't say NEW_TASK, and an intent could
    assert browser.start(text) == Placed(instance=1, placed="fresh", task=1)
    with pytest.raises(Refusal, match="a start that no activity makes needs a task of its own"):
        browser.start(link)
    assert browser.start("com.browser/.Settings", source=1) == Placed(instance=2, placed="fresh", task=1)
    assert browser.send("com.photos").receivers == ()
    token = browser.pending_get("activity", 1, text, ["IMMUTABLE"])
    assert token == browser.pending_get("activity", 1, link, ("IMMUTABLE", "NO_CREATE"))


@pytest.mark.parametrize(
    "make, said",
    [
        (lambda: Intent(flags="NEW_TASK"), "flags takes several texts, and this is one, 'NEW_TASK': write ('NEW_TASK',)."),  # type: ignore[arg-type]
        (lambda: Intent(categories="x.C"), "categories takes several texts, and this is one, 'x.C': write ('x.C',)."),  # type: ignore[arg-type]
        (lambda: Intent.view("a:b", flags="X"), "flags takes several texts, and this is one, 'X': write ('X',)."),
        (lambda: IntentFilter("x.A"), "actions takes several texts, and this is one, 'x.A': write ('x.A',)."),  # type: ignore[arg-type]
        (lambda: IntentFilter(("x.A",), "x.C"), "categories takes several texts, and this is one, 'x.C': write ('x.C',)."),  # type: ignore[arg-type]
        (lambda: IntentFilter(("x.A",), data={"scheme": "a"}), "data takes several rows, and this is one, {'scheme': 'a'}: write ({'scheme': 'a'},)."),  # type: ignore[arg-type]
    ],
)
def test_one_text_in_the_place_of_several_is_refused(make: Callable[[], object], said: str) -> None:
    with pytest.raises(TypeError) as refused:
        make()
    assert str(refused.value) == said


def test_flags_of_a_pending_intent_are_several_too(photos: Device) -> None:
    with pytest.raises(TypeError, match="flags takes several texts, and this is one, 'IMMUTABLE'"):
        photos.system.pending_get("activity", 1, LINK, "IMMUTABLE")
    assert photos.system.status().history == 0


def test_lists_are_taken_as_tuples_are() -> None:
    listed: Any = ["NEW_TASK"]
    assert Intent(flags=listed) == Intent(flags=("NEW_TASK",))
    assert IntentFilter(listed, data=[]) == IntentFilter(("NEW_TASK",))  # type: ignore[arg-type]


def test_values_may_be_in_a_set() -> None:
    one, same = Intent(action="a.X", extras={"n": 1}), Intent(action="a.X", extras={"n": 1})
    assert hash(Intent()) == hash(Intent()) and len({one, same, Intent(action="a.X")}) == 2
    assert len({IntentFilter(("a",), data=({"scheme": "b"},)), IntentFilter(("a",), data=({"scheme": "b"},))}) == 1
    assert len({Result(1, None, 2, {"n": 1}, 3), Result(1, None, 2, {"n": 1}, 3)}) == 1


def test_a_choice_is_a_result(tmp_path: Path) -> None:
    file = tmp_path / "two.toml"
    file.write_text(TWO, encoding="utf-8")
    with Device.open(file) as device:
        found = device.app("com.one").start(Intent(action="a.X", flags=("NEW_TASK",)))
        assert found == Choose(("com.one/com.one.A", "com.two/com.two.A"))
        token = device.app("com.one").pending_get("activity", 1, Intent(action="a.X"), ["IMMUTABLE"])
        assert token == 1
        assert device.app("com.one").pending_send(1) == found


def test_no_key_is_shown(tmp_path: Path) -> None:
    file = tmp_path / "two.toml"
    file.write_text(TWO, encoding="utf-8")
    with Device.open(file) as device:
        one = device.app("com.one")
        shown = [repr(it) for it in (device, one, device.system, device.file, device.file.packages)]
        with pytest.raises(Refusal) as refused:
            device.with_key("a-secret-of-nobody").status()
        with pytest.raises(BadWords) as bad:
            device.with_key("a secret that can't be sent")
        with pytest.raises(Refusal) as again:
            one.install('package = "com.three"', key="two-secret")
        device.system.install('package = "com.three"', key="three-secret")
        shown += [repr(device.system.history()), repr(device.app("com.three"))]
    assert not [it for it in (*shown, str(refused.value), repr(refused.value), str(bad.value), str(again.value)) if "secret" in it]


def test_an_order_passes_the_guard_and_then_the_shop(orders: Device) -> None:
    shop, guard = orders.app("com.shop"), orders.app("com.guard")
    sent = shop.send(Intent(action="org.example.ORDER"), ordered=True, code=1, result=True)
    assert [(it.to, it.verdict) for it in sent.receivers] == [("com.guard/com.guard.Check", "admitted"), ("com.shop/com.shop.Ledger", "admitted")]
    (first,) = guard.inbox()
    assert isinstance(first, OrderedDelivery) and (first.code, first.data, first.delivery) == (1, None, 1)
    guard.finish(1, code=2, data="looked at", extras={"n": 5, "ok": True, "t": "x"})
    (second,) = shop.inbox()
    assert isinstance(second, OrderedDelivery) and second.extras == {"n": 5, "ok": True, "t": "x"}
    shop.finish(second.delivery)
    assert shop.inbox() == (Result(code=2, data="looked at", delivery=3, extras={"n": 5, "ok": True, "t": "x"}, result=1),)


def test_a_registered_receiver(orders: Device) -> None:
    guard = orders.app("com.guard")
    number = guard.register(IntentFilter(actions=("a.NEWS",), data=({"scheme": "https"},), priority=3))
    orders.app("com.shop").send(Intent(action="a.NEWS", data="https://x.example/"))
    (item,) = guard.inbox()
    assert isinstance(item, Delivery) and item.to == number == 1
    guard.unregister(number)
    with pytest.raises(Refusal, match="there is no registered receiver 1"):
        guard.unregister(number)


def test_a_refusal_says_who_what_and_what_to_do(photos: Device) -> None:
    with pytest.raises(Refusal) as refused:
        photos.app("com.photos").start(Intent(component="com.browser/.Settings", flags=("NEW_TASK",)))
    assert (refused.value.rule, refused.value.name, refused.value.status) == ("not_exported", None, 403)
    assert str(refused.value) == (
        "com.browser/.Settings isn't exported, and com.photos is another app:"
        " set `exported = true` on the component in its manifest, or ask as com.browser."
    )


def test_the_clock_of_the_words_stands_until_the_first_call(tmp_path: Path) -> None:
    with Device.open(EXAMPLES / "device.toml", at=5, step=2) as device:
        device.system.tick()
        device.system.tick()
        assert [it.now for it in device.system.history()] == [5, 7]
        assert device.system.status().moment == 7


def test_the_time_is_moved_to_a_deadline_without_waiting(orders: Device) -> None:
    shop, guard = orders.app("com.shop"), orders.app("com.guard")
    shop.send(Intent(action="org.example.ORDER", flags=("FOREGROUND",)), ordered=True, code=1, result=True)
    assert orders.advance() == Advanced(due=10000, now=0)
    assert orders.advance(10_000) == Advanced(due=20000, now=10000)
    assert guard.inbox() == ()
    (second,) = shop.inbox()
    assert isinstance(second, OrderedDelivery) and second.to == "com.shop/com.shop.Ledger"
    shop.finish(second.delivery)
    (result,) = shop.inbox()
    assert isinstance(result, Result) and result.code == 1
    assert orders.system.advance(5) == Advanced(due=None, now=10005)
    assert orders.system.status().moment == 10005


def test_what_can_not_be_moved_is_refused_in_words(orders: Device) -> None:
    with pytest.raises(Refusal) as refused:
        orders.app("com.shop").advance(1)
    assert refused.value.rule == "admin_only"
    for by in (-1, 2**50 + 1):
        with pytest.raises(Refusal, match="`by` has a value that isn't taken: give a whole number of milliseconds, from 0 to 1,125,899,906,842,624"):
            orders.advance(by)
    assert orders.advance() == Advanced(due=None, now=0)
    with Device.open(EXAMPLES / "orders.toml", at=2**62) as device:
        with pytest.raises(Refusal, match="the moment is at most 4,611,686,018,427,387,904 ms: advance by less"):
            device.advance(1)
        assert device.advance() == Advanced(due=None, now=2**62)


def test_what_is_installed_is_a_caller_in_the_next_session_too(rows: Path) -> None:
    with Device.open(EXAMPLES / "device.toml", store=rows) as device:
        assert device.system.install(MAPS) == 10002
        assert device.app("com.maps").tasks() == ()
    with Device.open(EXAMPLES / "device.toml", store=rows) as device:
        maps = device.app("com.maps")
        maps.start(Intent(component="com.maps/.Show", flags=("NEW_TASK",)))
        assert [it.component for task in maps.tasks() for it in task.instances] == ["com.maps/com.maps.Show"]
        device.system.uninstall("com.maps")
        with pytest.raises(Refusal, match="no installed package has the key of com.maps"):
            maps.tasks()
    with Device.open(EXAMPLES / "device.toml", store=rows) as device, pytest.raises(BadWords, match="no package com.maps"):
        device.app("com.maps")


def test_a_store_is_its_owners_alone(rows: Path) -> None:
    with Device.open(EXAMPLES / "device.toml", store=rows) as device:
        device.system.install(MAPS)
        assert {it.name: it.stat().st_mode & 0o077 for it in rows.parent.iterdir()} == {"rows": 0, "rows-wal": 0}


def test_a_manifest_is_refused_in_words(photos: Device) -> None:
    with pytest.raises(Refusal) as refused:
        photos.system.install('package = "com.x"\n[[activity]]\nexported = true\n')
    assert (refused.value.rule, refused.value.name) == ("bad_manifest", "missing activity[0].name")
    assert str(refused.value) == "the manifest is refused: `name` must be there and isn't: add it to `activity[0]`."


def test_what_a_package_sees() -> None:
    with Device.open(EXAMPLES / "queries.toml") as device:
        place = Intent.view("geo:1,2")
        assert device.visible("com.notes", "activity", place) == ("com.maps/com.maps.Show",)
        assert device.visible("android", "activity", place) == ("com.maps/com.maps.Show",)
        with pytest.raises(BadWords, match="did you mean com.notes"):
            device.visible("com.note", "activity", place)
        with pytest.raises(Ended, match="isn't a URI"):
            device.visible("com.notes", "activity", Intent.view("nothing"))


def test_a_closed_device_says_so(photos: Device) -> None:
    photos.close()
    photos.close()
    with pytest.raises(Ended, match="the session is closed: open the device again"):
        photos.system.status()


def test_a_session_that_was_cut_off_says_so(photos: Device) -> None:
    photos._transport._program.kill()  # type: ignore[attr-defined]
    with pytest.raises(Ended, match="ended by signal 9"):
        photos.system.status()


def test_the_longest_texts_pass(photos: Device) -> None:
    extras = {f"key{number}": "x" * 900 for number in range(60)}
    sent = photos.app("com.browser").send(Intent(action="a.LONG", extras=extras))
    assert sent.receivers == ()
    with pytest.raises(Refusal, match="more than 65,536 bytes"):
        photos.app("com.browser").send(Intent(action="a.LONG", extras={f"key{number}": "x" * 1024 for number in range(64)}))


def test_eight_devices_at_once_are_eight_devices() -> None:
    found: list[int] = []

    def visit(number: int) -> None:
        with Device.open(EXAMPLES / "device.toml") as device:
            for _ in range(number):
                device.app("com.browser").start(LINK)
            found.append(device.system.status().history - number)

    threads = [threading.Thread(target=visit, args=(number,)) for number in range(1, 9)]
    for thread in threads:
        thread.start()
    for thread in threads:
        thread.join()
    assert found == [0] * 8


@pytest.fixture
def server() -> Iterator[str]:
    """A server of the README's shop, with one worker."""
    port = free_port()
    program = started("serve", str(EXAMPLES / "orders.toml"), "--port", str(port), "--workers", "1")
    assert port_of(program) == port
    yield f"http://127.0.0.1:{port}"
    program.terminate()
    assert program.communicate()[0] == "stopped by SIGTERM\n"
    assert program.returncode == 0 and not listeners(port)


def test_a_server_is_asked_and_no_worker_is_held(server: str) -> None:
    with Device.connect(server, EXAMPLES / "orders.toml") as one, Device.connect(server, EXAMPLES / "orders.toml") as other:
        # one worker serves both, since neither keeps its connection
        assert one.app("com.shop").send(Intent(action="org.example.ORDER")).broadcast == 1
        assert [it.delivery for it in other.app("com.guard").inbox() if not isinstance(it, Result)] == [1]
        assert one.system.status().history == other.system.status().history == 1


def test_a_server_of_another_device_refuses_the_key(server: str) -> None:
    with Device.connect(server, EXAMPLES / "device.toml") as device, pytest.raises(Refusal) as refused:
        device.app("com.browser").tasks()
    assert (refused.value.rule, refused.value.status) == ("unknown_key", 401)
    assert "name the device file that the server was started with" in refused.value.sentence


def test_commands_ask_a_server_too(server: str) -> None:
    where = ("--url", server, "--device", str(EXAMPLES / "orders.toml"))
    sent = run_python("-m", "amctl", "broadcast", *where, "--as", "com.shop", "-a", "org.example.ORDER")
    assert (sent.status, sent.out) == (0, "com.guard/.Check  gets it\ncom.shop/.Ledger  gets it\n")
    inbox = run_python("-m", "amctl", "inbox", *where, "--as", "com.guard")
    assert (inbox.status, inbox.out) == (0, "1  com.guard/.Check  broadcast 1: -a org.example.ORDER\n")
    history = run_python("-m", "amctl", "history", *where)
    assert history.status == 0 and history.out.split()[0] == "0" and history.out.split()[-2:] == ["com.shop", "send"]


@pytest.mark.parametrize("url", ["http://127.0.0.1:1", "127.0.0.1:8080", "https://127.0.0.1:1", "http://", "ftp://x"])
def test_a_url_that_nobody_serves_says_what_to_do(url: str) -> None:
    with pytest.raises(NoServer, match="start a server by|write it as in"), Device.connect(url, EXAMPLES / "device.toml") as device:
        device.system.status()


def test_a_server_that_is_no_am_is_told_from_one() -> None:
    with http.server.HTTPServer(("127.0.0.1", 0), http.server.SimpleHTTPRequestHandler) as other:
        threading.Thread(target=other.handle_request).start()
        url = f"http://127.0.0.1:{other.server_port}"
        with Device.connect(url, EXAMPLES / "device.toml") as device, pytest.raises(NoServer, match=f"what answers at {url} isn't `am`: check the port"):
            device.system.status()


def test_what_is_no_am_says_so(tmp_path: Path) -> None:
    other = tmp_path / "am"
    other.write_text("#!/bin/sh\necho hello\n", encoding="utf-8")
    other.chmod(0o755)
    with pytest.raises(Ended, match="the program ended before it answered: check that it is this project's `am`"):
        Device.open(EXAMPLES / "device.toml", am=other)
    with pytest.raises(Ended, match="the program isn't this project's `am`, and said .*: name the built `am` by --am or in the variable AM"):
        Device.open(EXAMPLES / "device.toml", am="/bin/ls")


class Odd(http.server.BaseHTTPRequestHandler):
    """Answers what `am` never does."""

    head: tuple[str, str] = ("AM-At", "0")
    body = b"{}"

    def do_GET(self) -> None:
        self.send_response(200)
        self.send_header(*self.head)
        self.send_header("Content-Length", str(len(self.body)))
        self.end_headers()
        self.wfile.write(self.body)

    def log_message(self, format: str, *args: object) -> None:
        """Says nothing."""


@pytest.mark.parametrize("head, body", [(("Content-Encoding", "gzip"), b"abc"), (("AM-At", "x"), b"{}"), (("AM-At", "0"), b"[" * 100000)])
def test_a_server_that_answers_oddly_is_told_from_am(head: tuple[str, str], body: bytes) -> None:
    odd = type("It", (Odd,), {"head": head, "body": body})
    with http.server.HTTPServer(("127.0.0.1", 0), odd) as other:
        threading.Thread(target=other.handle_request).start()
        with Device.connect(f"http://127.0.0.1:{other.server_port}", EXAMPLES / "device.toml") as device, pytest.raises(NoServer, match="isn't `am`"):
            device.system.status()


def test_what_is_silent_is_not_waited_for_without_end(tmp_path: Path, monkeypatch: pytest.MonkeyPatch) -> None:
    monkeypatch.setattr(transport, "SESSION_PATIENCE_SECONDS", 0.2)
    with pytest.raises(NoProgram, match="the program didn't answer in 0 seconds: check that it is this project's `am`"):
        Device.open(EXAMPLES / "device.toml", am=answering(tmp_path))


def test_a_silent_server_is_not_waited_for_without_end(monkeypatch: pytest.MonkeyPatch) -> None:
    monkeypatch.setattr(transport, "PATIENCE_SECONDS", 0.2)
    with socket.create_server(("127.0.0.1", 0)) as silent:
        url = f"http://127.0.0.1:{silent.getsockname()[1]}"
        said = f"{url} didn't answer in 0 seconds, and may have made the call: check that it is `am`"
        with Device.connect(url, EXAMPLES / "device.toml") as device, pytest.raises(NoServer, match=said):
            device.system.status()


def test_an_answer_of_another_version_is_told_from_a_refusal(tmp_path: Path, monkeypatch: pytest.MonkeyPatch) -> None:
    monkeypatch.setattr(transport, "END_SECONDS", 0.2)
    accounts = '{"accounts":[{"to":"a/b"}]}'
    other = answering(tmp_path, ("404 -", '{"error":"no_route"}'), ("200 -\r\nAM-At: 0", "{}"), ("200 -\r\nAM-At: 0", accounts))
    with Device.open(EXAMPLES / "device.toml", am=other) as device:
        with pytest.raises(OtherAnswer, match="isn't one that this client knows: build `am` and this client from the same version"):
            device.system.tasks()
        with pytest.raises(OtherAnswer):
            device.system.explain("activity", LINK)


def test_a_file_that_am_refuses_is_shown_with_its_line(tmp_path: Path) -> None:
    file = tmp_path / "device.toml"
    file.write_text(TWO.replace("exported = true, ", "", 1), encoding="utf-8")
    with pytest.raises(DeviceFault) as raised:
        Device.open(file)
    assert str(raised.value).startswith(f"{file}:5:")
    assert "com.one.A has a filter and doesn't state whether other apps may reach it" in str(raised.value)
    assert "secret" not in str(raised.value)


def test_the_document_has_the_fields_of_each_result() -> None:
    text = (TOP / "docs" / "CLIENT.md").read_text(encoding="utf-8")
    rows = re.findall(r"^\| `([A-Z]\w+)` \| (.*?) \| ", text, re.M)
    listed = {name: re.findall(r"`(\w+)`", fields) for name, fields in rows}
    kinds = {name: kind for name, kind in vars(results).items() if isinstance(kind, type) and dataclasses.is_dataclass(kind)}
    there = {name: [it.name for it in dataclasses.fields(kind)] for name, kind in kinds.items() if kind.__module__ == results.__name__}
    assert listed == there
