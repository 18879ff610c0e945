"""A session on pipes: threads that share it, calls that are interrupted, and programs that answer nothing."""
import copy
import pickle
import signal
import threading
import time
from contextlib import ExitStack
from pathlib import Path

import pytest

from amctl import Device, Intent, Refusal, transport
from amctl.check.app import Unreadable
from amctl.errors import AmctlError, BadWords, DeviceFault, Ended, NoProgram, NotToml
from amctl.places import Place
from amctl.transport import Ask, Pipes
from conftest import EXAMPLES, answering

ORDER = Intent(action="org.example.ORDER")
ANSWERED = ("404 -", '{"error":"no_route"}')


def test_threads_share_a_device(orders: Device) -> None:
    """Each gets the answer to its own calls."""
    asked, wrong = 200, list[object]()

    def ask(name: str) -> None:
        app = orders.app(name)
        for number in range(asked):
            found = app.explain("receiver", ORDER, of=name)
            if [it.to.split("/")[0] for it in found if isinstance(it.to, str)] != [name] or app.tasks():
                wrong.append((name, number, found))

    threads = [threading.Thread(target=ask, args=(name,)) for name in ("com.shop", "com.guard") * 4]
    for it in threads:
        it.start()
    for it in threads:
        it.join()
    assert wrong == []
    assert orders.system.status().history == 0


def silent_after_one(folder: Path) -> Device:
    """A device whose program answers once, when it is opened, and then never."""
    return Device.open(EXAMPLES / "device.toml", am=answering(folder, ANSWERED))


def is_there(device: Device) -> bool:
    """Whether the device's program runs, or ended and wasn't waited for."""
    assert isinstance(device._transport, Pipes)
    return Path(f"/proc/{device._transport._program.pid}").exists()


def test_an_interrupted_call_ends_the_session_and_says_so(tmp_path: Path) -> None:
    device = silent_after_one(tmp_path)
    before = signal.signal(signal.SIGALRM, signal.default_int_handler)
    try:
        signal.setitimer(signal.ITIMER_REAL, 0.2)
        with pytest.raises(KeyboardInterrupt):
            device.system.status()
    finally:
        signal.signal(signal.SIGALRM, before)
    # it was killed, and waited for
    assert not is_there(device)
    for _ in range(2):
        with pytest.raises(Ended, match="the session is closed, since a call was interrupted and its answer is still to come: open the device again"):
            device.system.status()
    device.close()


def test_a_session_that_ended_writes_to_nobody_else(photos: Device, tmp_path: Path) -> None:
    assert isinstance(photos._transport, Pipes)
    photos._transport._program.kill()
    with pytest.raises(Ended, match="ended by signal 9"):
        photos.system.status()
    with ExitStack() as opened:
        # one of these gets the descriptor that was the pipe's
        files = [opened.enter_context((tmp_path / str(number)).open("w+b", buffering=0)) for number in range(8)]
        with pytest.raises(Ended, match="ended by signal 9"):
            photos.system.status()
        assert [it.tell() for it in files] == [0] * 8
    assert [it.read_bytes() for it in tmp_path.iterdir()] == [b""] * 8


def test_a_program_that_answers_nothing_is_killed(tmp_path: Path, monkeypatch: pytest.MonkeyPatch) -> None:
    device = silent_after_one(tmp_path)
    monkeypatch.setattr(transport, "SESSION_PATIENCE_SECONDS", 0.2)
    # nor is its end waited for
    monkeypatch.setattr(transport, "END_SECONDS", 1000.0)
    began = time.monotonic()
    with pytest.raises(NoProgram, match="the program didn't answer in 0 seconds"):
        device.system.status()
    assert time.monotonic() - began < 30
    assert not is_there(device)
    with pytest.raises(Ended, match="the program didn't answer in 0 seconds"):
        device.system.status()


def test_a_program_that_reads_nothing_is_killed(tmp_path: Path, monkeypatch: pytest.MonkeyPatch) -> None:
    device = silent_after_one(tmp_path)
    monkeypatch.setattr(transport, "SESSION_PATIENCE_SECONDS", 0.2)
    began = time.monotonic()
    # a pipe takes 65,536 bytes that nobody reads
    with pytest.raises(NoProgram, match="the program didn't answer"):
        device.carry(Ask("POST", "/v1/tick", "key", b"x" * 1_000_000))
    assert time.monotonic() - began < 20


def test_a_program_that_does_not_end_with_its_input_is_killed(tmp_path: Path, monkeypatch: pytest.MonkeyPatch) -> None:
    device = silent_after_one(tmp_path)
    monkeypatch.setattr(transport, "END_SECONDS", 0.2)
    began = time.monotonic()
    device.close()
    assert time.monotonic() - began < 20
    assert not is_there(device)


def test_an_answer_that_never_ends_is_not_read_on(tmp_path: Path, monkeypatch: pytest.MonkeyPatch) -> None:
    monkeypatch.setattr(transport, "END_SECONDS", 0.2)
    other = answering(tmp_path)
    (tmp_path / "answers").write_text("HTTP/1.1 404 -\r\nContent-Length: 999999999999\r\n\r\n", encoding="utf-8")
    with pytest.raises(Ended):
        Device.open(EXAMPLES / "device.toml", am=other)


@pytest.mark.parametrize("key", ["a\r\nAM-Key: b", "ü"])
def test_a_key_that_can_not_be_sent_is_said(orders: Device, key: str) -> None:
    with pytest.raises(BadWords, match="the caller's key can't be sent"):
        orders.carry(Ask("GET", "/v1/status", key))
    # the session goes on
    assert orders.system.status().history == 0


def test_fields_that_this_client_does_not_know_are_no_fault(tmp_path: Path, monkeypatch: pytest.MonkeyPatch) -> None:
    monkeypatch.setattr(transport, "END_SECONDS", 0.2)
    intent = '{"action":"a.X","flags":["NEW_TASK"],"selector":{}}'
    replies = [
        '{"accounts":[{"to":"a/b","verdict":"reached","since":13}],"more":true}',
        f'{{"tasks":[{{"instances":[{{"component":"a/b","instance":1,"intent":{intent},"state":"stopped"}}],"task":1,"name":"x"}}]}}',
        '{"instance":1,"placed":"fresh","task":1,"user":0}',
        f'{{"items":[{{"broadcast":1,"delivery":2,"intent":{intent},"ordered":false,"to":"a/b","due":9}}]}}',
        '{"entries":[{"at":0,"desk":1,"kept":true,"now":0,"request":{},"route":"/v1/tick","uid":1000,"weight":2,"via":"x"}],"from":0}',
        '{"history":1,"moment":2,"packages":3,"uptime":4}',
    ]
    other = answering(tmp_path, ANSWERED, *(("200 -\r\nAM-At: 0", it) for it in replies))
    with Device.open(EXAMPLES / "device.toml", am=other) as device:
        asked = device.system
        assert [it.verdict for it in asked.explain("activity", "a:b")] == ["reached"]
        assert [it.intent for task in asked.tasks() for it in task.instances] == [Intent(action="a.X", flags=("NEW_TASK",))]
        assert getattr(asked.start("a:b"), "placed") == "fresh"
        assert [it.delivery for it in asked.inbox()] == [2]
        assert [it.route for it in asked.history()] == ["/v1/tick"]
        assert asked.status().packages == 3


FAULTS: list[AmctlError] = [
    Refusal("not_exported", None, 403, "it isn't exported: ask as the system: `device.system`, or leave out `--as`."),
    Ended(3, "am: device refused", "the program ended"),
    NotToml("no TOML", "what", 1, 2, "shown"),
    DeviceFault("refused", "wrong_kind x"),
    BadWords("words"),
    Unreadable("unreadable", Place(1, 2)),
]


@pytest.mark.parametrize("fault", FAULTS, ids=lambda it: type(it).__name__)
def test_errors_go_from_one_process_to_another(fault: AmctlError) -> None:
    for again in (pickle.loads(pickle.dumps(fault)), copy.copy(fault)):
        assert type(again) is type(fault)
        assert (str(again), again.args, vars(again), again.told) == (str(fault), fault.args, vars(fault), fault.told)
