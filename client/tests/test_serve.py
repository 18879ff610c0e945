"""`amctl serve`: what it checks, when it says that it listens, and how it ends."""
import os
import signal
import socket
import subprocess
import sys
import time
from pathlib import Path

import pytest

from amctl import Advanced, Device, Intent, serve, words
from amctl.children import ending_with_this_process
from amctl.errors import BadWords
from amctl.find import find_am
from amctl.serve import check_port, check_store, free_port, listeners
from conftest import CLIENT, EXAMPLES, PATIENCE_SECONDS, port_of, run_python, started

ORDERS = EXAMPLES / "orders.toml"
END_SECONDS = 60.0


def serving(*words: str) -> "subprocess.Popen[str]":
    return started("serve", str(ORDERS), *words)


def test_a_free_port_is_taken_and_listens_once_it_is_said() -> None:
    one, other = serving(), serving()
    ports = [port_of(it) for it in (one, other)]
    assert ports[0] != ports[1] and all(listeners(it) for it in ports)
    for program in (one, other):
        program.terminate()
        assert program.communicate() == ("stopped by SIGTERM\n", "")
        assert program.returncode == 0
    assert not any(listeners(it) for it in ports)


@pytest.mark.parametrize("number", [signal.SIGINT, signal.SIGHUP])
def test_signals_are_passed_on(number: signal.Signals) -> None:
    program = serving()
    port_of(program)
    program.send_signal(number)
    assert program.communicate()[0] == f"stopped by {number.name}\n"
    assert program.returncode == 0


def test_its_last_line_is_said_in_words() -> None:
    program = serving("--workers", "2", "--connections", "1")
    url = f"http://127.0.0.1:{port_of(program)}"
    with Device.connect(url, ORDERS) as device:
        device.app("com.shop").send(Intent(action="org.example.ORDER"))
        assert len(device.app("com.guard").inbox()) == 1
    assert program.communicate()[0] == "the server ended: 1 call in its history, 2 connections served\n"
    assert program.returncode == 0


def test_its_clock_may_stand_and_is_moved_by_requests() -> None:
    program = serving("--workers", "1", "--at", "5")
    url = f"http://127.0.0.1:{port_of(program)}"
    with Device.connect(url, ORDERS) as device:
        device.app("com.shop").send(Intent(action="org.example.ORDER", flags=("FOREGROUND",)), ordered=True)
        assert device.advance() == Advanced(due=10005, now=5)
        assert device.advance(10_000) == Advanced(due=20005, now=10005)
        assert [it.now for it in device.system.history()] == [5, 5, 5]
    ran = run_python("-m", "amctl", "advance", "--device", str(ORDERS), "--url", url, "3000")
    assert (ran.out, ran.err) == ("the moment is 13005 ms; the next deadline is 7000 ms ahead, at 20005 ms.\n", "")
    program.terminate()
    program.communicate()


def test_a_device_that_am_refuses_is_shown_with_its_line(tmp_path: Path) -> None:
    file = tmp_path / "device.toml"
    file.write_text('system_key = "sys"\n[[package]]\nkey = 1\nmanifest = { package = "com.one" }\n', encoding="utf-8")
    ran = run_python("-m", "amctl", "serve", str(file))
    assert (ran.status, ran.out) == (2, "")
    assert ran.err.startswith(f"amctl: {file}:3:1: `key` has a value of another kind, or not of its form: write 1 to 255 visible")


def test_a_store_that_is_none_is_said(tmp_path: Path) -> None:
    store = tmp_path / "rows"
    store.write_text("no store\n", encoding="utf-8")
    ran = run_python("-m", "amctl", "serve", str(ORDERS), "--store", str(store))
    assert (ran.status, ran.out) == (2, "")
    assert "the store can't be opened, or isn't one: name a file that a session made" in ran.err


def test_a_store_that_may_not_be_written_is_said(tmp_path: Path, monkeypatch: pytest.MonkeyPatch) -> None:
    # who is root may write everywhere, so the question itself is answered here
    monkeypatch.setattr(os, "access", lambda path, mode: False)
    with pytest.raises(BadWords, match=f"because {tmp_path} may not be written: give yourself the right by `chmod u\\+w {tmp_path}`"):
        check_store(tmp_path / "rows")


def test_a_port_that_is_lost_in_between_is_tried_anew(monkeypatch: pytest.MonkeyPatch, capfd: pytest.CaptureFixture[str]) -> None:
    def said(host: str, port: int) -> str:
        os.kill(os.getpid(), signal.SIGTERM)
        return f"{host}:{port}"

    with socket.socket() as taken:
        taken.bind(("127.0.0.1", 0))
        taken.listen()
        ports = [taken.getsockname()[1], free_port()]
        given = iter(ports)
        monkeypatch.setattr(serve, "free_port", lambda: next(given))
        monkeypatch.setattr(words, "listening", said)
        assert serve.run(serve.Serving(ORDERS)) == 0
    assert capfd.readouterr().out == f"127.0.0.1:{ports[1]}\nstopped by SIGTERM\n"


FAILING = """#!{python}
import socket, sys, time
with socket.socket() as listener:
    listener.bind(("127.0.0.1", int(sys.argv[sys.argv.index("--port") + 1])))
    listener.listen()
    time.sleep(0.5)
print("am: network fault", file=sys.stderr)
sys.exit(9)
"""


def test_a_server_that_loses_its_network_is_said_with_its_port(tmp_path: Path) -> None:
    program = tmp_path / "am"
    program.write_text(FAILING.format(python=sys.executable), encoding="utf-8")
    program.chmod(0o755)
    ran = run_python("-m", "amctl", "serve", str(ORDERS), "--am", str(program))
    port = ran.out.strip().rpartition(":")[2]
    assert (ran.status, ran.out) == (2, f"listening on 127.0.0.1:{port}\n")
    said = f"the server ended, since no more connections can be accepted at port {port} of 127.0.0.1: start it again, perhaps at another --port."
    assert ran.err == f"amctl: {said}\n"


def test_a_free_port_may_be_listened_at() -> None:
    port = free_port()
    assert 1024 <= port <= 65535
    check_port(port)
    assert not listeners(port)


def programs_of(parent: int) -> list[int]:
    """The processes that a process has started."""
    return [int(it) for it in Path(f"/proc/{parent}/task/{parent}/children").read_text(encoding="ascii").split()]


def ends(pid: int) -> bool:
    """Whether a process ends by itself; one that doesn't is ended here."""
    end = time.monotonic() + END_SECONDS
    while time.monotonic() < end:
        try:
            state = Path(f"/proc/{pid}/stat").read_text(encoding="ascii").rpartition(") ")[2][0]
        except OSError:
            return True
        if state == "Z":
            # nobody waited for it yet
            return True
        time.sleep(0.02)
    os.kill(pid, signal.SIGKILL)
    return False


def is_given_back(port: int) -> bool:
    """Whether a port is soon listened at no more: the first thread of a killed program may end before the others."""
    end = time.monotonic() + END_SECONDS
    while listeners(port) and time.monotonic() < end:
        time.sleep(0.02)
    return not listeners(port)


def test_a_killed_server_leaves_no_program() -> None:
    program = serving()
    port = port_of(program)
    (am,) = programs_of(program.pid)
    program.kill()
    program.communicate()
    assert ends(am) and is_given_back(port)


def test_a_killed_test_leaves_no_program(tmp_path: Path) -> None:
    (tmp_path / "device.toml").write_bytes(ORDERS.read_bytes())
    (tmp_path / "test_slow.py").write_text(
        "import pathlib, time\n\n\ndef test_it(am_device):\n    pathlib.Path('began').touch()\n    time.sleep(300)\n", encoding="utf-8"
    )
    environment = {**os.environ, "PYTHONPATH": str(CLIENT), "AM": str(find_am())}
    words = [sys.executable, "-m", "pytest", "-q", "-p", "no:cacheprovider", "-p", "amctl.pytest_plugin"]
    program = subprocess.Popen(words, cwd=tmp_path, env=environment, stdout=subprocess.DEVNULL, preexec_fn=ending_with_this_process())
    end = time.monotonic() + PATIENCE_SECONDS
    while not (tmp_path / "began").exists() and time.monotonic() < end:
        time.sleep(0.02)
    (am,) = programs_of(program.pid)
    program.kill()
    program.wait()
    assert ends(am)


def test_whatever_goes_wrong_while_it_runs_ends_it(monkeypatch: pytest.MonkeyPatch) -> None:
    found: list[int] = []

    def listening(host: str, port: int) -> str:
        found.extend(programs_of(os.getpid()))
        raise BrokenPipeError

    before = programs_of(os.getpid())
    monkeypatch.setattr(words, "listening", listening)
    with pytest.raises(BrokenPipeError):
        serve.run(serve.Serving(ORDERS))
    assert len(set(found) - set(before)) == 1
    assert programs_of(os.getpid()) == before


def test_a_signal_that_nohup_ignores_ends_no_server() -> None:
    line = f"trap '' HUP; exec {sys.executable} -m amctl serve {ORDERS}"
    environment = {**os.environ, "PYTHONPATH": str(CLIENT), "AM": str(find_am())}
    program = subprocess.Popen(["sh", "-c", line], env=environment, stdout=subprocess.PIPE, text=True, preexec_fn=ending_with_this_process())
    port = port_of(program)
    program.send_signal(signal.SIGHUP)
    with Device.connect(f"http://127.0.0.1:{port}", ORDERS) as device:
        assert device.system.status().history == 0
    program.terminate()
    assert program.communicate()[0] == "stopped by SIGTERM\n"


def test_the_tests_pass_where_signals_are_ignored_and_the_shell_names_a_server() -> None:
    chosen = ["tests/test_ui.py::test_nothing_is_left_running[1]", "tests/test_serve.py::test_signals_are_passed_on[2]", "tests/test_cli.py::test_start_says_what_it_opened"]
    line = f"trap '' HUP INT TERM; exec {sys.executable} -m pytest -q -p no:cacheprovider {' '.join(chosen)}"
    variables = {"AMCTL_URL": "http://127.0.0.1:1", "AMCTL_DEVICE": "nowhere.toml", "AMCTL_STORE": "nowhere/rows", "AMCTL_USER": "nobody"}
    ran = run_python("-c", f"import os, sys; os.execvp('sh', ['sh', '-c', {line!r}])", cwd=CLIENT, **variables)
    assert (ran.status, ran.out.split("\n")[-2].split(" in ")[0]) == (0, "3 passed"), ran.out
