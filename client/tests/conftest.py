"""What the tests share: the examples, commands as a person runs them, and servers."""
import os
import signal
import subprocess
import sys
import tempfile
from collections.abc import Callable, Iterator
from contextlib import contextmanager
from dataclasses import dataclass
from pathlib import Path

# what is loaded here is kept compiled, whatever the shell says: the programs that the tests run load it too
sys.dont_write_bytecode = False

import pytest

from amctl import Device
from amctl.children import ending_with_this_process
from amctl.find import find_am

TOP = Path(__file__).resolve().parents[2]
CLIENT = TOP / "client"
EXAMPLES = TOP / "examples"
# a busy machine may take long, and nothing else is tried by it
PATIENCE_SECONDS = 300


# the files whose tests wait long for programs
SLOW = ("test_ui_browser", "test_survey", "test_compare", "test_serve", "test_from_phone", "test_ui", "test_server", "test_pytest_plugin")
# how far through all tests theirs go: at the end no worker of pytest-xdist waits long for another
END_OF_SLOW = 0.9


def pytest_collection_modifyitems(items: list[pytest.Item]) -> None:
    """Spreads the tests of each slow file evenly, since pytest-xdist hands out long runs of neighbours.

    So a file's tests don't follow each other, and what they share is of the scope `session`."""
    quick = [it for it in items if it.path.stem not in SLOW]
    places = {item: (at + 0.5) / len(quick) for at, item in enumerate(quick)}
    for name in SLOW:
        group = [it for it in items if it.path.stem == name]
        places |= {item: (at + 0.5) / len(group) * END_OF_SLOW for at, item in enumerate(group)}
    items.sort(key=lambda it: places[it])


@dataclass(frozen=True)
class Ran:
    """How a command ended, and what it printed."""

    status: int
    out: str
    err: str


def run_python(*words: str, cwd: Path | None = None, **variables: str) -> Ran:
    """Runs python with this package and `am` at hand, away from any terminal."""
    environment = {**os.environ, "PYTHONPATH": str(CLIENT), "AM": str(find_am()), "PYTHONDONTWRITEBYTECODE": "1", **variables}
    ran = subprocess.run(
        [sys.executable, *words], cwd=cwd, env=environment, stdin=subprocess.DEVNULL, capture_output=True, text=True, timeout=PATIENCE_SECONDS
    )
    return Ran(ran.returncode, ran.stdout, ran.stderr)


def started(*words: str) -> "subprocess.Popen[str]":
    """A command that goes on beside the test, and ends with it."""
    return subprocess.Popen(
        [sys.executable, "-m", "amctl", *words],
        env={**os.environ, "PYTHONPATH": str(CLIENT), "AM": str(find_am())},
        stdout=subprocess.PIPE,
        stderr=subprocess.PIPE,
        text=True,
        preexec_fn=ending_with_this_process(),
    )


def port_of(program: "subprocess.Popen[str]") -> int:
    """The port at which a server says that it listens."""
    assert program.stdout is not None
    line = program.stdout.readline()
    assert line.startswith("listening on 127.0.0.1:"), line
    return int(line.rpartition(":")[2])


def answering(folder: Path, *answers: tuple[str, str]) -> Path:
    """A program in the place of `am` that answers so, whatever it is asked, and then nothing. It doesn't end when its input does."""
    other = folder / "am"
    (folder / "answers").write_text("".join(f"HTTP/1.1 {head}\r\nContent-Length: {len(body)}\r\n\r\n{body}" for head, body in answers), encoding="utf-8")
    other.write_text(f"#!/bin/sh\ncat {folder / 'answers'}\nexec sleep 60\n", encoding="utf-8")
    other.chmod(0o755)
    return other


@contextmanager
def served(*words: str) -> Iterator[int]:
    """The port of a server that is ended behind what is done here."""
    program = started("serve", *words)
    try:
        yield port_of(program)
    finally:
        program.terminate()
        program.communicate()


@pytest.fixture(scope="session", autouse=True)
def own_variables() -> Iterator[None]:
    """No test asks the server, or opens the device, that the developer's shell names."""
    with pytest.MonkeyPatch.context() as patch:
        for name in [it for it in os.environ if it.startswith("AMCTL_") or it == "ANDROID_SERIAL"]:
            patch.delenv(name)
        yield


@pytest.fixture(scope="session", autouse=True)
def usual_signals() -> Iterator[None]:
    """What `nohup` or a shell's background has this process ignore, its programs would ignore too; what is caught here isn't."""
    ignored = [it for it in (signal.SIGHUP, signal.SIGINT, signal.SIGTERM) if signal.getsignal(it) is signal.SIG_IGN]
    for number in ignored:
        signal.signal(number, lambda number, frame: None)
    yield
    for number in ignored:
        signal.signal(number, signal.SIG_IGN)


@pytest.fixture
def rows() -> Iterator[Path]:
    """A store, in memory if there is such a folder: what a disk takes for it isn't tried here."""
    memory = Path("/dev/shm")
    with tempfile.TemporaryDirectory(dir=memory if memory.is_dir() else None) as folder:
        yield Path(folder) / "rows"


@pytest.fixture
def amctl(tmp_path: Path) -> Callable[..., Ran]:
    """Runs a command in an empty folder."""

    def run(*words: str, **variables: str) -> Ran:
        return run_python("-m", "amctl", *words, cwd=tmp_path, **variables)

    return run


@pytest.fixture
def photos() -> Iterator[Device]:
    """The device of the README: a browser and a photo viewer."""
    with Device.open(EXAMPLES / "device.toml") as device:
        yield device


@pytest.fixture
def orders() -> Iterator[Device]:
    """The shop and the guard of the README's tour."""
    with Device.open(EXAMPLES / "orders.toml") as device:
        yield device
