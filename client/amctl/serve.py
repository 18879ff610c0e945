"""`amctl serve`: checks what a server needs, starts it, says where it listens, and passes signals on."""
import os
import signal
import socket
import subprocess
import time
from collections.abc import Iterator
from contextlib import contextmanager
from dataclasses import dataclass
from pathlib import Path
from types import FrameType

from amctl import words, words_serve
from amctl.children import ending_with_this_process
from amctl.device import checked_store
from amctl.devicefile import DeviceFile
from amctl.errors import AmctlError, BadWords, NoProgram
from amctl.faults import ending_text
from amctl.find import find_am
from amctl.limits import check_limits
from amctl.transport import PRIVATE

HOST = "127.0.0.1"
# a line of /proc/net/tcp: its number, our address, theirs, the state, and after five more fields the socket's number
LISTENING = "0A"
ADDRESS = "0100007F:{port:04X}"
PASSED_ON = (signal.SIGINT, signal.SIGTERM, signal.SIGHUP)
WAIT_SECONDS = 30.0
NETWORK_FAULT = 9
ATTEMPTS = 5


class PortTaken(AmctlError):
    """Somebody else took the port."""


@dataclass(frozen=True)
class Serving:
    """What is served."""

    device: Path
    port: int | None = None
    workers: int = 4
    store: Path | None = None
    connections: int | None = None
    am: Path | None = None
    at: int | None = None

    def words(self, am: Path, port: int) -> list[str]:
        """The program's words."""
        given = [str(am), "serve", "--device", str(self.device), "--port", str(port), "--workers", str(self.workers)]
        for name, value in (("--store", self.store), ("--connections", self.connections), ("--at", self.at)):
            if value is not None:
                given += [name, str(value)]
        return given


def run(serving: Serving) -> int:
    """Serves until the program ends or is stopped."""
    file = DeviceFile.read(serving.device)
    if serving.store is not None:
        check_store(checked_store(serving.store))
    check_limits(serving.workers)
    am = find_am(serving.am)
    if serving.port is not None:
        check_port(serving.port)
    for left in reversed(range(ATTEMPTS)):
        try:
            return _served(serving, am, serving.port or free_port(), file)
        except PortTaken:
            # a free port may be somebody else's by the time the program asks for it
            if serving.port is not None or left == 0:
                raise
    raise AssertionError("the last attempt returns or raises")


def _served(serving: Serving, am: Path, port: int, file: DeviceFile) -> int:
    with passing_signals_on() as passing, _running(serving.words(am, port)) as program:
        passing.to = program
        listened = _wait_until_listening(program, port)
        if listened:
            print(words.listening(HOST, port), flush=True)
        printed, errors = program.communicate()
    if program.returncode == NETWORK_FAULT and not listened:
        raise PortTaken(words_serve.port_taken(port))
    if program.returncode == NETWORK_FAULT:
        raise AmctlError(words_serve.network_fault(port))
    return _end(program.returncode, printed.strip(), errors.strip(), passing.passed, file)


@contextmanager
def _running(words_of_am: list[str]) -> "Iterator[subprocess.Popen[str]]":
    """The program, which runs no longer than what is done here, whatever goes wrong there."""
    program = _started(words_of_am)
    try:
        yield program
    finally:
        if program.poll() is None:
            program.kill()
            program.wait()


def _started(words_of_am: list[str]) -> "subprocess.Popen[str]":
    try:
        # a signal of the terminal would reach the program twice if it were in this one's group
        return subprocess.Popen(
            words_of_am,
            stdin=subprocess.DEVNULL,
            stdout=subprocess.PIPE,
            stderr=subprocess.PIPE,
            text=True,
            start_new_session=True,
            umask=PRIVATE,
            preexec_fn=ending_with_this_process(),
        )
    except OSError as fault:
        raise NoProgram(words.no_start(words_of_am[0], fault.strerror or str(fault))) from None


def _end(status: int, printed: str, errors: str, passed: int | None, file: DeviceFile) -> int:
    """Says how the program ended, and gives the status."""
    if printed:
        print(words.served(printed))
    if status == 0:
        return 0
    if passed is not None and status == -passed:
        print(words.stopped_by(signal.Signals(passed).name))
        return 0
    raise AmctlError(ending_text(file, status, errors))


class Passing:
    """The program to which signals are passed on, and the last one that was."""

    def __init__(self) -> None:
        self.to: subprocess.Popen[str] | None = None
        self.passed: int | None = None

    def __call__(self, number: int, frame: FrameType | None) -> None:
        self.passed = number
        if self.to is None:
            raise AmctlError(words.stopped_by(signal.Signals(number).name))
        self.to.send_signal(number)


@contextmanager
def passing_signals_on() -> Iterator[Passing]:
    passing = Passing()
    # who starts a server by `nohup` has it ignore a signal, and the program ignores it too
    passed_on = [number for number in PASSED_ON if signal.getsignal(number) is not signal.SIG_IGN]
    before = {number: signal.signal(number, passing) for number in passed_on}
    try:
        yield passing
    finally:
        for number, handler in before.items():
            signal.signal(number, handler)


def _wait_until_listening(program: "subprocess.Popen[str]", port: int) -> bool:
    """Whether the program listens; a connection that tried it would count as one that is served."""
    end = time.monotonic() + WAIT_SECONDS
    while program.poll() is None and time.monotonic() < end:
        # the port may be somebody else's, while the program is about to say so
        if listeners(port) & _sockets(program.pid):
            return True
        time.sleep(0.02)
    return False


def listeners(port: int) -> set[str]:
    """The sockets that listen at the port."""
    lines = (it.split() for it in Path("/proc/net/tcp").read_text(encoding="ascii").splitlines()[1:])
    return {f"socket:[{it[9]}]" for it in lines if it[1] == ADDRESS.format(port=port) and it[3] == LISTENING}


def _sockets(pid: int) -> set[str]:
    try:
        return {os.readlink(it) for it in Path(f"/proc/{pid}/fd").iterdir()}
    except OSError:
        # it ended, or closed what was just listed
        return set()


def free_port() -> int:
    with socket.socket() as tried:
        tried.bind((HOST, 0))
        return int(tried.getsockname()[1])


def check_port(port: int) -> None:
    with socket.socket() as tried:
        # ends of old connections don't hinder a server, and so not this test
        tried.setsockopt(socket.SOL_SOCKET, socket.SO_REUSEADDR, 1)
        try:
            tried.bind((HOST, port))
        except PermissionError:
            raise BadWords(words_serve.port_forbidden(port)) from None
        except OSError:
            raise PortTaken(words_serve.port_taken(port)) from None


def check_store(store: Path) -> None:
    folder_or_file = store if store.exists() else store.parent
    if not os.access(folder_or_file, os.W_OK):
        raise BadWords(words_serve.store_unwritable(str(folder_or_file)))
    if store.exists() and not os.access(store.parent, os.W_OK):
        # sqlite makes its journal beside the file
        raise BadWords(words_serve.store_unwritable(str(store.parent)))
