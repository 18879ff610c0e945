"""What carries a request to `am` and its response back: the pipes of a session, or a connection to a server."""
import json
import os
import select
import socket
import subprocess
import threading
import time
from collections.abc import Iterator, Mapping
from contextlib import contextmanager, suppress
from dataclasses import dataclass, field
from pathlib import Path
from typing import IO, TYPE_CHECKING, Any, Protocol

from amctl import words, words_server
from amctl.address import Address
from amctl.errors import BadWords, Ended, NoProgram, NoServer, OtherAnswer
from amctl.frames import BadFrame, Reader, Response, request

if TYPE_CHECKING:
    import ssl

# also 300, if the user would choose
DONE = (200, 300)
MOST_READ = 65536
PATIENCE_SECONDS = 30.0
# a machine on which many devices are opened at once may take long
SESSION_PATIENCE_SECONDS = 300.0
END_SECONDS = 5.0
# a store has the keys of installed packages in it
PRIVATE = 0o077
NEEDS_USER = 401


@dataclass(frozen=True)
class Ask:
    """A request of one caller."""

    method: str
    path: str
    key: str = field(repr=False)
    body: bytes = b""

    @property
    def content(self) -> bytes | None:
        """A GET has no body, and no length either."""
        return self.body if self.method == "POST" else None


@dataclass(frozen=True)
class Answer:
    """A response. `at` is how many calls the history had, `stored` whether this one was stored there."""

    status: int
    body: Mapping[str, Any]
    at: int | None = None
    stored: bool | None = None


class Transport(Protocol):
    """What carries a request to `am` and its response back."""

    def ask(self, ask: Ask) -> Answer: ...

    def close(self) -> None: ...


class Limit:
    """A moment after which nobody waits any longer."""

    def __init__(self, seconds: float) -> None:
        self._end = time.monotonic() + seconds

    @property
    def left(self) -> float:
        """The seconds that are left."""
        left = self._end - time.monotonic()
        if left <= 0:
            raise TimeoutError
        return left


class Pipes:
    """A session of its own, `am session`, on pipes: no port, and nobody else speaks with it.

    Threads may share it: one call is carried after the other.
    """

    def __init__(self, am: Path, device: Path, *, store: Path | None, at: int, step: int) -> None:
        words_of_am = [str(am), "session", "--device", str(device), "--at", str(at), "--step", str(step)]
        if store is not None:
            words_of_am += ["--store", str(store)]
        self._lock = threading.RLock()
        self._limit = Limit(SESSION_PATIENCE_SECONDS)
        self._reader = Reader(self._read)
        # why nothing can be asked any more, once the session is closed or has ended
        self._closed: str | None = None
        self._program = _started(words_of_am)
        self._input, self._output = _descriptor(self._program.stdin), _descriptor(self._program.stdout)
        # a program that reads nothing isn't waited for without end
        os.set_blocking(self._input, False)
        # unlike `select`, it takes descriptors of any number
        self._readable, self._writable = select.poll(), select.poll()
        self._readable.register(self._output, select.POLLIN)
        self._writable.register(self._input, select.POLLOUT)

    def ask(self, ask: Ask) -> Answer:
        frame = _frame(ask, {})
        with self._lock:
            if self._closed is not None:
                raise self._ended()
            try:
                self._limit = Limit(SESSION_PATIENCE_SECONDS)
                self._write(frame)
                return _answer_of(self._reader.response())
            except ValueError:
                raise self._ended() from None
            except TimeoutError:
                self._give_up(words.silent_program(SESSION_PATIENCE_SECONDS))
                raise NoProgram(words.silent_program(SESSION_PATIENCE_SECONDS)) from None
            except BaseException:
                # what comes next would be the answer to this call
                self._give_up(words_server.INTERRUPTED)
                raise

    def _write(self, data: bytes) -> None:
        rest = memoryview(data)
        while rest:
            try:
                rest = rest[os.write(self._input, rest) :]
            except BlockingIOError:
                self._wait(self._writable)
            except BrokenPipeError:
                # what is too long is answered before all of it is read: the answer is there, or the output's end
                return

    def _read(self) -> bytes:
        self._wait(self._readable)
        return os.read(self._output, MOST_READ)

    def _wait(self, waiting: "select.poll") -> None:
        if not waiting.poll(self._limit.left * 1000):
            raise TimeoutError

    def _give_up(self, why: str) -> None:
        """Ends the program at once."""
        self._closed = why
        self._program.kill()
        _close(self._program)

    def close(self) -> None:
        """Ends the session, and waits for the program."""
        with self._lock:
            if self._closed is None:
                self._closed = words.CLOSED.text
            _close(self._program)

    def _ended(self) -> Ended:
        line = _close(self._program)
        status = self._program.returncode
        if self._closed is None:
            # its descriptors may be another file's by now
            self._closed = words.ending(status, line).text
        return Ended(status, line, self._closed)


class Web:
    """A server. Each request has a connection of its own, so none meets the end of one that rested too long."""

    def __init__(self, url: str, *, user: str | None = None, ca: str | Path | None = None) -> None:
        self.address = Address.of(url, user, ca)
        self._context = self.address.context() if self.address.is_tls else None

    def ask(self, ask: Ask) -> Answer:
        frame = _frame(ask, self.address.fields, self.address.path)
        limit = Limit(PATIENCE_SECONDS)
        with _explained(self.address.url), self._connected(limit) as connection:
            # what is too long is answered before all of it is read
            with suppress(ConnectionError):
                connection.sendall(frame)

            def more() -> bytes:
                connection.settimeout(limit.left)
                return connection.recv(MOST_READ)

            return self._answer(Reader(more).response())

    def _answer(self, response: Response) -> Answer:
        if response.status == NEEDS_USER and "www-authenticate" in response.fields:
            raise NoServer(words_server.needs_user(self.address.url))
        return _answer_of(response)

    @contextmanager
    def _connected(self, limit: Limit) -> "Iterator[socket.socket]":
        with socket.create_connection((self.address.host, self.address.port), limit.left) as plain:
            plain.setsockopt(socket.IPPROTO_TCP, socket.TCP_NODELAY, 1)
            if self._context is None:
                yield plain
                return
            plain.settimeout(limit.left)
            with self._context.wrap_socket(plain, server_hostname=self.address.host) as secret:
                secret.settimeout(limit.left)
                yield secret

    def close(self) -> None:
        """Nothing is open between two requests."""


@contextmanager
def _explained(url: str) -> Iterator[None]:
    """What goes wrong on the way to a server, in words."""
    try:
        yield
    except (ConnectionRefusedError, socket.gaierror) as fault:
        refused = isinstance(fault, ConnectionRefusedError)
        raise NoServer(words.no_server(url) if refused else words_server.unreachable(url, fault.strerror or str(fault))) from None
    except TimeoutError:
        raise NoServer(words.silent_server(url, PATIENCE_SECONDS)) from None
    except (ConnectionError, ValueError) as fault:
        raise NoServer(_of_tls(url, fault) or words.other_server(url)) from None
    except OSError as fault:
        raise NoServer(_of_tls(url, fault) or words_server.unreachable(url, fault.strerror or str(fault))) from None


def _of_tls(url: str, fault: Exception) -> str | None:
    """A fault of TLS in words, if it is one."""
    reason = getattr(fault, "verify_message", None)
    if reason is not None:
        return words_server.untrusted(url, str(reason))
    library = getattr(fault, "reason", None)
    return words_server.no_tls(url, str(library).replace("_", " ").lower()) if isinstance(library, str) and url.startswith("https") else None


def run_visible(am: Path, device: Path, package: str, query: bytes) -> Mapping[str, Any]:
    """What `am visible` answers a query, which isn't HTTP."""
    words_of_am = [str(am), "visible", "--device", str(device), "--as", package]
    try:
        # it ends the program whatever happens
        ran = subprocess.run(words_of_am, input=query, capture_output=True, umask=PRIVATE, timeout=SESSION_PATIENCE_SECONDS)
    except subprocess.TimeoutExpired:
        raise NoProgram(words.silent_program(SESSION_PATIENCE_SECONDS)) from None
    except OSError as fault:
        raise NoProgram(words.no_start(str(am), fault.strerror or str(fault))) from None
    line = ran.stderr.decode(errors="replace").strip()
    if ran.returncode:
        raise Ended(ran.returncode, line, words.ending(ran.returncode, line).text)
    try:
        return _object(ran.stdout)
    except ValueError:
        raise OtherAnswer(words.OTHER_ANSWER) from None


def body_of(fields: Mapping[str, Any]) -> bytes:
    """A request's body, written as the history shows it."""
    return json.dumps(fields, sort_keys=True, ensure_ascii=False, separators=(",", ":")).encode()


def _started(words_of_am: list[str]) -> "subprocess.Popen[bytes]":
    try:
        return subprocess.Popen(
            words_of_am, stdin=subprocess.PIPE, stdout=subprocess.PIPE, stderr=subprocess.PIPE, bufsize=0, umask=PRIVATE
        )
    except OSError as fault:
        raise NoProgram(words.no_start(words_of_am[0], fault.strerror or str(fault))) from None


def _descriptor(pipe: IO[bytes] | None) -> int:
    assert pipe is not None
    return pipe.fileno()


def _close(program: "subprocess.Popen[bytes]") -> str:
    """Ends the program's input, waits for its end, and gives the line that it left."""
    for pipe in (program.stdin, program.stdout):
        if pipe is not None:
            pipe.close()
    try:
        program.wait(END_SECONDS)
    except BaseException as fault:
        program.kill()
        program.wait()
        if not isinstance(fault, subprocess.TimeoutExpired):
            raise
    if program.stderr is None or program.stderr.closed:
        return ""
    with program.stderr as errors:
        return errors.read().decode(errors="replace").strip()


def _frame(ask: Ask, fields: Mapping[str, str], prefix: str = "") -> bytes:
    try:
        return request(ask.method, prefix + ask.path, {**fields, "AM-Key": ask.key}, ask.content)
    except BadFrame:
        raise BadWords(words_server.NO_KEY) from None


def _answer_of(response: Response) -> Answer:
    at, stored = response.fields.get("am-at"), response.fields.get("am-stored")
    found = _object(response.body)
    is_done, is_refused = at is not None, isinstance(found.get("error"), str) and isinstance(found.get("name"), str | None)
    if not (is_done if response.status in DONE else is_refused):
        raise ValueError("no answer of `am`")
    return Answer(response.status, found, None if at is None else int(at), None if stored is None else stored == "1")


def _object(body: bytes) -> Mapping[str, Any]:
    try:
        found = json.loads(body)
    except RecursionError:
        raise ValueError("a response of `am` isn't so deep") from None
    if not isinstance(found, dict):
        raise ValueError("a response's body is one JSON object")
    return found
