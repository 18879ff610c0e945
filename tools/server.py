"""A server under test: the built program, and connections that hold each response to the form of docs/HTTP.md."""
import glob
import json
import os
import re
import socket
import subprocess
import sys
import threading
import time
from collections.abc import Iterator
from typing import Any, NamedTuple, NoReturn, Optional

from frames import frame

__all__ = ["HEAD", "Link", "Response", "Server", "ask_many", "built", "fail", "frame", "free_port", "is_listening", "text_of", "whole_responses"]
HEAD = re.compile(
    rb"HTTP/1\.1 (\d{3} [A-Z][A-Za-z ]*)\r\nContent-Type: application/json\r\nContent-Length: (\d+)\r\n"
    rb"(?:AM-At: (\d+)\r\n)?(?:AM-Stored: ([01])\r\n)?\r\n"
)
STATUSES = {
    "200 OK", "300 Multiple Choices", "400 Bad Request", "401 Unauthorized", "403 Forbidden", "404 Not Found",
    "405 Method Not Allowed", "409 Conflict", "410 Gone", "422 Unprocessable Entity", "429 Too Many Requests",
}


def fail(text: str) -> NoReturn:
    sys.exit(f"{os.path.basename(sys.argv[0])}: {text}")


def built() -> str:
    """The program that `rt ci` or `rt run` built."""
    root = os.path.dirname(os.path.dirname(os.path.abspath(__file__)))
    found = [it for it in glob.glob(f"{root}/crates/am/out/**/am", recursive=True) if os.path.isfile(it) and os.access(it, os.X_OK)]
    return max(found, key=os.path.getmtime) if found else fail("no built am; name the program")


def text_of(value: Any) -> str:
    """The compact text, with its keys in the order of their bytes."""
    return json.dumps(value, sort_keys=True, ensure_ascii=False, separators=(",", ":"))


class Response(NamedTuple):
    """A response: the status with its phrase, the place, whether it was stored, and the body."""

    status: str
    at: Optional[int]
    stored: int
    body: str


class Link:
    """A connection to the server, which has to answer each frame by a whole response."""

    def __init__(self, port: int, patience: float = 120) -> None:
        self.socket = socket.create_connection(("127.0.0.1", port), patience)
        self.socket.setsockopt(socket.IPPROTO_TCP, socket.TCP_NODELAY, 1)
        self.read = b""

    def more(self) -> None:
        piece = self.socket.recv(1 << 16)
        if not piece:
            fail(f"the server closed behind {self.read!r}")
        self.read += piece

    def response(self) -> Response:
        while b"\r\n\r\n" not in self.read:
            self.more()
        head = HEAD.match(self.read)
        if not head or head[1].decode() not in STATUSES or (head[3] is None) != (head[4] is None):
            fail(f"a response begins {self.read[:300]!r}")
        end = head.end() + int(head[2])
        while len(self.read) < end:
            self.more()
        body = self.read[head.end():end].decode()
        self.read = self.read[end:]
        if text_of(json.loads(body)) != body:
            fail(f"a body isn't compact and in order: {body[:300]}")
        at, stored = (int(head[3]), int(head[4])) if head[3] else (None, 0)
        return Response(head[1].decode(), at, stored, body)

    def ask(self, asked: bytes) -> Response:
        self.socket.sendall(asked)
        answer = self.response()
        if self.read:
            fail(f"more came than was asked: {self.read[:300]!r}")
        return answer

    def close(self) -> None:
        self.socket.close()


def ask_many(port: int, asked: bytes, count: int) -> None:
    """Asks so often over one connection, without waiting for each response."""
    with socket.create_connection(("127.0.0.1", port)) as link:
        sender = threading.Thread(target=link.sendall, args=(asked * count,))
        sender.start()
        read, answered = b"", 0
        while answered < count:
            piece = link.recv(1 << 20)
            if not piece:
                fail(f"the server closed after {answered} responses")
            read += piece
            whole = list(whole_responses(read))
            answered += len(whole)
            read = read[sum(map(len, whole)):]
        sender.join()


def whole_responses(read: bytes) -> Iterator[bytes]:
    """The responses that are there whole."""
    at = 0
    while head := HEAD.match(read, at):
        end = head.end() + int(head[2])
        if end > len(read):
            return
        yield read[at:end]
        at = end


def free_port() -> int:
    with socket.socket() as probe:
        probe.bind(("127.0.0.1", 0))
        return int(probe.getsockname()[1])


def is_listening(port: int) -> bool:
    with open("/proc/net/tcp", encoding="ascii") as table:
        return any(row.split()[1] == f"0100007F:{port:04X}" and row.split()[3] == "0A" for row in table.readlines()[1:])


class Server:
    """A server over the device file, which listens once this is made. It may have so many descriptors, if that is given."""

    def __init__(self, program: str, file: str, workers: int, links: Optional[int] = None, descriptors: Optional[int] = None) -> None:
        self.port = free_port()
        words = [] if descriptors is None else ["prlimit", f"--nofile={descriptors}"]
        words += [program, "serve", "--device", file, "--port", str(self.port), "--workers", str(workers)]
        words += [] if links is None else ["--connections", str(links)]
        self.process = subprocess.Popen(words, stdin=subprocess.DEVNULL, stdout=subprocess.PIPE, stderr=subprocess.PIPE, text=True)
        while not is_listening(self.port):
            if self.process.poll() is not None:
                fail(f"the server ended: {self.process.communicate()}")
            time.sleep(0.01)

    def end(self, history: int, served: int) -> None:
        """Waits for its end, and sees what it prints."""
        try:
            output, errors = self.process.communicate(timeout=120)
        except subprocess.TimeoutExpired:
            self.process.kill()
            fail("the server doesn't end")
        if (self.process.returncode, output, errors) != (0, f"history {history} served {served}\n", ""):
            fail(f"the server ended with {self.process.returncode}, {output!r} and {errors!r}, and not history {history} served {served}")

    def kill(self) -> None:
        self.process.kill()
        self.process.communicate()

    def descriptors(self) -> int:
        """How many it has open."""
        return len(os.listdir(f"/proc/{self.process.pid}/fd"))

    def resident(self) -> int:
        """How many bytes of memory it has."""
        with open(f"/proc/{self.process.pid}/statm", encoding="ascii") as file:
            return int(file.read().split()[1]) * os.sysconf("SC_PAGE_SIZE")
