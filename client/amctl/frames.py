"""HTTP/1.1 as bytes, whatever carries them: requests are written, and responses read. Nothing else here writes or reads one.

It needs nothing but Python, so the tools of this repository use it too. `http.client` takes six times as long for a response
of `am`, and bounds neither its size nor the time that it takes.
"""
import re
from collections.abc import Callable, Mapping
from dataclasses import dataclass

MOST_HEAD = 65_536
# more than what `am` says of a device with as many components, and as long names, as one may have
MOST_BODY = 256 * 2**20
END_OF_HEAD = b"\r\n\r\n"
STATUS_LINE = re.compile(r"HTTP/1\.[01] ([1-5][0-9]{2})(?: .*)?")
NAME = re.compile(r"[!#-'*+.^_`|~0-9A-Za-z-]+")
LENGTH = re.compile(r"[0-9]{1,15}")
CHUNK = re.compile(rb"([0-9A-Fa-f]{1,12})[ \t]*(?:;[^\r\n]*)?")
INTERIM, NO_BODY = range(100, 200), (204, 304)


class BadFrame(ValueError):
    """Bytes that aren't a response of HTTP/1.1, or are more than is read of one."""


@dataclass(frozen=True)
class Response:
    """A response; the names of its fields are in lower case."""

    status: int
    fields: Mapping[str, str]
    body: bytes


def frame(key: str, path: str, body: str | bytes | None = None) -> bytes:
    """A request of a caller: a POST of the body, or a GET if there is none."""
    content = body.encode() if isinstance(body, str) else body
    return request("GET" if content is None else "POST", path, {"AM-Key": key}, content)


def request(method: str, path: str, fields: Mapping[str, str], body: bytes | None = None) -> bytes:
    """A request with these fields, and with its length if it has a body."""
    lines = [f"{method} {path} HTTP/1.1", *(f"{name}: {value}" for name, value in fields.items())]
    if body is not None:
        lines.append(f"Content-Length: {len(body)}")
    if not all(it.isascii() and it.isprintable() for it in lines):
        # it may even end the line
        raise BadFrame("a line of the head has a character that none may have")
    return "\r\n".join([*lines, "", ""]).encode("ascii") + (body or b"")


class Reader:
    """Reads one response after the other. `more` gives the next bytes, and none at the end."""

    def __init__(self, more: Callable[[], bytes], most_body: int | None = None) -> None:
        self._more = more
        self._most_body = MOST_BODY if most_body is None else most_body
        self._read = bytearray()

    def response(self) -> Response:
        status, fields = self._head()
        while status in INTERIM:
            status, fields = self._head()
        return Response(status, fields, self._body(status, fields))

    def _head(self) -> tuple[int, dict[str, str]]:
        while (end := self._read.find(END_OF_HEAD)) < 0:
            if len(self._read) > MOST_HEAD:
                raise BadFrame("the head is too long")
            self._need()
        first, *lines = self._taken(end + len(END_OF_HEAD))[:end].decode("latin-1").split("\r\n")
        status = STATUS_LINE.fullmatch(first)
        if status is None:
            raise BadFrame("no status")
        return int(status[1]), _fields(lines)

    def _body(self, status: int, fields: Mapping[str, str]) -> bytes:
        if status in NO_BODY:
            return b""
        if "transfer-encoding" in fields:
            return self._chunked(fields["transfer-encoding"])
        length = fields.get("content-length")
        if length is None:
            return self._rest()
        if not LENGTH.fullmatch(length):
            raise BadFrame("the length isn't one")
        return self._taken(self._bounded(int(length)))

    def _chunked(self, coding: str) -> bytes:
        if coding.lower() != "chunked":
            raise BadFrame("the body comes in a form that isn't read")
        body = bytearray()
        while (size := self._chunk_size()) > 0:
            self._bounded(len(body) + size)
            body += self._taken(size)
            if self._line():
                raise BadFrame("a chunk is longer than it says")
        while self._line():
            # fields behind the body, which nobody needs
            pass
        return bytes(body)

    def _chunk_size(self) -> int:
        size = CHUNK.fullmatch(self._line())
        if size is None:
            raise BadFrame("a chunk has no size")
        return int(size[1], 16)

    def _line(self) -> bytes:
        while (end := self._read.find(b"\r\n")) < 0:
            if len(self._read) > MOST_HEAD:
                raise BadFrame("a line is too long")
            self._need()
        return self._taken(end + 2)[:end]

    def _rest(self) -> bytes:
        """All that comes before the end."""
        # some may have come with the head
        self._bounded(len(self._read))
        while piece := self._more():
            self._read += piece
            self._bounded(len(self._read))
        return self._taken(len(self._read))

    def _bounded(self, length: int) -> int:
        if length > self._most_body:
            raise BadFrame("the body is too long")
        return length

    def _need(self) -> None:
        piece = self._more()
        if not piece:
            raise BadFrame("the end came first")
        self._read += piece

    def _taken(self, length: int) -> bytes:
        while len(self._read) < length:
            self._need()
        taken = bytes(self._read[:length])
        del self._read[:length]
        return taken


def _fields(lines: list[str]) -> dict[str, str]:
    found: dict[str, str] = {}
    for line in lines:
        name, colon, text = line.partition(":")
        if not colon or not NAME.fullmatch(name):
            raise BadFrame("a field isn't one")
        name, value = name.lower(), text.strip(" \t")
        # two lengths that differ are none
        found[name] = value if found.get(name, value) == value else f"{found[name]}, {value}"
    return found
