"""Frames of HTTP: what is written, what is read, and what is no response or more than is read of one."""
from collections.abc import Callable, Iterable

import pytest

from amctl import frames
from amctl.frames import BadFrame, Reader, Response, frame, request

HEAD = "HTTP/1.1 200 OK\r\n"


def in_pieces(text: bytes, size: int) -> Callable[[], bytes]:
    """Gives the text in pieces, and nothing behind it."""
    pieces: Iterable[bytes] = iter([text[at : at + size] for at in range(0, len(text), size)])
    return lambda: next(iter(pieces), b"")


def read(text: str, size: int = 7, most_body: int | None = None) -> Response:
    return Reader(in_pieces(text.encode("latin-1"), size), most_body).response()


def test_requests_are_written() -> None:
    assert frame("k1", "/v1/tasks") == b"GET /v1/tasks HTTP/1.1\r\nAM-Key: k1\r\n\r\n"
    assert frame("k1", "/v1/tick", "{}") == b"POST /v1/tick HTTP/1.1\r\nAM-Key: k1\r\nContent-Length: 2\r\n\r\n{}"
    assert frame("k1", "/v1/tick", '"ü"') == 'POST /v1/tick HTTP/1.1\r\nAM-Key: k1\r\nContent-Length: 4\r\n\r\n"ü"'.encode()
    assert request("POST", "/", {"Host": "a", "B": "c"}, b"") == b"POST / HTTP/1.1\r\nHost: a\r\nB: c\r\nContent-Length: 0\r\n\r\n"


@pytest.mark.parametrize("key", ["a\r\nAM-Key: b", "a\nb", "a\0", "ü", "a\x7f"])
def test_nothing_ends_a_line_of_a_head(key: str) -> None:
    with pytest.raises(BadFrame):
        frame(key, "/")
    with pytest.raises(BadFrame):
        frame("k", f"/{key}")


@pytest.mark.parametrize("size", [1, 2, 5, 1000])
def test_responses_follow_one_another_in_any_pieces(size: int) -> None:
    text = f"{HEAD}Content-Length: 2\r\nAM-At: 7\r\n\r\n{{}}HTTP/1.0 404 \r\ncontent-length:\t0 \r\n\r\nHTTP/1.1 204\r\n\r\n"
    reader = Reader(in_pieces(text.encode(), size))
    assert [reader.response() for _ in range(3)] == [
        Response(200, {"content-length": "2", "am-at": "7"}, b"{}"),
        Response(404, {"content-length": "0"}, b""),
        Response(204, {}, b""),
    ]
    with pytest.raises(BadFrame, match="the end came first"):
        reader.response()


@pytest.mark.parametrize("size", [1, 3, 1000])
def test_bodies_come_in_chunks_or_until_the_end(size: int) -> None:
    chunked = f"{HEAD}Transfer-Encoding: Chunked\r\n\r\n5;a=b\r\n12345\r\nA \r\n1234567890\r\n0\r\nX: y\r\n\r\n"
    assert read(chunked, size).body == b"123451234567890"
    assert read(f"{HEAD}\r\nuntil the end", size).body == b"until the end"


def test_what_comes_before_the_response_is_passed() -> None:
    assert read("HTTP/1.1 100 Continue\r\n\r\nHTTP/1.1 103 Early Hints\r\nLink: x\r\n\r\n" + f"{HEAD}Content-Length: 1\r\n\r\nx").body == b"x"


def test_a_length_that_is_repeated_is_one_length() -> None:
    assert read(f"{HEAD}Content-Length: 1\r\nContent-Length: 1\r\n\r\nx").body == b"x"


@pytest.mark.parametrize(
    "text",
    [
        "",
        "hello\r\n\r\n",
        "HTTP/2 200 OK\r\n\r\n",
        "HTTP/1.1 20 OK\r\n\r\n",
        "HTTP/1.1 600 OK\r\n\r\n",
        f"{HEAD}Content-Length: 3\r\n\r\nab",
        f"{HEAD}Content-Length: -1\r\n\r\n",
        f"{HEAD}Content-Length: 1_0\r\n\r\n{'x' * 10}",
        f"{HEAD}Content-Length: 1\r\nContent-Length: 2\r\n\r\nab",
        f"{HEAD}no field\r\n\r\n",
        f"{HEAD}A : b\r\n\r\n",
        f"{HEAD}A: b\r\n c\r\n\r\n",
        f"{HEAD}Transfer-Encoding: gzip, chunked\r\n\r\n0\r\n\r\n",
        f"{HEAD}Transfer-Encoding: chunked\r\n\r\nx\r\n",
        f"{HEAD}Transfer-Encoding: chunked\r\n\r\n2\r\nabc\r\n0\r\n\r\n",
        f"{HEAD}Transfer-Encoding: chunked\r\n\r\n2\r\nab\r\n",
    ],
)
def test_what_is_no_response_is_told(text: str) -> None:
    with pytest.raises(BadFrame):
        read(text)


@pytest.mark.parametrize("size", [7, 1000])
@pytest.mark.parametrize(
    "text",
    [
        f"{HEAD}Content-Length: 11\r\n\r\n",
        f"{HEAD}Transfer-Encoding: chunked\r\n\r\nB\r\n",
        f"{HEAD}Transfer-Encoding: chunked\r\n\r\n6\r\n123456\r\n5\r\n",
        f"{HEAD}\r\n12345678901",
    ],
)
def test_a_body_that_is_too_long_is_refused_before_it_is_read(text: str, size: int) -> None:
    with pytest.raises(BadFrame, match="the body is too long"):
        read(text, size, most_body=10)


def test_a_head_without_end_is_refused(monkeypatch: pytest.MonkeyPatch) -> None:
    monkeypatch.setattr(frames, "MOST_HEAD", 1000)
    read_so_far: list[int] = []

    def more() -> bytes:
        read_so_far.append(100)
        return b"x" * 100

    with pytest.raises(BadFrame, match="the head is too long"):
        Reader(more).response()
    assert sum(read_so_far) <= 1200


def test_a_body_of_the_most_bytes_is_read() -> None:
    for text in (f"{HEAD}Content-Length: 10\r\n\r\n1234567890", f"{HEAD}Transfer-Encoding: chunked\r\n\r\nA\r\n1234567890\r\n0\r\n\r\n", f"{HEAD}\r\n1234567890"):
        assert read(text, most_body=10).body == b"1234567890"
