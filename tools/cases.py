"""The form of the files in tests/: cases of what a program is given, and of what it has to print.

A line that begins with `#` is a comment, and blank lines count for nothing. Each other line at the margin begins a block, to
which the lines below it that are indented by four blanks belong:

    device NAME             the device file of that name, for this file's cases (tests/devices/NAME.toml serves all files)
    case TITLE              begins a case
    on NAME                 its device; or `device` alone, with the text of a device of its own
    file NAME               a further file of its folder
    run WORDS               starts a program, `am` or `am_audit`, in the folder of its files; the device is the file `device`.
                            A case that begins with a frame is a run of `am session --device device --at 0 --step 1`.
                            `run sqlite FILE` runs the statement of its input on a file of kept rows, and prints its rows
    METHOD PATH KEY BODY    a frame, with `-` for no key; below it what is answered: `200 {}`, or `200 at 3 stored {}` with
                            the fields AM-At: 3 and AM-Stored: 1, or `200 at 3 {}` with AM-Stored: 0
                            A reply may leave fields out: in an object that ends with `..`, as `{"task":1,..}`, only the
                            fields before it have to be there, and others may be
    bytes TEXT              bytes in the place of a frame; below it the answers, if there are any
    input                   the text of the standard input
    prints                  the text of the standard output
    ends STATUS LINE        the exit status, and the line on the standard error; 0 and no line where it isn't said

A text is its lines with a newline behind each; a `\\` at the end of a line takes the newline away. `<3:ab>` stands for
`ababab`, in which `#0` counts from 0 and `#1` from 1. Behind the word `bytes` (`device bytes`, `file bytes NAME`, `input bytes`,
`prints bytes`) `\\r`, `\\n`, `\\t`, `\\\\` and `\\x7f` are bytes too. `64 times` before a frame or an answer repeats it, and counts
in the same way.

A `table TITLE` is a case for each line of its last block, `rows`: what stands between ` => ` in a line takes the places of
`$1`, `$2` and so on in the blocks above, each of which has to stand there.

What isn't of this form, and what would count for nothing, such as lines below an `on` or a second `ends`, is an error.
"""
from __future__ import annotations

import json
import re
from collections.abc import Iterator
from dataclasses import dataclass, field
from pathlib import Path
from typing import Union

PHRASES = {
    200: "OK", 300: "Multiple Choices", 400: "Bad Request", 401: "Unauthorized", 403: "Forbidden", 404: "Not Found",
    405: "Method Not Allowed", 409: "Conflict", 410: "Gone", 411: "Length Required", 413: "Payload Too Large",
    422: "Unprocessable Entity", 429: "Too Many Requests", 431: "Request Header Fields Too Large", 501: "Not Implemented",
    503: "Service Unavailable", 507: "Insufficient Storage",
}
PROGRAMS = ("am", "am_audit", "sqlite")
SESSION = "am session --device device --at 0 --step 1"
ESCAPE = re.compile(r"\\(?:([rnt\\])|x([0-9a-f]{2}))")
ESCAPED = {"r": b"\r", "n": b"\n", "t": b"\t", "\\": b"\\"}
REPEATED = re.compile(r"<(\d+):([^<>]*)>")
TIMES = re.compile(r"([1-9]\d*) times (.*)", re.S)
FRAME = re.compile(r"([A-Z]+) (\S+) (\S+)(?: (.*))?", re.S)
ANSWER = re.compile(r"(\d{3})(?: at (\d+)( stored)?)? (\{.*)", re.S)
# a text of JSON, or the mark of fields that are left out
TEXT_OR_MARK = re.compile(r'"(?:[^"\\]|\\.)*"|\.\.(\})?')
CONTINUED = re.compile(r"(?<!\\)\\\n")
END = re.compile(r"(\d+)(?: (.+))?")
HOLE = re.compile(r"\$(\d)")
# these have no lines below them
HEADS = ("case", "table", "on", "run", "ends")
RESPONSE = re.compile(
    rb"HTTP/1\.1 (\d+) ([^\r]*)\r\nContent-Type: application/json\r\nContent-Length: (\d+)\r\n"
    rb"(?:AM-At: (\d+)\r\nAM-Stored: ([01])\r\n)?\r\n"
)


JsonValue = Union[None, bool, int, float, str, list["JsonValue"], dict[str, "JsonValue"]]


class FormError(Exception):
    """A line that isn't of the form."""

    def __init__(self, place: Place, what: str) -> None:
        super().__init__(f"{place}: {what}")


@dataclass(frozen=True)
class Place:
    file: Path
    line: int

    def __str__(self) -> str:
        return f"{self.file}:{self.line}"


@dataclass(frozen=True)
class Line:
    place: Place
    text: str


@dataclass(frozen=True)
class Block:
    """A line at the margin, and the indented lines below it."""

    place: Place
    head: str
    body: tuple[Line, ...]

    @property
    def word(self) -> str:
        return self.head.split(" ", 1)[0]

    @property
    def rest(self) -> str:
        return self.head.partition(" ")[2]

    @property
    def holes(self) -> set[int]:
        """The numbers behind `$` that a row has to fill."""
        return {int(it) for text in (self.head, *(line.text for line in self.body)) for it in HOLE.findall(text)}

    def filled(self, row: Line) -> Block:
        """The block of a row, with the row's values in the places of `$1`, `$2` and so on."""
        values = row.text.split(" => ")

        def fill(text: str) -> str:
            return HOLE.sub(lambda it: values[int(it[1]) - 1], text)

        return Block(row.place, fill(self.head), tuple(Line(row.place, fill(it.text)) for it in self.body))


@dataclass
class Run:
    """A start of a program: its words, what it reads, and what it has to print and to end with."""

    place: Place
    words: list[str]
    input: bytes = b""
    output: bytes = b""
    answers: list[Place] = field(default_factory=list)
    status: int = 0
    errors: bytes = b""
    is_end_told: bool = False


@dataclass
class Case:
    place: Place
    title: str
    files: dict[str, bytes] = field(default_factory=dict)
    runs: list[Run] = field(default_factory=list)


def counted(text: str, number: int) -> str:
    """The text with the number of a repetition, counted from 0, in the places of `#0` and `#1`, and so on."""
    return re.sub(r"#(\d+)", lambda it: str(number + int(it[1])), text)


def repeated(text: str) -> str:
    """The text with each `<3:ab>` spelled out."""
    return REPEATED.sub(lambda it: "".join(counted(it[2], number) for number in range(int(it[1]))), text)


def escaped(text: str) -> bytes:
    """The bytes of a text, with its escapes spelled out."""
    parts: list[bytes] = []
    end = 0
    for it in ESCAPE.finditer(text):
        parts += [text[end:it.start()].encode(), ESCAPED[it[1]] if it[1] else bytes([int(it[2], 16)])]
        end = it.end()
    return b"".join([*parts, text[end:].encode()])


def text_of(block: Block, is_bytes: bool) -> bytes:
    """The text of a block's lines."""
    text = repeated("".join(f"{it.text}\n" for it in block.body))
    text = CONTINUED.sub("", text)
    return escaped(text) if is_bytes else text.encode()


def times(text: str) -> Iterator[str]:
    """The text, or what `3 times` before it makes of it."""
    found = TIMES.fullmatch(text)
    if found:
        yield from (counted(found[2], number) for number in range(int(found[1])))
    else:
        yield text


def frame(place: Place, text: str) -> bytes:
    """The bytes of a frame."""
    found = FRAME.fullmatch(repeated(text))
    if not found:
        raise FormError(place, f"no frame: {text}")
    method, path, key, body = found.groups()
    head = f"{method} {path} HTTP/1.1\r\n" + ("" if key == "-" else f"AM-Key: {key}\r\n")
    if body is None:
        return f"{head}\r\n".encode()
    return f"{head}Content-Length: {len(body.encode())}\r\n\r\n{body}".encode()


def wanted_of(body: str) -> JsonValue | None:
    """What a reply with fields left out asks for, each left-out rest as the field `..`; None of a reply that is whole."""
    def spelled(it: re.Match[str]) -> str:
        return it[0] if it[0].startswith('"') or not it[1] else '"..":null}'

    marked = [it for it in TEXT_OR_MARK.finditer(body) if it[0].startswith("..")]
    return json.loads(TEXT_OR_MARK.sub(spelled, body)) if marked else None


def agrees(wanted: JsonValue, reply: JsonValue) -> bool:
    """Whether a reply is what is asked for, in each of its objects but for the fields that are left out."""
    if isinstance(wanted, dict) and isinstance(reply, dict):
        told = wanted.keys() - {".."}
        return (told <= reply.keys() if ".." in wanted else told == reply.keys()) and all(agrees(wanted[it], reply[it]) for it in told)
    if isinstance(wanted, list) and isinstance(reply, list):
        return len(wanted) == len(reply) and all(map(agrees, wanted, reply))
    return type(wanted) is type(reply) and wanted == reply


def is_meant(wanted: re.Match[bytes], asked: bytes, printed: re.Match[bytes], reply: bytes) -> bool:
    """Whether a printed response is one that an answer with fields left out means."""
    heads = [(it[1], it[2], it[4], it[5]) for it in (wanted, printed)]
    pattern = wanted_of(asked.decode())
    if pattern is None or heads[0] != heads[1]:
        return False
    try:
        return agrees(pattern, json.loads(reply))
    except ValueError:
        return False


def abridged(output: bytes, printed: bytes) -> bytes:
    """What was printed, each response that the output means by an answer with fields left out in that answer's words."""
    parts: list[bytes] = []
    at = end = 0
    while (wanted := RESPONSE.match(output, at)) and (found := RESPONSE.match(printed, end)):
        at, start, end = wanted.end() + int(wanted[3]), end, found.end() + int(found[3])
        is_same = is_meant(wanted, output[wanted.end() : at], found, printed[found.end() : end])
        parts.append(output[wanted.start() : at] if is_same else printed[start:end])
    return b"".join([*parts, printed[end:]])


def response(place: Place, text: str) -> bytes:
    """The bytes of a response."""
    found = ANSWER.fullmatch(repeated(text))
    if not found or int(found[1]) not in PHRASES:
        raise FormError(place, f"no answer: {text}")
    status, at, stored, body = found.groups()
    try:
        wanted_of(body)
    except ValueError:
        raise FormError(place, f"no reply: {body}") from None
    head = f"HTTP/1.1 {status} {PHRASES[int(status)]}\r\nContent-Type: application/json\r\nContent-Length: {len(body.encode())}\r\n"
    if at is not None:
        head += f"AM-At: {at}\r\nAM-Stored: {1 if stored else 0}\r\n"
    return f"{head}\r\n{body}".encode()


def shown(output: bytes) -> list[str]:
    """What a program printed, in the form of the cases: a line for each response, and what isn't one as it is."""
    lines: list[str] = []
    at = 0
    while at < len(output):
        found = RESPONSE.match(output, at)
        if not found or PHRASES.get(int(found[1]), "").encode() != found[2]:
            return [*lines, *(repr(it)[2:-1] for it in output[at:].splitlines(keepends=True))]
        at = found.end() + int(found[3])
        place = f" at {int(found[4])}{' stored' if found[5] == b'1' else ''}" if found[4] else ""
        lines.append(f"{int(found[1])}{place} {repr(output[found.end():at])[2:-1]}")
    return lines


def blocks(file: Path) -> Iterator[Block]:
    """The blocks of a file, in their order."""
    head, place = "", Place(file, 0)
    body: list[Line] = []
    for number, text in enumerate(file.read_text(encoding="utf-8").split("\n"), 1):
        if text.startswith("    "):
            body.append(Line(Place(file, number), text[4:]))
            if not head or head.split(" ", 1)[0] in HEADS:
                raise FormError(body[-1].place, f"nothing takes this line: {text}")
        elif text and not text.startswith("#"):
            if head:
                yield Block(place, head, tuple(body))
            head, place, body = text, Place(file, number), []
    if head:
        yield Block(place, head, tuple(body))


def exchange(run: Run, block: Block) -> None:
    """Adds a frame, or bytes in its place, with the answers."""
    run.input += b"".join(
        escaped(repeated(text.removeprefix("bytes "))) if block.word == "bytes" else frame(block.place, text) for text in times(block.head)
    )
    answers = [(line.place, response(line.place, text)) for line in block.body for text in times(line.text)]
    run.output += b"".join(text for _, text in answers)
    run.answers += [place for place, _ in answers]


def tell_end(run: Run, block: Block) -> None:
    found = END.fullmatch(block.rest)
    if not found or run.is_end_told:
        raise FormError(block.place, f"no end, or a second one: {block.head}")
    run.status, run.errors, run.is_end_told = int(found[1]), f"{found[2]}\n".encode() if found[2] else b"", True


def tell_run(case: Case, block: Block) -> None:
    """Adds what a block says of a run, which begins if there is none yet."""
    if block.word == "run":
        words = repeated(block.rest).split(" ")
        if words[0] not in PROGRAMS:
            raise FormError(block.place, f"no program {words[0]}")
        case.runs.append(Run(block.place, words))
        return
    if not case.runs:
        case.runs.append(Run(block.place, SESSION.split(" ")))
    run = case.runs[-1]
    is_bytes = block.rest == "bytes"
    if block.word in ("input", "prints") and block.rest not in ("", "bytes"):
        raise FormError(block.place, f"no text: {block.head}")
    if block.word == "ends":
        tell_end(run, block)
    elif block.word == "input":
        run.input += text_of(block, is_bytes)
    elif block.word == "prints":
        run.output += text_of(block, is_bytes)
    else:
        exchange(run, block)


def named(block: Block) -> tuple[str, bytes]:
    """The name and the text of a device or a file."""
    is_bytes = block.rest.startswith("bytes ")
    name = block.rest.removeprefix("bytes ")
    if not name or " " in name:
        raise FormError(block.place, f"no name: {block.head}")
    return name, text_of(block, is_bytes)


def tell_file(case: Case, block: Block, devices: dict[str, bytes]) -> None:
    """Adds a file of the case's folder."""
    if block.word == "on":
        if block.rest not in devices:
            raise FormError(block.place, f"no device {block.rest}")
        name, text = "device", devices[block.rest]
    elif block.word == "device":
        name, text = "device", text_of(block, block.rest == "bytes")
    else:
        name, text = named(block)
    if name in case.files:
        raise FormError(block.place, f"a second file {name}")
    case.files[name] = text


def case_of(title: Block, told: list[Block], devices: dict[str, bytes]) -> Case:
    """The case that these blocks say."""
    case = Case(title.place, title.rest)
    for block in told:
        if block.word in ("on", "device", "file"):
            tell_file(case, block, devices)
        else:
            tell_run(case, block)
    if not case.runs:
        raise FormError(title.place, "the case runs nothing")
    return case


def row_cases(title: Block, told: list[Block], devices: dict[str, bytes]) -> Iterator[Case]:
    """A case for each row of a table."""
    *above, rows = told or [title]
    if rows.word != "rows" or not rows.body:
        raise FormError(title.place, "a table ends with its rows")
    holes = set[int]().union(*(it.holes for it in (title, *above)))
    for row in rows.body:
        if holes != set(range(1, row.text.count(" => ") + 2)):
            raise FormError(row.place, f"the row has not exactly the values for {', '.join(f'${it}' for it in sorted(holes))}")
        yield case_of(title.filled(row), [it.filled(row) for it in above], devices)


def cases(file: Path) -> Iterator[Case]:
    """The cases of a file."""
    devices = {it.stem: it.read_bytes() for it in (file.parent / "devices").glob("*.toml")}
    title: Block | None = None
    told: list[Block] = []

    def ended() -> Iterator[Case]:
        if title is None:
            return
        if title.word == "case":
            yield case_of(title, told, devices)
        else:
            yield from row_cases(title, told, devices)

    for block in blocks(file):
        if block.word in ("case", "table") or block.word == "device" and block.rest not in ("", "bytes"):
            yield from ended()
            title, told = (None, []) if block.word == "device" else (block, [])
            if title is None:
                name, text = named(block)
                if name in devices:
                    raise FormError(block.place, f"a second device {name}")
                devices[name] = text
        elif title is None:
            raise FormError(block.place, f"outside a case: {block.head}")
        else:
            told.append(block)
    yield from ended()
