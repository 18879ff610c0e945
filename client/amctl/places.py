"""Where the keys of a TOML document are, which `tomllib` doesn't say."""
import re
from bisect import bisect_right
from dataclasses import dataclass

BLANK = re.compile(r"(?:[ \t\r\n]|#[^\n]*)*")
BARE = re.compile(r"[A-Za-z0-9_-]+")
TEXTS = (
    re.compile(r'"""(?:[^\\]|\\.)*?"{3,5}', re.S),
    re.compile(r"'''.*?'{3,5}", re.S),
    re.compile(r'"(?:[^"\\]|\\.)*"'),
    re.compile(r"'[^']*'"),
)
SCALAR = re.compile(r"[^,\]}#\n]+")
ESCAPE = re.compile(r"\\(u[0-9A-Fa-f]{4}|U[0-9A-Fa-f]{8}|.)")
ESCAPED = {"b": "\b", "t": "\t", "n": "\n", "f": "\f", "r": "\r"}


@dataclass(frozen=True)
class Place:
    """A line and a column, both counted from 1."""

    line: int
    column: int

    def __str__(self) -> str:
        return f"{self.line}:{self.column}"


def places(text: str) -> dict[str, Place]:
    """The place of each key, by its path: `package[0].manifest.activity[1].name`. The document has to be valid."""
    scan = _Scan(text)
    scan.document()
    starts = [0] + [it.end() for it in re.finditer("\n", text)]
    return _as_places(scan.found, starts)


def _as_places(found: dict[str, int], starts: list[int]) -> dict[str, Place]:
    placed = {}
    for path, offset in found.items():
        line = bisect_right(starts, offset)
        placed[path] = Place(line, offset - starts[line - 1] + 1)
    return placed


def join(base: str, key: str) -> str:
    return f"{base}.{key}" if base else key


def _unescaped(found: re.Match[str]) -> str:
    code = found[1]
    return chr(int(code[1:], 16)) if code[0] in "uU" and len(code) > 1 else ESCAPED.get(code, code)


class _Scan:
    """Reads a document from front to back and notes the offset of each key."""

    def __init__(self, text: str) -> None:
        self.text = text
        self.at = 0
        self.found: dict[str, int] = {}
        self.lengths: dict[str, int] = {}

    def document(self) -> None:
        table = ""
        self.skip_blank()
        while self.at < len(self.text):
            if self.text[self.at] == "[":
                table = self.header()
            else:
                self.pair(table)
            self.skip_blank()

    def skip_blank(self) -> None:
        found = BLANK.match(self.text, self.at)
        self.at = found.end() if found else self.at

    def take(self, word: str) -> bool:
        """Whether the word is here, after spaces; if so, it is passed."""
        self.skip_blank()
        if self.text.startswith(word, self.at):
            self.at += len(word)
            return True
        return False

    def header(self) -> str:
        """The path of the table whose header is here."""
        is_array = self.text.startswith("[[", self.at)
        self.at += 2 if is_array else 1
        self.skip_blank()
        offset = self.at
        *before, last = self.keys()
        self.take("]]" if is_array else "]")
        base = ""
        for key in before:
            base = self.last_of(join(base, key))
        path = join(base, last)
        self.found.setdefault(path, offset)
        if is_array:
            self.lengths[path] = self.lengths.get(path, 0) + 1
        path = self.last_of(path)
        self.found.setdefault(path, offset)
        return path

    def last_of(self, path: str) -> str:
        """The path, or the path of its last entry if it is an array of tables."""
        length = self.lengths.get(path)
        return path if length is None else f"{path}[{length - 1}]"

    def keys(self) -> list[str]:
        found = [self.key()]
        while self.take("."):
            self.skip_blank()
            found.append(self.key())
        return found

    def key(self) -> str:
        start = self.at
        if self.text[start] in "\"'":
            self.skip_text()
            quoted = self.text[start + 1 : self.at - 1]
            return ESCAPE.sub(_unescaped, quoted) if self.text[start] == '"' else quoted
        bare = BARE.match(self.text, start)
        if bare is None:
            raise ValueError(f"no key at offset {start}")
        self.at = bare.end()
        return bare[0]

    def pair(self, table: str) -> None:
        offset = self.at
        path = table
        for key in self.keys():
            path = join(path, key)
            self.found.setdefault(path, offset)
        self.take("=")
        self.value(path)

    def value(self, path: str) -> None:
        self.skip_blank()
        first = self.text[self.at]
        if first == "[":
            self.array(path)
        elif first == "{":
            self.inline_table(path)
        elif first in "\"'":
            self.skip_text()
        else:
            scalar = SCALAR.match(self.text, self.at)
            self.at = scalar.end() if scalar else self.at + 1

    def array(self, path: str) -> None:
        self.take("[")
        index = 0
        while not self.take("]"):
            entry = f"{path}[{index}]"
            self.found.setdefault(entry, self.at)
            self.value(entry)
            self.take(",")
            index += 1

    def inline_table(self, path: str) -> None:
        self.take("{")
        while not self.take("}"):
            self.pair(path)
            self.take(",")

    def skip_text(self) -> None:
        for form in TEXTS:
            found = form.match(self.text, self.at)
            if found:
                self.at = found.end()
                return
        raise ValueError(f"no text at offset {self.at}")
