"""The documents in Markdown, as the tools that check them read them: their prose, their paragraphs and their headings."""
import re
from collections.abc import Iterator
from dataclasses import dataclass
from functools import cache
from pathlib import Path

TOP = Path(__file__).resolve().parent.parent
BUILT = {"out", "node_modules"}
FENCE = re.compile(r" {0,3}(```+|~~~+)")
SPAN = re.compile(r"(?<!`)(`+)(?!`)(.+?)(?<!`)\1(?!`)", re.S)
HEADING = re.compile(r" {0,3}(#{1,6})[ \t]+(.*?)(?:[ \t]+#+)?[ \t]*$")


def is_source(file: Path) -> bool:
    return not any(part in BUILT or part.startswith(".") for part in file.relative_to(TOP).parts)


def sources(names: list[str]) -> list[Path]:
    """The files of these names, or all documents of the repository if there are none."""
    return [Path(name).resolve() for name in names] or sorted(it for it in TOP.rglob("*.md") if is_source(it))


def shown(file: Path) -> str:
    return str(file.relative_to(TOP) if file.is_relative_to(TOP) else file)


def prose(file: Path) -> list[str]:
    """The lines of a document, those of its blocks of code as empty ones."""
    found: list[str] = []
    fence = ""
    before = "blank"
    for line in file.read_text(encoding="utf-8").splitlines():
        mark = FENCE.match(line)
        if fence or mark:
            if not fence and mark:
                fence = mark[1]
            elif line.strip().startswith(fence) and not line.strip().strip(fence[0]):
                fence = ""
            before = "code"
        elif not line.strip():
            before = "code" if before == "code" else "blank"
        elif line.startswith(("    ", "\t")) and before != "text":
            before = "code"
        else:
            before = "text"
        found.append(line if before == "text" else "")
    return found


def _is_alone(line: str) -> bool:
    return line.lstrip().startswith(("|", "#"))


def paragraphs(file: Path) -> Iterator[tuple[int, str]]:
    """The paragraphs of a document, each with the number of its first line; a heading or a row of a table is one of its own."""
    together: list[str] = []
    for number, line in enumerate([*prose(file), ""], 1):
        if together and (not line or _is_alone(line) or _is_alone(together[-1])):
            yield number - len(together), "\n".join(together)
            together = []
        if line:
            together.append(line)


def without_spans(text: str) -> str:
    """The text with its spans of code blanked, as long as before."""
    return SPAN.sub(lambda it: re.sub(r"[^\n]", " ", it[0]), text)


@dataclass(frozen=True)
class Heading:
    """A heading: the number of its line, its level, its text without links, and the anchor that GitHub makes of it."""

    line: int
    level: int
    text: str
    anchor: str


@cache
def headings(file: Path) -> tuple[Heading, ...]:
    """The headings of a document; of equal anchors all but the first have a number."""
    found: list[Heading] = []
    taken: set[str] = set()
    for line, text in enumerate(prose(file), 1):
        if it := HEADING.match(text):
            plain = re.sub(r"!?\[([^\]]*)\]\([^)]*\)", r"\1", it[2])
            anchor = free_anchor(re.sub(r"[^\w\- ]", "", plain.lower()).replace(" ", "-"), taken)
            taken.add(anchor)
            found.append(Heading(line, len(it[1]), plain, anchor))
    return tuple(found)


def free_anchor(name: str, taken: set[str]) -> str:
    """The name, or with a number behind it if it is taken."""
    return next(it for it in (name, *(f"{name}-{count}" for count in range(1, len(taken) + 2))) if it not in taken)
