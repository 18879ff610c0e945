"""The fenced examples of a document."""
import re
from pathlib import Path

BLOCK = re.compile(
    r"^```(toml device|http request(?: at \d+)?|http next request|http response|toml refused|text errors)\n(.*?)^```$", re.M | re.S
)


def blocks_of(file: Path) -> list[tuple[str, str]]:
    """The blocks of the document that examples are made of, in their order: what each is, and its text."""
    return BLOCK.findall(file.read_text(encoding="utf-8"))
