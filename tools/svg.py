"""Pictures as SVG: boxes, words and lines on white, the same bytes each time."""
from collections.abc import Sequence
from dataclasses import dataclass, field
from xml.sax.saxutils import escape

INK, QUIET, MARK, CARD, FRESH = "#1c2127", "#59636e", "#0b57d0", "#f1f4f7", "#dbe8ff"
# how wide a small letter is, in parts of the font's size, in the widest of the usual fonts
LETTER = 0.64


@dataclass
class Drawing:
    """A picture of some width, which grows downwards."""

    width: int
    title: str
    height: int = 0
    parts: list[str] = field(default_factory=list)

    def _grow(self, y: float) -> None:
        self.height = max(self.height, int(y) + 12)

    def box(self, x: float, y: float, width: float, height: float, fill: str = CARD, line: str = QUIET, dashed: bool = False) -> None:
        dashes = ' stroke-dasharray="4 3"' if dashed else ""
        self.parts.append(f'<rect x="{x:g}" y="{y:g}" width="{width:g}" height="{height:g}" rx="4" fill="{fill}" stroke="{line}"{dashes}/>')
        self._grow(y + height)

    def text(self, x: float, y: float, words: str, size: int = 13, fill: str = INK, anchor: str = "start", bold: bool = False) -> None:
        weight = ' font-weight="600"' if bold else ""
        self.parts.append(f'<text x="{x:g}" y="{y:g}" font-size="{size}" fill="{fill}" text-anchor="{anchor}"{weight}>{escape(words)}</text>')
        self._grow(y)

    def path(self, points: Sequence[tuple[float, float]], fill: str = MARK, is_arrow: bool = True, width: float = 1.5) -> None:
        place = " ".join(f"{x:g},{y:g}" for x, y in points)
        end = ' marker-end="url(#end)"' if is_arrow else ""
        self.parts.append(f'<polyline points="{place}" fill="none" stroke="{fill}" stroke-width="{width:g}"{end}/>')
        self._grow(max(y for _, y in points))

    def badge(self, x: float, y: float, words: str) -> None:
        self.parts.append(f'<circle cx="{x:g}" cy="{y:g}" r="8" fill="{MARK}"/>')
        self.text(x, y + 4, words, 11, "#fff", "middle", bold=True)

    def written(self) -> str:
        head = f'<svg xmlns="http://www.w3.org/2000/svg" viewBox="0 0 {self.width} {self.height}" width="{self.width}" height="{self.height}"'
        arrow = f'<marker id="end" viewBox="0 0 8 8" refX="7" refY="4" markerWidth="7" markerHeight="7" orient="auto"><path d="M0 0L8 4L0 8z" fill="{MARK}"/></marker>'
        lines = [
            f'{head} font-family="system-ui, sans-serif" role="img">',
            f"<title>{escape(self.title)}</title>",
            f"<defs>{arrow}</defs>",
            f'<rect width="{self.width}" height="{self.height}" fill="#fff"/>',
            *self.parts,
            "</svg>",
        ]
        return "".join(f"{it}\n" for it in lines)


def width_of(words: str, size: int = 13) -> float:
    return len(words) * size * LETTER
