"""The matrix as SVG: a row is a package, a column another, and a cell what one reaches of the other."""
import re
from collections.abc import Callable, Iterable, Mapping, Sequence
from dataclasses import dataclass
from typing import Any
from xml.sax.saxutils import escape

from amctl import words_survey
from amctl.devicefile import KINDS, Kind

# colours that people tell apart who see few colours
COLOURS: Mapping[Kind, str] = {"activity": "#0072b2", "service": "#d55e00", "receiver": "#009e73"}
CELL, STRIP, LETTER, GAP = 18, 5, 6.7, 12
TOP = 118
MOST_LETTERS = 48
# nobody reads more
MOST_ROWS = 256
NOT_XML = re.compile(r"[^\t\n\r\x20-\ud7ff\ue000-\ufffd\U00010000-\U0010ffff]")
Counts = Mapping[str, tuple[int, int]]
Cells = Mapping[tuple[str, str], Counts]


@dataclass(frozen=True)
class Panel:
    """A matrix: who reaches whom is a row and a column, in this order or the other."""

    title: str
    rows: Sequence[str]
    columns: Sequence[str]
    pair: Callable[[str, str], tuple[str, str]]

    @property
    def left(self) -> float:
        return _width(self.rows) + 24

    @property
    def head(self) -> float:
        return _width(self.columns) + 30

    @property
    def width(self) -> float:
        return self.left + CELL * len(self.columns) + GAP

    @property
    def height(self) -> float:
        return self.head + CELL * len(self.rows) + 2 * GAP


def drawn(apps: Sequence[str], others: Sequence[str], answers: Iterable[Mapping[str, Any]], shown: Sequence[str], *, is_each: bool) -> str:
    """The picture; if there are too many apps for one, those that come first in `shown`."""
    cells = _cells(answers)
    if is_each:
        rows, columns = sorted(shown[:MOST_ROWS]), sorted(others)
        panels = [
            Panel(words_survey.APPS_REACH, rows, columns, lambda row, column: (row, column)),
            Panel(words_survey.REACH_APPS, rows, columns, lambda row, column: (column, row)),
        ]
        title = words_survey.title_each(len(rows), len(apps), len(others))
    else:
        names = sorted({*apps, *others})
        panels = [Panel(words_survey.ROW_REACHES, names, names, lambda row, column: (row, column))]
        title = words_survey.title(len(names))
    width = max(660, *(it.width for it in panels), GAP * 3 + len(title) * 11)
    height = TOP + sum(it.height for it in panels)
    lines = [_opening(width, height), f"<title>{_xml(title)}</title>", '<rect width="100%" height="100%" fill="#ffffff"/>', *_heading(title)]
    top: float = TOP
    for panel in panels:
        lines += _panel(panel, cells, top)
        top += panel.height
    return "\n".join([*lines, "</svg>", ""])


def _cells(answers: Iterable[Mapping[str, Any]]) -> Cells:
    """For each pair, how many components of a kind are reached, and how many there are."""
    found = {}
    for row in (row for it in answers for row in it["reach"]):
        counts = {kind: (sum(it == "reached" for _, it in verdicts), len(verdicts)) for kind, verdicts in row["verdicts"].items()}
        found[row["caller"], row["target"]] = counts
    return found


def _opening(width: float, height: float) -> str:
    size = f'width="{width:.0f}" height="{height:.0f}" viewBox="0 0 {width:.0f} {height:.0f}"'
    return f'<svg xmlns="http://www.w3.org/2000/svg" {size} font-family="DejaVu Sans Mono, Menlo, Consolas, monospace" font-size="11">'


def _heading(title: str) -> list[str]:
    """The title and the legend."""
    lines = [_text(GAP, 28, title, 'font-size="17" font-weight="bold"')]
    x: float = GAP
    for kind, colour in COLOURS.items():
        lines.append(f'<rect x="{x}" y="44" width="{STRIP}" height="{CELL - 4}" fill="{colour}"/>')
        lines.append(_text(x + 10, 55, words_survey.KINDS[kind]))
        x += 30 + LETTER * len(words_survey.KINDS[kind])
    x = GAP
    for says, style in ((words_survey.ALL, 'fill="#555555"'), (words_survey.SOME, 'fill="#555555" fill-opacity="0.4"'), (words_survey.NONE, 'fill="#eeeeee"')):
        lines.append(f'<rect x="{x:.1f}" y="70" width="{STRIP}" height="{CELL - 4}" {style}/>')
        lines.append(_text(x + 10, 81, says))
        x += 30 + LETTER * len(says)
    return lines


def _panel(panel: Panel, cells: Cells, top: float) -> list[str]:
    lines = [_text(GAP, top, panel.title, 'font-weight="bold"')]
    y0 = top + panel.head
    for index, name in enumerate(panel.columns):
        x = panel.left + CELL * index
        lines.append(_label(x + 13, y0 - 6, name, f'transform="rotate(-90 {x + 13:.1f} {y0 - 6:.1f})"'))
    lines += _grid(panel, y0)
    for number, row in enumerate(panel.rows):
        y = y0 + CELL * number
        lines.append(_label(panel.left - 8, y + 13, row, 'text-anchor="end"'))
        for index, column in enumerate(panel.columns):
            lines += _cell(panel.left + CELL * index, y, panel.pair(row, column), cells)
    return lines


def _grid(panel: Panel, top: float) -> list[str]:
    """Lines between the packages, each fifth one darker: an eye follows a row to its end by them."""
    right, bottom = panel.left + CELL * len(panel.columns), top + CELL * len(panel.rows)
    lines = []
    for number in range(len(panel.rows) + 1):
        y = top + CELL * number
        lines.append(f'<path d="M{panel.left:.1f} {y:.1f}H{right:.1f}" stroke="{_stroke(number)}"/>')
    for number in range(len(panel.columns) + 1):
        x = panel.left + CELL * number
        lines.append(f'<path d="M{x:.1f} {top:.1f}V{bottom:.1f}" stroke="{_stroke(number)}"/>')
    return lines


def _stroke(number: int) -> str:
    return "#dddddd" if number % 5 else "#999999"


def _cell(x: float, y: float, pair: tuple[str, str], cells: Cells) -> list[str]:
    if pair[0] == pair[1]:
        return [f'<rect x="{x + 1:.1f}" y="{y + 1:.1f}" width="{CELL - 2}" height="{CELL - 2}" fill="#cccccc"/>']
    counts = cells.get(pair)
    if not counts:
        return []
    strips = [_strip(x + 1.5 + STRIP * KINDS.index(kind), y, COLOURS[kind], *counts[kind]) for kind in KINDS if kind in counts]
    return [f"<g><title>{_xml(words_survey.cell(*pair, counts))}</title>{''.join(strips)}</g>"]


def _strip(x: float, y: float, colour: str, reached: int, total: int) -> str:
    fill = f'fill="{colour}"' if reached == total else f'fill="{colour}" fill-opacity="0.4"' if reached else 'fill="#eeeeee"'
    return f'<rect x="{x:.1f}" y="{y + 2:.1f}" width="{STRIP - 0.5}" height="{CELL - 4}" {fill}/>'


def _label(x: float, y: float, name: str, style: str) -> str:
    """A package's name; if it is too long, the mouse shows all of it."""
    if len(name) <= MOST_LETTERS:
        return _text(x, y, name, style)
    cut = _xml(name[: MOST_LETTERS - 1] + "…")
    return f'<text x="{x:.1f}" y="{y:.1f}" {style}><title>{_xml(name)}</title>{cut}</text>'


def _text(x: float, y: float, text: str, style: str = "") -> str:
    return f'<text x="{x:.1f}" y="{y:.1f}"{style and " " + style}>{_xml(text)}</text>'


def _width(names: Sequence[str]) -> float:
    return LETTER * min(MOST_LETTERS, max((len(it) for it in names), default=0))


def _xml(text: str) -> str:
    """The text as XML has it; what XML can't have is shown as what it is, something else."""
    return escape(NOT_XML.sub("\ufffd", text))
