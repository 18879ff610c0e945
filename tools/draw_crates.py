"""The picture of the crates: their groups as layers, and the way of a request through them."""
import re
import sys
from dataclasses import dataclass
from pathlib import Path

from svg import MARK, QUIET, Drawing, width_of

# what a request passes, each place with the crate that it is in
WAY = (
    ("am_tcp", "bytes come over a connection"),
    ("am_http", "a frame is cut out of them"),
    ("am_wire_routes", "its route is found"),
    ("am_wire", "its body is read as a request"),
    ("am_desk", "the call is made on a desk"),
    ("am_machine", "the manager makes one step, and keeps the call in its history"),
    ("am_live", "the live state answers, and changes"),
    ("am_wire_replies", "the reply is printed as JSON"),
)
# between which places of the way the crates of both call each other by a trait, so that neither uses the other
BY_TRAIT = {("am_tcp", "am_http")}
LEFT, RIGHT, ROW, GAP = 130, 940, 26, 8


@dataclass(frozen=True)
class Listed:
    """crates.txt: the crates of each group, and those that each crate uses."""

    groups: dict[str, list[str]]
    uses: dict[str, set[str]]


def listed(file: Path) -> Listed:
    groups: dict[str, list[str]] = {}
    uses: dict[str, set[str]] = {}
    for line in file.read_text(encoding="utf-8").splitlines():
        if line.startswith("# "):
            groups[line[2:]] = []
        elif found := re.match(r"(\w+):(.*)", line):
            groups[list(groups)[-1]].append(found[1])
            uses[found[1]] = set(found[2].split())
    return Listed(groups, uses)


def check_way(uses: dict[str, set[str]]) -> None:
    """Each place of the way has to be next to the one before it: one of the two uses the other, or a place before uses it."""
    for at, (crate, _) in enumerate(WAY[1:], 1):
        before = [name for name, _ in WAY[:at]]
        is_next = any(crate in uses[it] or it in uses[crate] for it in before)
        if not is_next and (before[-1], crate) not in BY_TRAIT:
            sys.exit(f"draw: crates.txt doesn't connect {crate} with the way of a request before it")


def crates(file: Path) -> str:
    found = listed(file)
    check_way(found.uses)
    drawing = Drawing(RIGHT + 20, "The crates in their groups, and the way of a request through them")
    numbers = {crate: str(at) for at, (crate, _) in enumerate(WAY, 1)}
    y = 14.0
    for group, names in reversed(found.groups.items()):
        y = _layer(drawing, y, group, names, numbers)
    drawing.text(LEFT, y + 16, "The way of a request: down to the live state, and back to the connection", bold=True)
    for at, (crate, what) in enumerate(WAY):
        row = y + 40 + 22 * at
        drawing.badge(LEFT + 8, row - 4, numbers[crate])
        drawing.text(LEFT + 24, row, f"{crate}: {what}")
    return drawing.written()


def _layer(drawing: Drawing, top: float, group: str, names: list[str], numbers: dict[str, str]) -> float:
    """Draws a group with its crates from left to right, and says where the next one begins."""
    x, y = float(LEFT + GAP), top + GAP
    boxes = []
    for name in names:
        width = width_of(name, 12) + (30 if name in numbers else 14)
        if x + width > RIGHT - GAP:
            x, y = float(LEFT + GAP), y + ROW + GAP
        boxes.append((x, y, width, name))
        x += width + GAP
    drawing.box(LEFT, top, RIGHT - LEFT, y + ROW + GAP - top, "#fff")
    drawing.text(LEFT - 12, top + 24, group, anchor="end", bold=True)
    for left, up, width, name in boxes:
        drawing.box(left, up, width, ROW, line=MARK if name in numbers else QUIET)
        drawing.text(left + 8, up + 17, name, 12)
        if name in numbers:
            drawing.badge(left + width - 12, up + ROW / 2, numbers[name])
    return y + ROW + 2 * GAP
