"""The pictures of what a device does: where a start is placed, and how an ordered broadcast goes. `am` decides all that they show."""
import sys
import tempfile
from collections.abc import Sequence
from dataclasses import dataclass
from pathlib import Path
from typing import TypeVar

from svg import CARD, FRESH, MARK, QUIET, Drawing

TOP = Path(__file__).resolve().parent.parent
sys.path.insert(0, str(TOP / "client"))
sys.dont_write_bytecode = True

from amctl import App, Device, Intent  # noqa: E402
from amctl.results import OrderedDelivery, Placed, Result, Task  # noqa: E402

MODES = {"Single": "singleInstance", "PerTask": "singleInstancePerTask", "OnTop": "singleTop"}
ACTIVITIES = ("A", "B", "C", *MODES)
OTHER = "com.other/.Z"


@dataclass(frozen=True)
class Start:
    """A start of an activity: from the instance that the user sees if it has no NEW_TASK."""

    name: str
    flags: tuple[str, ...] = ()

    @property
    def words(self) -> str:
        return " ".join([self.name, *self.flags])


def anew(name: str, *flags: str) -> Start:
    return Start(name, ("NEW_TASK", *flags))


@dataclass(frozen=True)
class Row:
    """A row of the table in docs/PROFILE.md: the starts before, the start that is placed by it, and how it is answered."""

    definition: str
    before: tuple[Start, ...]
    start: Start
    placed: str
    words: str


ROWS = (
    Row("placed_single", (anew("Single"), anew("A")), anew("Single"), "new_intent", "the singleInstance activity that is there gets it"),
    Row("placed_single", (anew("A"),), anew("Single"), "fresh", "otherwise it gets a task of its own"),
    Row("placed_per_task", (anew("PerTask"), Start("B")), anew("PerTask"), "new_intent", "the root of its task gets it, and all above is destroyed"),
    Row("placed_per_task", (anew("A"),), anew("PerTask"), "fresh", "otherwise it is the root of a new task"),
    Row("is_multiple", (anew("A"),), anew("A", "MULTIPLE_TASK"), "fresh", "MULTIPLE_TASK makes another task"),
    Row("placed_in_maybe", (anew("Z"),), anew("A"), "fresh", "no task of its affinity is found"),
    Row("clearing_task", (anew("A"), Start("B")), anew("A", "CLEAR_TASK"), "fresh", "the task that is found is emptied"),
    Row("clearing_top", (anew("A"), Start("B"), Start("C")), Start("A", ("CLEAR_TOP", "SINGLE_TOP")), "new_intent", "what is above the instance is destroyed"),
    Row("fronting", (anew("A"), Start("B"), anew("Z")), anew("A"), "fronted", "its task comes to the front, and nothing else"),
    Row("reordering", (anew("A"), Start("B"), Start("C")), Start("B", ("REORDER_TO_FRONT",)), "new_intent", "it is moved to the top"),
    Row("on_top", (anew("A"), Start("OnTop")), Start("OnTop"), "new_intent", "it is on top, as singleTop or with SINGLE_TOP"),
    Row("or_fresh", (anew("A"),), Start("B"), "fresh", "otherwise a new instance on top"),
)
BOX, TALL, APART = 64, 20, 10
# where the columns begin
BEFORE, START, AFTER = 20, 220, 600


def device_file(folder: Path) -> Path:
    activities = ", ".join(_activity(name) for name in ACTIVITIES)
    file = folder / "device.toml"
    packages = [f'{{ key = "k", manifest = {{ package = "com.app", activity = [{activities}] }} }}']
    packages.append(f'{{ key = "o", manifest = {{ package = "com.other", activity = [{_activity("Z")}] }} }}')
    file.write_text(f'system_key = "s"\npackage = [{", ".join(packages)}]\n', encoding="utf-8")
    return file


def _activity(name: str) -> str:
    mode = f', launchMode = "{MODES[name]}"' if name in MODES else ""
    return f'{{ name = ".{name}", exported = true{mode} }}'


def started(device: Device, start: Start) -> Placed:
    """Starts it as the system, without NEW_TASK from the instance that the user sees."""
    component = OTHER if start.name == "Z" else f"com.app/.{start.name}"
    source = None if "NEW_TASK" in start.flags else device.system.tasks()[0].instances[-1].instance
    found = device.system.start(Intent(component=component, flags=start.flags), source=source)
    if not isinstance(found, Placed):
        sys.exit(f"draw: {start.words} isn't placed")
    return found


def placement(am: Path) -> str:
    drawing = Drawing(960, "Where a start is placed: the tasks before and after it, for each row of the table")
    drawing.text(BEFORE, 24, "before, the front task left", fill=QUIET)
    drawing.text(START, 24, "the start; Z is another app's", fill=QUIET)
    drawing.text(AFTER, 24, "after; blue is new, and a blue frame gets the intent", fill=QUIET)
    y = 40.0
    with tempfile.TemporaryDirectory() as folder:
        file = device_file(Path(folder))
        for row in ROWS:
            y = _row(drawing, y, row, file, am)
    return drawing.written()


def _row(drawing: Drawing, top: float, row: Row, file: Path, am: Path) -> float:
    with Device.open(file, am=am) as device:
        for it in row.before:
            started(device, it)
        before = device.system.tasks()
        placed = started(device, row.start)
        after = device.system.tasks()
    if placed.placed != row.placed:
        sys.exit(f"draw: {row.definition}: {row.start.words} is placed as {placed.placed}, and not as {row.placed}")
    tallest = max(len(task.instances) for task in (*before, *after))
    bottom = top + max(tallest * (TALL + 2), 46) + 6
    there = {it.instance for task in before for it in task.instances}
    _tasks(drawing, BEFORE, bottom, before, None, there)
    _tasks(drawing, AFTER, bottom, after, placed.instance if row.placed != "fronted" else None, there)
    drawing.text(START, bottom - 32, row.start.words, 12, bold=True)
    drawing.text(START, bottom - 16, row.definition, 12, MARK)
    drawing.text(START, bottom, row.words, 11, QUIET)
    drawing.path([(20, bottom + 12), (940, bottom + 12)], "#e3e7eb", is_arrow=False, width=1)
    return bottom + 18


def _tasks(drawing: Drawing, left: float, bottom: float, tasks: Sequence[Task], reached: int | None, there: set[int]) -> None:
    for column, task in enumerate(tasks):
        x = left + column * (BOX + APART)
        for height, it in enumerate(task.instances):
            is_fresh = it.instance not in there
            y = bottom - (height + 1) * (TALL + 2)
            drawing.box(x, y, BOX, TALL, FRESH if is_fresh else CARD, MARK if it.instance == reached else QUIET)
            drawing.text(x + BOX / 2, y + 14, it.component.rpartition(".")[2], 12, anchor="middle")


@dataclass(frozen=True)
class Turn:
    """A delivery of an ordered broadcast: whose it is, from when to when, and how it ended."""

    receiver: str
    begin: int
    end: int
    how: str


FOREGROUND_MS = 10_000
ANSWERS_AFTER_MS = 4_000


T = TypeVar("T", OrderedDelivery, Result)


def only_item(app: App, kind: type[T]) -> T:
    """What the app's inbox has, if that is one item of this kind."""
    found = app.inbox()
    if len(found) != 1 or not isinstance(found[0], kind):
        sys.exit(f"draw: the inbox of {app.package} doesn't have one {kind.__name__}")
    return found[0]


def turns(am: Path) -> list[Turn]:
    """The shop's order to the guard, which never answers, and the shop's own receiver, which does; then the result."""
    found = []
    with Device.open(TOP / "examples/orders.toml", am=am) as device:
        shop, guard = device.app("com.shop"), device.app("com.guard")
        shop.send(Intent(action="org.example.ORDER", flags=("FOREGROUND",)), ordered=True, code=1, result=True)
        first, begin = only_item(guard, OrderedDelivery), device.advance().now
        late = device.advance(FOREGROUND_MS).now
        found.append(Turn(str(first.to), begin, late, "late: it is passed over"))
        second = only_item(shop, OrderedDelivery)
        end = device.advance(ANSWERS_AFTER_MS).now
        shop.finish(second.delivery, code=2)
        found.append(Turn(str(second.to), late, end, "finishes, and sets the code 2"))
        result = only_item(shop, Result)
        if guard.inbox() or result.code != 2:
            sys.exit("draw: the guard has a delivery, or the result isn't the shop's")
        found.append(Turn("com.shop, the sender", end, end, f"the result waits for it: code {result.code}"))
    return found


def ordered(am: Path) -> str:
    found = turns(am)
    drawing = Drawing(960, "An ordered broadcast in time: one receiver at a time, each until it finishes or is late")
    left, scale = 240.0, 0.036
    drawing.text(left, 22, "moment, in milliseconds", fill=QUIET)
    for moment in sorted({it for turn in found for it in (turn.begin, turn.end)}):
        x = left + moment * scale
        drawing.text(x, 42, f"{moment:,}", 12, anchor="middle")
        drawing.path([(x, 50), (x, 64 + 44 * len(found))], "#cfd6dd", is_arrow=False, width=1)
    for at, turn in enumerate(found):
        _turn(drawing, 60 + 44 * at, turn, left, scale)
    return drawing.written()


def _turn(drawing: Drawing, y: float, turn: Turn, left: float, scale: float) -> None:
    x, width = left + turn.begin * scale, (turn.end - turn.begin) * scale
    drawing.text(left - 24, y + 17, turn.receiver, 12, anchor="end")
    if width:
        drawing.box(x, y, width, 26, FRESH, MARK)
        drawing.text(x + 8, y + 17, "has the delivery", 12)
    else:
        drawing.badge(x, y + 13, "!")
    drawing.text(x + width + 14, y + 17, turn.how, 12)
