"""Tables: rich's on a terminal, and plain text otherwise."""
import json
import sys
from collections.abc import Iterable, Sequence
from typing import Any, TextIO

from amctl.results import Account
from amctl.words import About, account, shown

Row = Sequence[str]


def show_json(value: Any) -> None:
    """A reply as `am` writes it."""
    print(json.dumps(value, sort_keys=True, ensure_ascii=False, separators=(",", ":")))


def show_table(columns: Row, rows: Iterable[Row], out: TextIO | None = None) -> None:
    out = out or sys.stdout
    if out.isatty():
        _rich_table(columns, rows, out)
    else:
        print("\n".join(plain_lines(rows)), file=out)


def plain_lines(rows: Iterable[Row]) -> list[str]:
    """The rows with their columns below one another, in a form that `grep` and a test's failure take."""
    listed = [tuple(row) for row in rows]
    widths = [max(len(cell) for cell in column) for column in zip(*listed)]
    return ["  ".join(cell.ljust(width) for cell, width in zip(row, widths)).rstrip() for row in listed]


def _rich_table(columns: Row, rows: Iterable[Row], out: TextIO) -> None:
    # a pipe never pays for what a terminal shows
    from rich.console import Console
    from rich.table import Table
    from rich.text import Text

    table = Table(show_lines=False)
    for column in columns:
        table.add_column(column, overflow="fold")
    for row in rows:
        table.add_row(*(Text(cell) for cell in row))
    Console(file=out).print(table)


ACCOUNT_COLUMNS = ("component", "reached?", "what would change it")


def account_rows(accounts: Iterable[Account], about: About) -> list[tuple[str, str, str]]:
    """A row for each component: whether it is reached, and what would change it."""
    said = [(shown(it.to), account(it, about)) for it in accounts]
    return [(name, it.says, it.change) for name, it in said]


def show_accounts(rows: Sequence[tuple[str, str, str]]) -> None:
    if sys.stdout.isatty():
        show_table(ACCOUNT_COLUMNS, rows)
    else:
        print("\n".join(account_lines(rows)))


def account_lines(rows: Sequence[tuple[str, str, str]]) -> list[str]:
    """The accounts as plain text, what would change each on a line of its own."""
    width = max((len(name) for name, _, _ in rows), default=0)
    lines = []
    for name, says, change in rows:
        lines.append(f"{name.ljust(width)}  {says}")
        if change:
            lines.append(f"{' ' * width}  -> {change}")
    return lines
