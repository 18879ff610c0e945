"""The filters of a component.

Leaving something out never makes a filter match more: a part of a data row is left out if the filter has others of its
sort, and else the whole filter is.
"""
from collections.abc import Callable, Iterable
from dataclasses import dataclass, field
from typing import Any, TypeVar

from amctl.apps import sayable
from amctl.apps.elements import Element
from amctl.apps.sayable import Unsayable
from amctl.apps.told import Place, quoted
from amctl.apps.unsaid import tell_attributes, tell_children

Sayable = TypeVar("Sayable")
Form = Callable[[str | None], Sayable]
Row = dict[str, Any]

LIST_LIMIT = 64
FILTER_LIMIT = 32
CARRIED = ("action", "category", "data")

ROW_FORMS: dict[str, Form[Any]] = {
    "scheme": sayable.scheme,
    "host": sayable.text,
    "port": sayable.port,
    "path": sayable.text,
    "pathPrefix": sayable.text,
    "pathSuffix": sayable.text,
    "pathPattern": sayable.text,
    "mimeType": sayable.mime_type,
}
UNSAID = ("ssp", "sspPrefix", "sspSuffix", "sspPattern", "sspAdvancedPattern", "pathAdvancedPattern", "mimeGroup")
AUTHORITY = "host or scheme-specific part"
SORTS = {
    "scheme": "scheme",
    "host": AUTHORITY,
    "mimeType": "type",
    "mimeGroup": "type",
    "path": "path",
    "pathPrefix": "path",
    "pathSuffix": "path",
    "pathPattern": "path",
    "pathAdvancedPattern": "path",
    "ssp": AUTHORITY,
    "sspPrefix": AUTHORITY,
    "sspSuffix": AUTHORITY,
    "sspPattern": AUTHORITY,
    "sspAdvancedPattern": AUTHORITY,
}


@dataclass
class Filter:
    """A filter as a device file has it."""

    actions: list[str]
    categories: list[str]
    priority: int = 0
    rows: list[Row] = field(default_factory=list)


def few(items: Iterable[str], limit: int, what: str, place: Place) -> list[str]:
    """The first of these, each once and at most so many."""
    apart = list(dict.fromkeys(items))
    if len(apart) > limit:
        place.left_out(f"{len(apart) - limit} of the {len(apart)} {what}", f"over {limit}")
    return apart[:limit]


def names_in(element: Element, tag: str, plural: str, form: Form[str], where: str, place: Place) -> list[str]:
    """What the children of this tag name."""
    found = []
    for child in element.all(tag):
        value = child.get("name")
        try:
            found.append(form(value))
        except Unsayable as why:
            place.left_out(f"{tag} {quoted(value or '')}{where}", why)
    return few(found, LIST_LIMIT, f"{plural}{where}", place)


def row_of(element: Element, where: str, place: Place) -> Row:
    """A data row: what of it can be said. A port that can't be said takes its host with it."""
    row: Row = {}
    for key, form in ROW_FORMS.items():
        value = element.get(key)
        if value is None:
            continue
        try:
            row[key] = form(value)
        except Unsayable as why:
            host = row.pop("host", None) if key == "port" else None
            what = f"{key} {quoted(value)}" if host is None else f"host {quoted(host)} with {key} {quoted(value)}"
            place.left_out(f"{what}{where}", why)
    for key in UNSAID:
        value = element.get(key)
        if value is not None:
            place.left_out(f"{key} {quoted(value)}{where}", f"a device file has no {key}")
    return row


def sorts(keys: Iterable[str]) -> set[str]:
    return {SORTS[key] for key in keys if key in SORTS}


def rows_of(element: Element, where: str, place: Place) -> list[Row] | None:
    """The data rows of a filter; none if what can be said would match more than what is written."""
    written = [child.attributes for child in element.all("data")]
    said = [row for row in (row_of(child, where, place) for child in element.all("data")) if row]
    apart = [dict(pairs) for pairs in dict.fromkeys(tuple(row.items()) for row in said)]
    if len(apart) > LIST_LIMIT:
        place.left_out(f"{len(apart) - LIST_LIMIT} of the {len(apart)} data rows{where}", f"over {LIST_LIMIT}")
    kept = apart[:LIST_LIMIT]
    missing = sorts(key for row in written for key in row) - sorts(key for row in kept for key in row)
    if missing:
        place.left_out(where.removeprefix(" of "), f"without any {' and '.join(sorted(missing))} it would match more")
        return None
    return kept


def priority_of(element: Element, where: str, place: Place) -> int:
    value = element.get("priority")
    if value is None:
        return 0
    try:
        return sayable.number_of_32_bits(value)
    except Unsayable as why:
        place.left_out(f"priority {quoted(value)}{where}", why)
        return 0


def filter_of(element: Element, number: int, place: Place) -> Filter | None:
    """A filter, or none if it can't be said."""
    where = f" of intent-filter {number}"
    if element.all("uri-relative-filter-group"):
        place.left_out(f"intent-filter {number}", "a device file has no uri-relative-filter-group")
        return None
    tell_attributes(element, place, where)
    tell_children(element, CARRIED, place, where)
    for child in element.all(*CARRIED):
        tell_attributes(child, place, where)
    actions = names_in(element, "action", "actions", sayable.text, where, place)
    categories = names_in(element, "category", "categories", sayable.text, where, place)
    priority = priority_of(element, where, place)
    rows = rows_of(element, where, place)
    if rows is None:
        return None
    if not actions:
        place.left_out(f"intent-filter {number}", "it has no action")
        return None
    return Filter(actions, categories, priority, rows)


def filters_of(element: Element, place: Place) -> list[Filter]:
    """The filters of a component."""
    elements = enumerate(element.all("intent-filter"), 1)
    found = [(number, read) for number, child in elements if (read := filter_of(child, number, place)) is not None]
    for number, _ in found[FILTER_LIMIT:]:
        place.left_out(f"intent-filter {number}", f"over {FILTER_LIMIT} filters")
    return [read for _, read in found[:FILTER_LIMIT]]
