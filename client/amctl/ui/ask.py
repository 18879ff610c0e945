"""The view Ask: whom an intent would reach, what decides it and what would change it; the rest is counted by its reason."""
from collections import Counter
from collections.abc import Iterator, Mapping, Sequence
from dataclasses import dataclass
from typing import Any

from amctl import words, words_ui
from amctl.device import ROOT, Device
from amctl.devicefile import KINDS, SYSTEM, Kind
from amctl.errors import BadWords
from amctl.intents import Extra, Intent
from amctl.near import BEFORE_FILTERS, MOST, NO_FILTER, REACHED, nearest, reason_of
from amctl.options import LONG, TRUTHS, WHOLE
from amctl.results import Account
from amctl.weblinks import approvals_for
from amctl.words_reasons import is_unfound

# what the rules let come furthest is on top; what isn't here comes after all
ORDER = (
    "reached", "tied", "protected_action", "needs_permission", "receiver_lacks", "not_exported", "stopped_package", "manifest_implicit",
    "registered_only", "narrowed", "outranked", "implicit_service", "filters", "disabled", "other_package", "other_component",
)
# these passed no test of a filter
FAR = ("action", NO_FILTER, *BEFORE_FILTERS)
TEXTS = ("action", "data", "type", "package", "component")


@dataclass(frozen=True)
class Change:
    """A link that is approved, or a permission that is granted; `what` is the host or the permission."""

    change: str
    package: str
    what: str

    @classmethod
    def of(cls, fields: Any) -> "Change":
        given = fields if isinstance(fields, dict) else {}
        found = cls(*(str(given.get(it, "")) for it in ("change", "package", "what")))
        if found.change not in ("link", "grant"):
            raise BadWords(words_ui.no_change(found.change))
        return found

    @property
    def label(self) -> str:
        say = words_ui.approve if self.change == "link" else words_ui.grant
        return say(self.package, self.what)

    def make(self, device: Device) -> None:
        if self.change == "link":
            device.system.link(self.package, self.what)
        else:
            device.system.grant(self.package, self.what)

    def to_json(self) -> dict[str, str]:
        return {"change": self.change, "package": self.package, "what": self.what, "label": self.label}


@dataclass(frozen=True)
class Question:
    """What the form asks."""

    caller: str
    kind: Kind
    intent: Intent
    permission: str | None = None
    changes: tuple[Change, ...] = ()

    @classmethod
    def of(cls, fields: Mapping[str, Any]) -> "Question":
        kind = next((it for it in KINDS if it == fields.get("kind", KINDS[0])), None)
        if kind is None:
            raise BadWords(words_ui.no_kind(str(fields.get("kind"))))
        texts: dict[str, Any] = {name: str(fields.get(name) or "").strip() or None for name in TEXTS}
        categories, flags = (tuple(str(it) for it in _listed(fields, name)) for name in ("categories", "flags"))
        intent = Intent(**texts, categories=categories, flags=flags, extras=dict(_extras(_listed(fields, "extras"))))
        permission = str(fields.get("permission") or "").strip() or None
        return cls(str(fields.get("from") or SYSTEM), kind, intent, permission, tuple(map(Change.of, _listed(fields, "changes"))))


def _listed(fields: Mapping[str, Any], name: str) -> Sequence[Any]:
    found = fields.get(name)
    return found if isinstance(found, list) else ()


def _extras(rows: Sequence[Any]) -> Iterator[tuple[str, Extra]]:
    """The extras of the form; a row that is left empty is none."""
    for row in rows:
        key, sort, value = (str(row.get(it, "")) for it in ("key", "sort", "value")) if isinstance(row, dict) else ("", "", "")
        if not key and value:
            raise BadWords(words_ui.no_extra_name(value))
        if key:
            yield key, _extra(key, sort, value)


def _extra(key: str, sort: str, value: str) -> Extra:
    if sort == "number":
        if not WHOLE.fullmatch(value) or int(value) not in LONG:
            raise BadWords(words_ui.no_number(key, value))
        return int(value)
    if sort == "truth":
        if value not in TRUTHS:
            raise BadWords(words_ui.no_truth(key, value))
        return TRUTHS[value]
    return value


def answer(device: Device, question: Question) -> dict[str, Any]:
    """The verdicts in words: what decides comes first, and the others are grouped by their reason."""
    # the root asks by itself: a system that asks for another names a package
    asks = device.root if question.caller == ROOT else device.system
    as_ = None if question.caller == ROOT else question.caller
    found = asks.explain(question.kind, question.intent, as_=as_, permission=question.permission)
    about = words.About(question.caller, question.kind, question.intent, device.file)
    deciding = _deciding(found, about)
    reached, tied = (tuple(words.shown(it.to) for it in found if it.verdict == verdict) for verdict in ("reached", "tied"))
    return {
        "line": words_ui.verdict_line(reached, question.kind, tied) if found else words.none_of_kind(question.kind, None),
        "accounts": [_row(it, about) for it in deciding],
        "groups": _groups([it for it in found if it not in deciding], about),
        "changes": [it.to_json() for it in question.changes],
    }


def _deciding(found: Sequence[Account], about: words.About) -> list[Account]:
    """What is reached and what comes nearest, what the rules let come furthest on top, and no more of either than can be looked through."""
    near = nearest(found, about.kind, about.intent, about.file)
    reached, missed = ([it for it in near.accounts if (it.verdict in REACHED) == is_reached] for is_reached in (True, False))
    if near.rest:
        # on a device of many apps what asks for something else altogether tells nothing, unless there is nothing else
        missed = [it for it in missed if not _is_far(reason_of(it, about.intent), about.intent)] or ([] if reached else missed)
    return [*reached[:MOST], *sorted(missed, key=lambda it: ORDER.index(it.verdict) if it.verdict in ORDER else len(ORDER))]


def _is_far(why: str, intent: Intent) -> bool:
    return why in FAR and not is_unfound(why, intent)


def _groups(others: Sequence[Account], about: words.About) -> list[dict[str, Any]]:
    counts = Counter(reason_of(it, about.intent) for it in others).most_common()
    return [
        {"label": words_ui.group_line(count, why, about), "accounts": [_row(it, about) for it in others if reason_of(it, about.intent) == why]}
        for why, count in counts
    ]


def _row(found: Account, about: words.About) -> dict[str, Any]:
    said = words.account(found, about)
    changes: Sequence[Change] = changes_of(found, about)
    return {
        "to": words.shown(found.to),
        "reached": found.verdict == "reached",
        "says": said.says,
        "change": said.change,
        "buttons": [it.to_json() for it in changes],
    }


def changes_of(found: Account, about: words.About) -> tuple[Change, ...]:
    """What the page can try for a component on a copy of the device."""
    package = str(found.to).partition("/")[0]
    if found.verdict == "narrowed" and about.host:
        return tuple(Change("link", package, it) for it in _approvals(found, package, about)[:1])
    if found.verdict == "needs_permission" and found.name and about.caller not in (SYSTEM, ROOT):
        return (Change("grant", about.caller, found.name),)
    if found.verdict == "receiver_lacks" and found.name and isinstance(found.to, str):
        return (Change("grant", package, found.name),)
    return ()


def _approvals(found: Account, package: str, about: words.About) -> Sequence[str]:
    """The hosts by whose approval the app may get the link; a phone asks that its manifest has them."""
    if not about.file.answers_as_phone:
        return (about.host,)
    of_file = about.file.package(package)
    return approvals_for(of_file.components, about.host) if of_file and found.by != "browser" else ()
