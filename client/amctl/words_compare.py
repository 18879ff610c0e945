"""Sentences of `amctl compare`: what is so, and what to do."""
from collections.abc import Sequence
from pathlib import Path

from amctl.words import shown

NO_SUITE = "name a suite: a file of adb's lines or of questions, or `--suite everyday`."
TWO_SUITES = "a suite is either a file or `--suite everyday`, not both."
NOT_ASKED = "nothing was asked, and nothing was changed."
UNCONFIRMED = "to go on without being asked, which needs a terminal, add `--yes`."
NOTHING_ASKED = "no question got an answer from the phone that this client knows: nothing was compared."
NOT_THERE = "it isn't in the device file: `amctl from-phone` writes one with it, if it is on the phone"
AM_LISTS = "`am` lists it"
NO_OTHER_RULES = "this `am` has no other rules"
OTHER_AGREES = "would agree"
GO_ON = "Go on? [y/N] "


def no_such_suite(name: str) -> str:
    return f"there is no suite {name} of this client's: the only one is `everyday`; a file is named without `--suite`."


def no_format(word: str, formats: Sequence[str]) -> str:
    return f"there is no format {word}: write one of {', '.join(formats)}."


def no_questions(path: Path) -> str:
    return f"{path} has no question: write adb's lines, such as `am start -a android.intent.action.VIEW -d https://a.example/`, or `[[question]]` in a file *.toml."


def bad_question(place: str, why: str) -> str:
    return f"{place}: {why}"


def not_compared(what: str) -> str:
    return (
        f"`{what}` isn't compared: write `am start`, `am broadcast`, `cmd package query-activities`, `query-services`, `query-receivers` or "
        "`resolve-activity`; `run-as PACKAGE` before the first two asks as an app."
    )


def other_mask(mask: int) -> str:
    return f"`--query-flags 0x{mask:x}` isn't compared: only 0x10000, MATCH_DEFAULT_ONLY, is."


def bad_value(key: str) -> str:
    return f"`{key}` is missing or has no value of its kind: docs/PHONE.md shows a question."


def bad_intent(keys: Sequence[str]) -> str:
    return f"`intent` has a key that isn't an intent's, among {', '.join(keys)}: docs/HTTP.md lists them."


def unknown_key(key: str, keys: Sequence[str]) -> str:
    return f"`{key}` isn't a key of a question: {', '.join(keys)} are."


def bad_ask(ask: str | None, asks: Sequence[str]) -> str:
    return f"`ask` is {ask or 'missing'}, and one of {', '.join(asks)} is wanted."


def bad_kind(kind: str | None, kinds: Sequence[str]) -> str:
    return f"`kind` is {kind}, and a query's is one of {', '.join(kinds)}; no other question has a kind."


def not_as(said: str) -> str:
    return f"the phone lets only a debuggable app be the caller ({said})"


def unknown_lines(said: str) -> str:
    return f"the phone answered in lines that this client doesn't know ({said})"


def refused_by_am(said: str) -> str:
    return f"`am` doesn't take it: {said}"


def announced(serial: str, starts: int, broadcasts: int) -> str:
    return (
        f"On {serial} this starts {_many(starts, 'activity', 'activities')} and sends {_many(broadcasts, 'broadcast', 'broadcasts')}. "
        "An app that opens is stopped by force afterwards, and what it was doing ends. What an app does when it is started or gets a broadcast "
        "can't be put back; nothing else is changed."
    )


def stopped(package: str) -> str:
    return f"stopped by force: {package}"


def outcome(way: str, components: Sequence[str], rule: str | None, permission: str | None) -> str:
    """An outcome in words."""
    named = ", ".join(shown(it) for it in components)
    if way == "refuses":
        why = f"its caller lacks {permission}" if permission else "it isn't exported" if rule == "not_exported" else "only the system may broadcast the action"
        return f"refuses {named}: {why}" if named else f"refuses: {why}"
    if way == "chooses":
        return f"the user chooses among {named}" if named else "the user chooses"
    verb = {"opens": "opens", "lists": "lists", "receives": "is received by"}.get(way)
    return f"{verb} {named}" if verb else "nothing"


def summary(asked: int, agree: int, differ: int, unasked: int) -> str:
    return f"{_many(asked, 'question', 'questions')}: {agree} agree, {differ} {'differs' if differ == 1 else 'differ'}, {unasked} not compared."


def other_order() -> str:
    return "the phone lists them in another order"


def rules_differ(rules: str, said: str) -> str:
    return f"{rules}: {said}"


def _many(number: int, one: str, more: str) -> str:
    return f"{number} {one if number == 1 else more}"
