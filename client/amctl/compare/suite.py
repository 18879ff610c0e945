"""The questions of a file: adb's lines, or tables in TOML if its name ends so."""
import shlex
import tomllib
from collections.abc import Callable, Iterator, Mapping
from dataclasses import dataclass, replace
from pathlib import Path
from typing import Any, get_args

from amctl import words_compare
from amctl.adb.intents import AskedIntent, read_intent
from amctl.adb.options import Words, number, user
from amctl.compare.everyday import link
from amctl.compare.lines import DEFAULT_ONLY, PLURALS, line_of
from amctl.compare.question import Ask, Question
from amctl.devicefile import KINDS, Kind, text_of
from amctl.errors import AmctlError, BadWords
from amctl.intents import FIELDS, Intent

TABLE = "question"
KEYS = ("ask", "as", "default_only", "intent", "kind", "name", "uri")
QUERIES: Mapping[str, Kind] = {f"query-{plural}": kind for kind, plural in zip(KINDS, (PLURALS[it] for it in KINDS))}
RESOLVE = "resolve-activity"
STARTS = ("start", "start-activity")
BROADCAST = "broadcast"
SERVICES = {"activity": "am", "package": "pm"}


def read_suite(path: Path) -> tuple[Question, ...]:
    """The questions of a file, or where it has a fault."""
    text = text_of(path)
    found = tuple(_of_tables(path, text) if path.suffix == ".toml" else _of_lines(path, text))
    if not found:
        raise BadWords(words_compare.no_questions(path))
    return found


def _of_lines(path: Path, text: str) -> Iterator[Question]:
    for at, line in enumerate(text.splitlines(), 1):
        said = line.strip()
        if said and not said.startswith("#"):
            yield _guarded(f"{path}:{at}", lambda: question_of(said))


def _guarded(place: str, read: Callable[[], Question]) -> Question:
    try:
        return read()
    except (AmctlError, ValueError) as fault:
        raise BadWords(words_compare.bad_question(place, str(fault))) from None


def question_of(line: str) -> Question:
    """What a line of adb's asks; it may begin with `adb shell`."""
    words = shlex.split(line, comments=True)
    if words[:2] == ["adb", "shell"]:
        # adb hands the words over as one line, and the phone's shell reads it again
        words = shlex.split(" ".join(words[2:]))
    caller, words = (words[1], words[2:]) if words[:1] == ["run-as"] and len(words) > 2 else (None, words)
    for service, tool in SERVICES.items():
        words = [tool, *words[2:]] if words[:2] == ["cmd", service] else words
    tool, name, rest = " ".join(words[:1]), " ".join(words[1:2]), words[2:]
    if tool == "pm" and (name in QUERIES or name == RESOLVE) and caller is None:
        return _list(line, name, Words(rest, name))
    if tool == "am" and name in (*STARTS, BROADCAST):
        return _change(line, name, Words(rest, name), caller)
    raise BadWords(words_compare.not_compared(f"{tool} {name}".rstrip()))


def _list(line: str, name: str, words: Words) -> Question:
    masks = [0]

    def take(option: str) -> bool:
        if option == "--query-flags":
            masks.append(number(words.value()))
        elif option == "--user":
            user(words.value())
        return option in ("--brief", "--components", "--query-flags", "--user")

    intent = read_intent(words, take)
    if masks[-1] & ~int(DEFAULT_ONLY, 16):
        raise BadWords(words_compare.other_mask(masks[-1]))
    kind = QUERIES.get(name, "activity")
    ask: Ask = "query" if name in QUERIES else "link"
    return Question(ask, intent.sent(kind), kind, default_only=bool(masks[-1]) and ask == "query", name=line)


def _change(line: str, command: str, words: Words, caller: str | None) -> Question:
    def take(option: str) -> bool:
        if option == "--user":
            user(words.value())
        return option in ("-W", "--user")

    intent: AskedIntent = read_intent(words, take)
    if command == BROADCAST:
        return Question("broadcast", intent.sent("receiver"), "receiver", caller, name=line)
    return Question("start", intent.sent("activity"), "activity", caller, name=line)


@dataclass(frozen=True)
class _Table:
    """A table of a suite."""

    fields: Mapping[str, Any]

    def text(self, key: str) -> str | None:
        value = self.fields.get(key)
        if value is not None and not (isinstance(value, str) and value):
            raise BadWords(words_compare.bad_value(key))
        return value

    def uri(self) -> str:
        value = self.text("uri")
        if value is None:
            raise BadWords(words_compare.bad_value("uri"))
        return value

    def intent(self) -> Intent:
        value = self.fields.get("intent")
        if not isinstance(value, dict) or not value:
            raise BadWords(words_compare.bad_value("intent"))
        if not FIELDS.issuperset(value):
            raise BadWords(words_compare.bad_intent(sorted(value)))
        try:
            return Intent.from_json(value)
        except TypeError:
            raise BadWords(words_compare.bad_intent(sorted(value))) from None

    def question(self) -> Question:
        others = sorted(set(self.fields) - set(KEYS))
        if others:
            raise BadWords(words_compare.unknown_key(others[0], KEYS))
        ask, kind, caller = self.text("ask"), self.text("kind"), self.text("as")
        known = next((it for it in get_args(Ask) if it == ask), None)
        if known is None:
            raise BadWords(words_compare.bad_ask(ask, get_args(Ask)))
        if known == "link":
            return self._named(link(self.uri()))
        of_kind = next((it for it in KINDS if it == (kind or "activity")), None)
        if of_kind is None or (kind is not None and known != "query"):
            raise BadWords(words_compare.bad_kind(kind, KINDS))
        if known != "query":
            return self._named(Question(known, self.intent(), "receiver" if known == "broadcast" else "activity", caller))
        return self._named(Question("query", self.intent(), of_kind, default_only=self.fields.get("default_only") is True))

    def _named(self, question: Question) -> Question:
        return replace(question, name=self.text("name") or line_of(question))


def _of_tables(path: Path, text: str) -> Iterator[Question]:
    try:
        tables = tomllib.loads(text).get(TABLE)
    except tomllib.TOMLDecodeError as fault:
        raise BadWords(words_compare.bad_question(str(path), str(fault))) from None
    for at, table in enumerate(tables if isinstance(tables, list) else (), 1):
        yield _guarded(f"{path}: {TABLE} {at}", lambda: _Table(table if isinstance(table, dict) else {}).question())
