"""Questions as adb's lines, and what adb's lines say. A text of another form gives no outcome."""
import re
import shlex
from collections.abc import Iterator

from amctl.adb.flags import number_of
from amctl.adb.intents import component_of, short
from amctl.compare.question import Outcome, Question
from amctl.intents import Intent
from amctl.phone.adb import Said

PLURALS = {"activity": "activities", "service": "services", "receiver": "receivers"}
DEFAULT_ONLY = "0x10000"
OWNER = ("--user", "0")
COMPONENT = re.compile(r"[^\s/]+/[^\s/]+")
# the activity by which the user chooses; makers of phones have their own
CHOOSER = re.compile(r".*/.*ResolverActivity")
IN_INTENT = re.compile(r"\bcmp=([^\s}]+)")
DENIED = re.compile(r"SecurityException: Permission Denial: starting Intent \{(?P<intent>.*)\} from .* (?:(?P<closed>not exported from uid)|requires (?P<permission>\S+))")
DENIED_BROADCAST = re.compile(r"SecurityException: Permission Denial: not allowed to send broadcast ")
UNRESOLVED = ("Error: Activity not started, unable to resolve", "Error: Activity class {", "Error type 3")
RESUMED = re.compile(r"ResumedActivity:? ?(?:=|:)? ?ActivityRecord\{\S+ u\d+ (\S+) ")
RECORD = re.compile(r"Historical Broadcast \S+ #\d+:$")
RECEIVER = re.compile(r"(Deliver|Timeout|Skipped|Pending|\?+)\b.* #\d+: (\(manifest\))?")
FOUND_BY_SHELL = re.compile(r"START u\d+ \{(.*)\} from uid 2000\b")


def words_of(question: Question) -> tuple[str, ...]:
    """The words for the phone's shell."""
    intent = tuple(_intent_words(question.intent))
    if question.ask == "query":
        masks = ("--query-flags", DEFAULT_ONLY) if question.default_only else ()
        return ("cmd", "package", f"query-{PLURALS[question.kind]}", "--components", *OWNER, *masks, *intent)
    if question.ask == "link":
        return ("cmd", "package", "resolve-activity", "--components", *OWNER, "--query-flags", DEFAULT_ONLY, *intent)
    command = ("am", "start", "-W") if question.ask == "start" else ("am", "broadcast")
    caller = ("run-as", question.caller) if question.caller else ()
    return (*caller, *command, *OWNER, *intent)


def line_of(question: Question) -> str:
    return shlex.join(words_of(question))


def _intent_words(intent: Intent) -> Iterator[str]:
    fields = {"-a": intent.action, "-d": intent.data, "-t": intent.type, "-i": intent.identifier}
    yield from (word for option, value in fields.items() if value is not None for word in (option, value))
    yield from (word for it in intent.categories for word in ("-c", it))
    for key, value in intent.extras.items():
        option = "--ez" if isinstance(value, bool) else "--el" if isinstance(value, int) else "--es"
        yield from (option, key, str(value).lower() if isinstance(value, bool) else str(value))
    if intent.flags:
        yield from ("-f", hex(number_of(intent.flags)))
    targets = {"-n": short(intent.component) if intent.component else None, "-p": intent.package}
    yield from (word for option, value in targets.items() if value is not None for word in (option, value))


def started(said: Said) -> Outcome | None:
    """The outcome of `am start -W`; None if the lines don't say which activity it is."""
    text = f"{said.out}\n{said.err}"
    denied = DENIED.search(text)
    if denied:
        return _denied(denied)
    if any(line.startswith(UNRESOLVED) for line in text.splitlines()):
        return Outcome("nothing")
    found = [line.removeprefix("Activity: ").strip() for line in text.splitlines() if line.startswith("Activity: ")]
    return _opened(found[-1]) if found and COMPONENT.fullmatch(found[-1]) else None


def _denied(denied: re.Match[str]) -> Outcome:
    named = IN_INTENT.search(denied["intent"])
    components = (component_of(named[1]),) if named else ()
    if denied["closed"]:
        return Outcome("refuses", components, "not_exported")
    return Outcome("refuses", components, "needs_permission", denied["permission"])


def _opened(component: str) -> Outcome:
    return Outcome("chooses") if CHOOSER.fullmatch(component) else Outcome("opens", (component_of(component),))


def resumed(said: Said) -> Outcome | None:
    """The activity that is shown, by `dumpsys activity activities`."""
    found = RESUMED.search(said.out)
    return _opened(found[1]) if found else None


def found_by_shell(said: Said) -> str | None:
    """The activity that the last start of adb's shell found, by the log; what that one started then is another's start."""
    starts = [IN_INTENT.search(it[1]) for it in FOUND_BY_SHELL.finditer(said.out)]
    return component_of(starts[-1][1]) if starts and starts[-1] else None


def listed(said: Said, kind: str) -> Outcome | None:
    """The outcome of `cmd package query-..`."""
    lines = _lines(said)
    if said.status == 0 and lines == [f"No {PLURALS[kind]} found"]:
        return Outcome("nothing")
    return Outcome("lists", tuple(map(component_of, lines))) if said.status == 0 and _are_components(lines) else None


def resolved(said: Said) -> Outcome | None:
    """The outcome of `cmd package resolve-activity`."""
    lines = _lines(said)
    if said.status == 0 and lines == ["No activity found"]:
        return Outcome("nothing")
    return _opened(lines[0]) if said.status == 0 and len(lines) == 1 and _are_components(lines) else None


def _lines(said: Said) -> list[str]:
    return [it.strip() for it in said.out.splitlines() if it.strip()]


def _are_components(lines: list[str]) -> bool:
    return bool(lines) and all(COMPONENT.fullmatch(it) for it in lines)


def is_refused_broadcast(said: Said) -> bool:
    return bool(DENIED_BROADCAST.search(f"{said.out}\n{said.err}"))


def received(said: Said, identifier: str) -> Outcome | None:
    """Which receivers of manifests got the broadcast with this identifier, by `dumpsys activity broadcasts`. Those that apps have
    registered aren't in a device file."""
    marked = f"id={identifier} "
    record = next((it for it in _records(said.out) if any(marked in line for line in it if line.startswith("Intent {"))), None)
    if record is None:
        return None
    found = tuple(_receivers(record))
    return Outcome("receives", found) if found else Outcome("nothing")


def _records(text: str) -> Iterator[list[str]]:
    """The lines of each broadcast that is over."""
    record: list[str] = []
    for line in text.splitlines():
        if RECORD.search(line):
            yield record
            record = []
        record.append(line.strip())
    yield record


def _receivers(record: list[str]) -> Iterator[str]:
    """The components that got it, in time or late: below each is its class, and then its package."""
    is_got, name = False, ""
    for line in record:
        receiver = RECEIVER.match(line)
        if receiver:
            is_got, name = receiver[1] in ("Deliver", "Timeout") and bool(receiver[2]), ""
        elif is_got and line.startswith("name="):
            name = line.removeprefix("name=")
        elif is_got and name and line.startswith("packageName="):
            yield f"{line.removeprefix('packageName=')}/{name}"
            is_got = False
