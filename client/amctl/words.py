"""Every sentence that a person reads: verdicts, reasons, refusals, faults and endings, each with what would change it."""
import difflib
import re
import shlex
from collections.abc import Mapping, Sequence
from dataclasses import dataclass, field
from datetime import datetime, timezone
from typing import TYPE_CHECKING, Any
from amctl.intents import Intent
from amctl.results import Account, Advanced, Choose, Entry, Instance, Item, OrderedDelivery, Placed, Receiver, Result, Service, Started, To
from amctl.weblinks import approvals_for
from amctl.words_reasons import change_of, reason, tests_passed
from amctl.words_reasons import host_and_path as host_and_path
from amctl.words_reasons import short as short

if TYPE_CHECKING:
    # a device file's own messages are here too
    from amctl.devicefile import Component, DeviceFile, Filter, Kind


@dataclass(frozen=True)
class Sentence:
    """What is so, and what would change it."""

    says: str
    change: str

    @property
    def text(self) -> str:
        return f"{self.says}: {self.change}." if self.change else f"{self.says}."


@dataclass(frozen=True)
class Asked:
    """Who asked what, as far as sentences name it."""

    caller: str
    path: str
    fields: Mapping[str, Any] = field(default_factory=dict)

    @property
    def intent(self) -> Mapping[str, Any]:
        found = self.fields.get("intent")
        return found if isinstance(found, dict) else {}

    @property
    def target(self) -> str:
        """What the request is about, as it names it."""
        named = self.intent.get("component") or self.fields.get("component")
        package = self.intent.get("package")
        return str(named or "the component that the intent finds" + (f" in {package}" if package else ""))

    @property
    def package(self) -> str:
        named = [str(self.fields[it]) for it in ("package", "as", "of") if it in self.fields]
        return " or ".join(named) or "that"

    @property
    def thing(self) -> str:
        """What the request names by its number."""
        found = (f"{noun} {self.fields[name]}" for name, noun in THINGS.items() if name in self.fields)
        return next(found, "what the request names")

    def places(self, name: str | None) -> dict[str, str]:
        """What the sentences below may name."""
        return {
            "caller": self.caller,
            "target": self.target,
            "owner": self.target.partition("/")[0] if "/" in self.target else str(self.intent.get("package") or "its own package"),
            "package": self.package,
            "thing": self.thing,
            "action": str(self.intent.get("action") or "no action"),
            "name": name or "",
        }


THINGS = {
    "instance": "activity instance",
    "source": "activity instance",
    "number": "registered receiver",
    "delivery": "delivery or result",
    "token": "token",
}

REFUSALS = {
    "unknown_key": Sentence("no installed package has the key of {caller}", "install the package, or name the device file that the server was started with"),
    "history_full": Sentence("the history is full (1,048,576 calls, or 536,870,912 bytes of them)", "begin a new session or server"),
    "admin_only": Sentence("only the system and the root may ask this, and {caller} is an app", "ask as the system: `device.system`, or leave out `--as`"),
    "no_package": Sentence("no installed package is called {package}", "check its name, or install it first"),
    "no_component": Sentence(
        "there is no enabled component {target} of this kind",
        "check the class in the manifest, and that it is declared as this kind and isn't `enabled = false`",
    ),
    "no_activity": Sentence("no activity gets the intent", "ask `amctl why` with the same intent: it says of each activity why not"),
    "no_service": Sentence(
        "no service gets the intent, or the service isn't running",
        "ask `amctl why --kind service` with the same intent, and `amctl services` for what runs",
    ),
    "no_instance": Sentence("there is no {thing}", "look for its number among the tasks; it may have ended"),
    "no_receiver": Sentence("there is no {thing}", "use the number that its registration answered, once"),
    "no_delivery": Sentence(
        "there is no {thing}: it never was, is finished, or was late",
        "look into the inbox again, and finish a delivery before its deadline (10 s with FOREGROUND, else 60 s)",
    ),
    "no_token": Sentence("there is no live {thing}", "ask for a pending intent first, and use the token that it answers"),
    "canceled": Sentence("{thing} was canceled, or was for one use and is used", "ask its creator for a new one"),
    "not_exported": Sentence(
        "{target} isn't exported, and {caller} is another app",
        "set `exported = true` on the component in its manifest, or ask as {owner}",
    ),
    "needs_permission": Sentence(
        "{target} asks its callers for {name}, which {caller} doesn't hold",
        "`amctl grant {caller} {name}`, or a `[[grant]]` in the device file",
    ),
    "protected_action": Sentence("only the system and the root may broadcast {action}", "send it as the system, or take it from `protected` in the device file"),
    "not_yours": Sentence("{thing} is another app's, not {caller}'s", "ask as the app whose it is"),
    "not_holder": Sentence("{caller} neither made {thing} nor was given it", "let its creator give it: `pending_give`"),
    "not_creator": Sentence("another app than {caller} made {thing}", "ask as its creator"),
    "implicit_service": Sentence("an intent for a service must say whose it is", "name a component (`-n`) or a package (`-p`) in the intent"),
    "needs_new_task": Sentence(
        "a start that no activity makes needs a task of its own",
        "add the flag NEW_TASK to the intent, or name the activity instance that starts it (`source`)",
    ),
    "mutability": Sentence("a pending intent is either mutable or immutable", "give exactly one of the flags MUTABLE and IMMUTABLE"),
    "not_ordered": Sentence(
        "{thing} isn't of an ordered broadcast, so it has no outcome and can't be aborted",
        "leave out code, data, extras and abort, or send the broadcast as ordered",
    ),
    "installed": Sentence("the package's name or key is in use", "uninstall the other first, or choose another name or key"),
    "bad_manifest": Sentence("the manifest is refused", "correct it"),
    "over_limit": Sentence("there would be too many", "take some away first"),
    "keeper_fault": Sentence("the store couldn't keep this, so nothing was done", "see that the disk has room and that the store may be written"),
    "bad_request": Sentence("the request has a value that `am` doesn't take", "correct it"),
    "no_route": Sentence("this server has no such request", "build `am` and this client from the same version"),
    "no_method": Sentence("this server takes the request by another method", "build `am` and this client from the same version"),
    "no_memory": Sentence("`am` ran out of memory", "begin a new session or server, or give the machine more memory"),
    "bad_head": Sentence("the head of the request isn't HTTP that `am` reads, so it closed the connection", "look for a key or a proxy that breaks it"),
    "head_too_large": Sentence("the head of the request has more than 8,192 bytes", "use a shorter key; a key has at most 255 characters"),
    "transfer_encoding": Sentence("the request came in chunks, which `am` doesn't read", "ask without a proxy between"),
    "length_required": Sentence("the request came without its length", "ask without a proxy between"),
    "body_too_large": Sentence("the request has more than 65,536 bytes", "shorten the intent's texts and extras, or the manifest"),
}

LIMITS = {
    "packages": Sentence("a device has at most 256 packages", "uninstall one first"),
    "grants": Sentence("a package has at most 256 grants", "revoke one first"),
    "links": Sentence("a package has at most 256 approved hosts", "take one back first: `amctl link --denied`"),
    "registered": Sentence("an app has at most 64 registered receivers", "unregister one first"),
    "broadcasts": Sentence("a sender has at most 64 live broadcasts", "let the receivers finish theirs, or take the results first"),
    "receivers": Sentence("a broadcast reaches at most 1,024 receivers", "name a package in the intent"),
    "pending": Sentence("a creator has at most 1,024 live tokens", "cancel one first"),
    "holders": Sentence("a token is given to at most 64 apps", "make a second token"),
    "extras": Sentence("an intent has at most 64 extras once it is filled in", "give fewer"),
    "tasks": Sentence("there are at most 64 tasks", "finish the activities of one first"),
    "activities": Sentence("a task has at most 64 activities", "finish one first"),
    "services": Sentence("at most 256 services run", "stop one first"),
    "moment": Sentence("the moment is at most 4,611,686,018,427,387,904 ms", "advance by less"),
    "text": Sentence("a text has at most 1,024 bytes, and a manifest of its own 65,536", "shorten it"),
    "list": Sentence("a list in it is too long (64 entries in a filter, 1,024 of protected or exempt actions)", "shorten it"),
    "filters": Sentence("a component has at most 32 filters", "merge some of them"),
    "components": Sentence("a manifest has at most 256 components", "take some out"),
}

FAULTS = {
    "missing": Sentence("`{last}` must be there and isn't", "add it to {table}"),
    "wrong_kind": Sentence("`{last}` has a value of another kind, or not of its form", "{form}"),
    "duplicate": Sentence("{name} stands twice, or its key does", "give every package a name and a key of its own, and every class its own name"),
    "exported_unstated": Sentence("{name} has a filter and doesn't state whether other apps may reach it", "add `exported = true` or `exported = false` to it"),
    "left_out": Sentence("`{last}` isn't simulated in this table", "take it out; docs/DEVICE.md lists what may stand here"),
    "bad_uri": Sentence("`{last}` isn't the scheme of a URI", "write it as in `scheme = \"https\"`, without `:` or `//`"),
    "bad_mime": Sentence("`{last}` isn't a MIME type", "write it as in `mimeType = \"image/*\"`"),
    "bad_priority": Sentence("`{last}` is out of range", "take a whole number from -2147483648 to 2147483647"),
    "not_toml": Sentence("this isn't TOML, or not in UTF-8", "correct the syntax"),
}

FORMS = {
    "system_key": "write 1 to 255 visible ASCII characters, in quotes",
    "root_key": "write 1 to 255 visible ASCII characters, in quotes",
    "key": "write 1 to 255 visible ASCII characters, in quotes",
    "package": "write a package's name, such as \"com.example\"; of a grant or a link, one of this file",
    "name": "write a class, such as \".Main\": in quotes, without `/`",
    "exported": "write `true` or `false`, without quotes",
    "enabled": "write `true` or `false`, without quotes",
    "permission": "write the permission's name in quotes",
    "launchMode": "write \"standard\", \"singleTop\", \"singleTask\", \"singleInstance\" or \"singleInstancePerTask\"; only activities have one",
    "taskAffinity": "write a text in quotes, or \"\" for none",
    "action": "write a list, such as [\"android.intent.action.VIEW\"]",
    "category": "write a list, such as [\"android.intent.category.DEFAULT\"]",
    "data": "write a list of tables, such as [{ scheme = \"https\" }]",
    "priority": "write a whole number, without quotes",
    "port": "write a whole number from 0 to 99999, without quotes",
    "host": "write a host in quotes, without `https://` and without a path",
    "intent-filter": "write a list of tables, or `[[package.manifest.activity.intent-filter]]`",
    "manifest": "write a table: `[package.manifest]`",
    "protected": "write a list of actions in quotes",
    "exempt": "write a list of actions in quotes",
    "browser": "write the name of a package in quotes",
    "rules": "write \"profile\" or \"android-12\"",
    "grant": "write tables: `[[grant]]`",
    "link": "write tables: `[[link]]`",
    "activity": "write tables: `[[package.manifest.activity]]`",
    "service": "write tables: `[[package.manifest.service]]`",
    "receiver": "write tables: `[[package.manifest.receiver]]`",
}

FIELD_FORMS = {
    "flags": "name flags without FLAG_ACTIVITY_ or FLAG_RECEIVER_: NEW_TASK, MULTIPLE_TASK, CLEAR_TASK, CLEAR_TOP, SINGLE_TOP,"
    " REORDER_TO_FRONT, REGISTERED_ONLY, FOREGROUND, NO_ABORT or INCLUDE_STOPPED; of a pending intent ONE_SHOT, NO_CREATE,"
    " CANCEL_CURRENT, UPDATE_CURRENT, IMMUTABLE or MUTABLE",
    "component": "write package/class with one slash, such as com.photos/.Album",
    "kind": "say activity, service or receiver; of a pending intent activity, broadcast or service",
    "extras": "give texts, whole numbers of 64 bits and truths",
    "categories": "give a list of texts",
    "data": "give a URI with its scheme, such as https://www.photos.example/; of a broadcast's outcome a text",
    "type": "give a MIME type, such as image/png",
    "key": "give 1 to 255 visible ASCII characters",
    "actions": "give at least one action",
    "priority": "give a whole number of 32 bits",
    "port": "give a whole number from 0 to 99999",
    "by": "give a whole number of milliseconds, from 0 to 1,125,899,906,842,624",
    "body": "give an object",
}

URI_FAULTS = {"1": "it has no scheme", "2": "its port isn't one", "3": "a `%` in its path has no two hexadecimal digits", "4": "its path isn't UTF-8"}
MIME_FAULTS = {"1": "it has no slash", "2": "a part of it is empty", "3": "it has a blank, a control character or a second slash"}
# moments from 1973 to the year 9999 are those of clocks, which begin in 1970
CLOCKS, NO_DAYS = 10**11, 253_402_300_800_000
INTENT_FLAGS = (
    *("NEW_TASK", "MULTIPLE_TASK", "CLEAR_TASK", "CLEAR_TOP", "SINGLE_TOP", "REORDER_TO_FRONT"),
    *("REGISTERED_ONLY", "FOREGROUND", "NO_ABORT", "INCLUDE_STOPPED"),
)
PENDING_FLAGS = ("ONE_SHOT", "NO_CREATE", "CANCEL_CURRENT", "UPDATE_CURRENT", "IMMUTABLE", "MUTABLE")
FLAG_PREFIX = re.compile(r"FLAG_(?:ACTIVITY_|RECEIVER_)?")
# how `am` names its rules, and begins its lines
RULE = re.compile(r"[a-z]+(?:_[a-z]+)*")
OURS = "am: "
ASK_HELP = "see the fields of this request in docs/HTTP.md"


def refusal(rule: str, name: str | None, asked: Asked) -> Sentence:
    """A refusal in words."""
    if rule == "bad_request":
        return (_wrong_flag(asked) if name == "wrong_kind flags" else None) or bad_request(name or "")
    if rule == "bad_manifest":
        found = fault(name or "")
        return Sentence(f"the manifest is refused: {found.says}", found.change)
    form = LIMITS.get(name or "", REFUSALS[rule]) if rule == "over_limit" else REFUSALS.get(rule)
    if form is None:
        return _unknown_rule(rule, name)
    return _filled(form, asked.places(name))


def _unknown_rule(rule: str, name: str | None) -> Sentence:
    """Another version of `am` refuses by other rules, and another program by none."""
    if not RULE.fullmatch(rule):
        change = "check the port and the path of the URL, or start a server by `amctl serve device.toml`"
        return Sentence(f"what answers isn't `am`: it refuses by {rule!r}", change)
    said = f"`am` refused this by a rule that this client doesn't know, {rule} {name or ''}".rstrip()
    return Sentence(said, "use the client of the same version, and check that what answers is `am`")


def _wrong_flag(asked: Asked) -> Sentence | None:
    """The first flag that isn't one, by its name."""
    of_intent = ((it, INTENT_FLAGS) for it in asked.intent.get("flags") or ())
    of_pending = ((it, PENDING_FLAGS) for it in asked.fields.get("flags") or ())
    wrong, known = next(((it, known) for it, known in (*of_intent, *of_pending) if it not in known), (None, ()))
    if wrong is None:
        return None
    bare = FLAG_PREFIX.sub("", str(wrong)).removesuffix("_PACKAGES")
    near = difflib.get_close_matches(bare, known, 1, 0.75)
    says = f"`{wrong}` isn't a flag that `am` takes"
    if not near:
        return Sentence(says, FIELD_FORMS["flags"])
    prefix = ", since flags are named without FLAG_ACTIVITY_ or FLAG_RECEIVER_" if bare != wrong else ""
    return Sentence(says, f"write {near[0]}{prefix}")


def _filled(form: Sentence, places: Mapping[str, str]) -> Sentence:
    return Sentence(form.says.format_map(places), form.change.format_map(places))


def bad_request(name: str) -> Sentence:
    """The first fault of a request's body, in words."""
    rule, _, of = name.partition(" ")
    if rule == "unknown_field":
        return Sentence(f"`{of}` isn't a field here", _unknown_field_help(of))
    if rule == "missing":
        return Sentence(f"`{of}` must be given", FIELD_FORMS.get(of, ASK_HELP))
    if rule == "wrong_kind":
        return Sentence(f"`{of}` has a value that isn't taken", FIELD_FORMS.get(of, ASK_HELP))
    if rule == "too_long":
        return Sentence(f"`{of}` is too long", "give at most 1,024 bytes of a text, 64 entries of a list, and 65,536 bytes of a manifest")
    if rule == "bad_uri":
        return Sentence(f"the data isn't a URI: {URI_FAULTS.get(of, of)}", "write it whole, as in https://www.photos.example/album")
    if rule == "bad_mime":
        return Sentence(f"the type isn't a MIME type: {MIME_FAULTS.get(of, of)}", "write it as in image/png or image/*")
    return Sentence("the request isn't JSON", "ask through this client's methods")


def _unknown_field_help(name: str) -> str:
    if name in ("code", "data", "extras", "result"):
        return f"`{name}` goes with an ordered broadcast (`ordered=True`); of a finished delivery, with its `code`"
    return "leave it out; `permission` goes with kind receiver" if name == "permission" else "leave it out"


def fault(name: str) -> Sentence:
    """The fault of a device file or a manifest, as `am` names it, in words."""
    rule, _, of = name.partition(" ")
    if rule == "over_limit" and of in LIMITS:
        return LIMITS[of]
    form = FAULTS.get(rule)
    if form is None:
        return Sentence(f"`am` refuses it by {name}", "see docs/DEVICE.md")
    path = of.rpartition(".")
    last = path[2]
    table = f"`{path[0]}`" if path[0] else "the file's top"
    key = re.sub(r"\[\d+\]$", "", last)
    return _filled(form, {"last": last, "table": table, "name": of, "form": FORMS.get(key, "see docs/DEVICE.md for its form")})


SESSION_ENDED, WORDS_REFUSED = 1, 2
FILE_REFUSED, ROWS_REFUSED, QUERY_REFUSED = 3, 10, 11
CLOSED = Sentence("the session is closed", "open the device again")

SESSION_ENDS = {
    "refused": Sentence("the session ended, because it couldn't read a request", "open the device again"),
    "cut": Sentence("the session ended in the middle of a request", "open the device again"),
    "limit": Sentence("the session ended: it answers 65,536 requests at most", "open the device again, with a store to keep what is installed"),
}

ENDINGS = {
    0: Sentence("the program ended before it answered", "check that it is this project's `am`"),
    2: Sentence("this `am` doesn't take the words of this client", "build `am` and this client from the same version"),
    3: Sentence("`am` refuses the device file", "correct it"),
    4: Sentence("`am` can't read the device file", "check its name and that it may be read"),
    5: Sentence("`am` couldn't read the requests", "open the device again"),
    6: Sentence("`am` couldn't write its answers", "open the device again"),
    7: Sentence("the store can't be opened, or isn't one", "name a file that a session made, or one that isn't there yet in a folder that may be written"),
    8: Sentence("`am` ran out of memory", "give the machine more, or open fewer devices at once"),
    9: Sentence("the port can't be listened at, or connections can't be accepted", "take another port, or leave it out to get a free one"),
    10: Sentence("a row of the store doesn't fit the device file", "take another store, or the device file that it was made with"),
    11: Sentence("`am` refuses the query", "correct it"),
    12: Sentence("the device file has no such package", "check the name after `--as`"),
}


def ending(status: int, line: str) -> Sentence:
    """How the program ended, in words."""
    said = line.removeprefix(OURS)
    if status in (SESSION_ENDED, WORDS_REFUSED) and line and not line.startswith(OURS):
        said = f"the program isn't this project's `am`, and said {line.splitlines()[0]!r}"
        return Sentence(said, "name the built `am` by --am or in the variable AM")
    _, _, named = said.partition(": ")
    if status == SESSION_ENDED:
        return SESSION_ENDS.get(named, Sentence(f"the session ended: {said}", "open the device again"))
    if status == FILE_REFUSED and named:
        found = fault(named)
        return Sentence(f"`am` refuses the device file: {found.says}", found.change)
    if status == ROWS_REFUSED and named:
        return Sentence(f"the store keeps {named} in a way that doesn't fit the device file", ENDINGS[ROWS_REFUSED].change)
    if status == QUERY_REFUSED and named:
        return bad_request(named)
    if status < 0:
        return Sentence(f"`am` was ended by signal {-status}", "open the device again")
    return ENDINGS.get(status, Sentence(f"the program ended with status {status} and said {line!r}", "check that it is this project's `am`"))


VERDICTS = {
    "reached": Sentence("reached", ""),
    "admitted": Sentence("gets it", ""),
    "other_component": Sentence("the intent names another component, {named}", "name this one (`-n {to}`), or none"),
    "other_package": Sentence("the intent names another package, {named}", "name this one (`-p {package}`), or none"),
    "disabled": Sentence("it isn't enabled", "take `enabled = false` out of its manifest"),
    "no_filter": Sentence("it has no intent filter, so only its name reaches it", "name it in the intent (`-n {to}`)"),
    "approved": Sentence("not approved for {host}, and another app is", "`amctl link {package} {host}`, or a `[[link]]` in the device file"),
    "browser": Sentence(
        "not approved for {host}, and the default browser {browser} gets the link",
        "`amctl link {package} {host}`, or `browser = \"{package}\"` in the device file",
    ),
    "general": Sentence("not approved for {host}, and no default browser is set", "`amctl link {package} {host}`, or `browser = \"{package}\"` in the device file"),
    "implicit_service": Sentence("the intent names neither a component nor a package", "name its package (`-p {package}`) or it (`-n {to}`)"),
    "outranked": Sentence("another one has a greater priority, or comes before it", "lower the other's `priority`, or name this one (`-n {to}`)"),
    "tied": Sentence("it shares the greatest priority with others, so the user would choose", "name it (`-n {to}`), or lower the others' `priority`"),
    "registered_only": Sentence("the broadcast is for registered receivers alone", "leave out the flag REGISTERED_ONLY"),
    "manifest_implicit": Sentence(
        "it stands in a manifest, and the broadcast names neither it nor its package",
        "name its package (`-p {package}`), register the receiver, or list the action in `exempt` of the device file",
    ),
    "stopped_package": Sentence("its package is stopped", "start one of its activities or services first, or set the flag INCLUDE_STOPPED"),
    "not_exported": Sentence("it isn't exported, and {caller} is another app", "set `exported = true` on it, or ask as {package}"),
    "needs_permission": Sentence("{caller} doesn't hold {name}", "`amctl grant {caller} {name}`, or a `[[grant]]` in the device file"),
    "receiver_lacks": Sentence("it doesn't hold {name}, which the sender asks for", "`amctl grant {package} {name}`, or send without the permission"),
    "protected_action": Sentence("only the system and the root may broadcast {action}", "send as the system, or take it from `protected` in the device file"),
}

# what these say by a phone's rules
BY_PHONE = {
    "approved": Sentence("another activity, which is approved for {host}, gets the link alone", "{approval}"),
    "browser": Sentence("of the browsers the device's own, {browser}, gets it alone", "{browser_change}"),
    "general": Sentence("not approved for {host}, so the link is for browsers", "{approval}"),
    "tied": Sentence("it shares the greatest priority with others that {caller} may start, so the user would choose", VERDICTS["tied"].change),
}


@dataclass(frozen=True)
class About:
    """What was asked, for the sentences on each component."""

    caller: str
    kind: "Kind"
    intent: Intent
    file: "DeviceFile"

    @property
    def host(self) -> str:
        return host_and_path(self.intent.data)[0]

    @property
    def scheme(self) -> str:
        return (self.intent.data or "").partition(":")[0]


def shown(to: To) -> str:
    """A component as adb shortens it, or a registered receiver."""
    if isinstance(to, int):
        return f"registered receiver {to}"
    package, _, name = to.partition("/")
    return f"{package}/{name.removeprefix(package)}" if name.startswith(f"{package}.") else to


def account(found: Account, about: About) -> Sentence:
    """Why an intent reaches a component or doesn't."""
    if found.verdict == "filters":
        return _filtered(found, about)
    forms = {**VERDICTS, **BY_PHONE} if about.file.answers_as_phone else VERDICTS
    form = forms.get(found.by or found.verdict)
    if form is None:
        return Sentence(f"{found.verdict}, which this client doesn't know", "use the client of the same version")
    places = _about(found.to, found.name, about)
    return _filled(form, places | _of_link(found.to, about) if found.verdict == "narrowed" else places)


def receiver(found: Receiver, about: About) -> Sentence:
    """Why a receiver gets a broadcast or doesn't."""
    return account(Account(found.to, found.verdict, found.name), about)


def _about(to: To, name: str | None, about: About) -> dict[str, str]:
    return {
        "to": shown(to),
        "package": str(to).partition("/")[0],
        "caller": about.caller,
        "named": about.intent.component or about.intent.package or "",
        "host": about.host,
        "browser": about.file.browser or "",
        "action": about.intent.action or "no action",
        "name": name or "",
    }


def _of_link(to: To, about: About) -> dict[str, str]:
    """What would have a phone open a link by an activity that its narrowing leaves out."""
    package = str(to).partition("/")[0]
    browser = f"name it (`-n {shown(to)}`)" if package == about.file.browser else f"`browser = \"{package}\"` in the device file"
    return {"approval": _approval(to, package, about), "browser_change": browser}


def _approval(to: To, package: str, about: About) -> str:
    """An approval that counts: of a host that the manifest has."""
    of_file = about.file.package(package)
    counts = approvals_for(of_file.components if of_file else (), about.host)
    if any(it.package == package and it.host.lower() in counts for it in about.file.links):
        return f"name it (`-n {shown(to)}`), or take the other's approval back: `amctl link --denied`"
    command = f"`amctl link {package} {shlex.quote(counts[0] if counts else about.host)}`"
    if of_file and not counts:
        return f"declare {about.host} in a filter of it with VIEW, BROWSABLE and {about.scheme}, and then {command}"
    needs = "" if of_file else f", which counts if a filter of it with VIEW, BROWSABLE and {about.scheme} lists the host"
    return f"{command}{needs}; of the approved apps the one installed last gets the link"


def _filtered(found: Account, about: About) -> Sentence:
    """Why none of a component's filters passes; what would change it is said of the one that comes nearest."""
    if not found.reasons:
        return _filled(VERDICTS["no_filter"], _about(found.to, None, about))
    component = about.file.component(about.kind, str(found.to))
    known: Sequence["Filter | None"] = _with_reasons(component, len(found.reasons)) if component else [None] * len(found.reasons)
    said = [reason(why, filter, about.intent) for why, filter in zip(found.reasons, known)]
    numbered = said if len(said) == 1 else [f"filter {number} {it}" for number, it in enumerate(said, 1)]
    reasons = found.reasons
    nearest = max(range(len(reasons)), key=lambda it: tests_passed(reasons[it], about.intent))
    says = f"its filter {said[0]}" if len(said) == 1 else "; ".join(numbered)
    return Sentence(says, change_of(reasons[nearest], known[nearest], about.intent))


def _with_reasons(component: "Component", count: int) -> "Sequence[Filter | None]":
    """The filters that the reasons are of: those with an action, since others aren't filters, or all if `am` gives all a reason."""
    sets = ([it for it in component.filters if it.actions], component.filters)
    return next((it for it in sets if len(it) == count), [None] * count)


PLACED = {
    "fresh": "a new instance",
    "new_intent": "the instance that is there gets the intent",
    "fronted": "its task comes to the front, and the intent isn't delivered",
}


def placed(found: Placed, component: str | None) -> str:
    """Where a start ended."""
    name = shown(component) if component else "the activity"
    return f"{name}: {PLACED.get(found.placed, found.placed)} (instance {found.instance}, task {found.task})"


def choice(found: Choose) -> str:
    """A start that ends in a choice."""
    listed = ", ".join(shown(it) for it in found.choose)
    return f"nothing was started: the user would choose among {listed}. Name one of them (`-n`), or lower the others' `priority`."


def started(found: Started) -> str:
    """What a start of a service did."""
    return f"{shown(found.component)} runs, started {_count(str(found.starts), 'time')}"


def installed(uid: int) -> str:
    return f"installed as uid {uid}, stopped until one of its activities or services is started."


def uninstalled(package: str) -> str:
    return f"{package} is removed, with its grants and links."


def granted(package: str, permission: str, held: bool) -> str:
    return f"{package} {'holds' if held else 'does not hold'} {permission}."


def linked(package: str, host: str, approved: bool) -> str:
    return f"{package} is {'' if approved else 'not '}approved for {host}."


def uncounted(package: str, host: str, near: str | None) -> str:
    return f"a phone counts this for nothing, since no filter of {package} with VIEW, BROWSABLE and http or https lists {host}: " + (
        f"approve '{near}'." if near else "add one to its manifest."
    )


def stopped(package: str) -> str:
    return f"{package} is stopped, with all that it had."


def moment(milliseconds: int) -> str:
    """A moment as a day and a time (UTC) if a clock told it, else as milliseconds."""
    if not CLOCKS <= milliseconds < NO_DAYS:
        return f"{milliseconds} ms"
    when = datetime.fromtimestamp(milliseconds / 1000, timezone.utc)
    return f"{when:%Y-%m-%d %H:%M:%S}.{milliseconds % 1000:03}"


def advanced(found: Advanced) -> str:
    """The moment, and what is due next."""
    due = "no delivery has a deadline" if found.due is None else f"the next deadline is {found.due - found.now} ms ahead, at {moment(found.due)}"
    return f"the moment is {moment(found.now)}; {due}."


NOT_KEPT = "nothing is kept of this: give --store FILE, or ask a server by --url."
NOT_KEPT_IN_STORE = "nothing is kept of this, in a store neither: ask a server by --url."
NOTHING = "nothing."
NOTHING_YET = "nothing, since a session of its own begins with none: ask a server by --url."
VISIBLE_URL = "a server isn't asked what a package sees: leave out --url, and give the device file."


def no_host(host: str) -> str:
    return f"{host or 'an empty text'} isn't a host: leave out the scheme, the port and the path, as in www.photos.example."


def none_of_kind(kind: "Kind", of: str | None) -> str:
    return f"{of or 'the device'} has no {kind}."


NO_RECEIVER = Sentence("no receiver's filter passes", "ask `amctl why --kind receiver` with the same intent: it says of each receiver why not")
NOTHING_VISIBLE = Sentence("nothing that the package sees", "name what it asks to see in the `queries` of its manifest, or check what the intent finds")


def intent(found: Intent) -> str:
    """An intent in adb's words."""
    options = {"-a": found.action, "-d": found.data, "-t": found.type, "-n": found.component, "-p": found.package}
    words = [f"{option} {value}" for option, value in options.items() if value]
    words += [f"-c {it}" for it in found.categories] + [f"-f {it}" for it in found.flags]
    words += [f"extra {key}={value}" for key, value in found.extras.items()]
    return " ".join(words) or "(empty)"


def item(found: Item) -> tuple[str, str, str]:
    """A delivery or a result: its number, its receiver, and what it is."""
    if isinstance(found, Result):
        return str(found.delivery), "the sender", f"result of broadcast {found.result}: {_outcome(found.code, found.data)}"
    so_far = f", so far {_outcome(found.code, found.data)}" if isinstance(found, OrderedDelivery) else ""
    return str(found.delivery), shown(found.to), f"broadcast {found.broadcast}: {intent(found.intent)}{so_far}"


def _outcome(code: int, data: str | None) -> str:
    return f"code {code}" + (f", data {data}" if data is not None else "")


def instance(task: int, found: Instance) -> tuple[str, str, str, str]:
    """An activity in its task."""
    return f"task {task}", f"instance {found.instance}", shown(found.component), intent(found.intent)


def service(found: Service) -> tuple[str, str, str]:
    """A running service."""
    return shown(found.component), _count(str(found.starts), "start"), intent(found.intent)


def caller_of(uid: int, file: "DeviceFile") -> str:
    """The package of a uid, as far as the device file says it."""
    if uid in (0, 1000):
        return "root" if uid == 0 else "android"
    index = uid - 10000
    return file.names[index] if 0 <= index < len(file.names) else f"uid {uid}"


def entry(found: Entry, file: "DeviceFile") -> tuple[str, str, str, str]:
    """A stored call: its number, its moment, who made it, and what it asked."""
    kept = "" if found.kept else " (not kept)"
    return str(found.at), moment(found.now), caller_of(found.uid, file), found.route.removeprefix("/v1/") + kept


SERVED = re.compile(r"^history (\d+) served (\d+)$")


def served(line: str) -> str:
    """The last line of a server, in words."""
    found = SERVED.match(line)
    if found is None:
        return line
    return f"the server ended: {_count(found[1], 'call')} in its history, {_count(found[2], 'connection')} served"


def _count(number: str, noun: str) -> str:
    return f"{number} {noun}" if number == "1" else f"{number} {noun}s"


def no_server(url: str) -> str:
    return f"nothing listens at {url}: start a server by `amctl serve device.toml`, and take the URL that it prints."


def silent_server(url: str, seconds: float) -> str:
    return f"{url} didn't answer in {seconds:.0f} seconds, and may have made the call: check that it is `am`, or give it more `--workers` if many ask at once."


def other_server(url: str) -> str:
    return f"what answers at {url} isn't `am`: check the port, or start a server by `amctl serve device.toml`."


def store_folder(store: str, example: str) -> str:
    return f"the store {store} is a folder: name a file in it, such as {example}."


def store_nowhere(store: str, folder: str) -> str:
    return f"the store {store} can't be made: make its folder by `mkdir -p {folder}`."


def no_url(url: str) -> str:
    return f"{url!r} isn't the URL of a server: write it as in http://127.0.0.1:8080."


def silent_program(seconds: float) -> str:
    return f"the program didn't answer in {seconds:.0f} seconds: check that it is this project's `am`."


OTHER_ANSWER = "the answer isn't one that this client knows: build `am` and this client from the same version."


def no_start(program: str, why: str) -> str:
    return f"{program} can't be started ({why}): name the built `am` by --am or in the environment variable AM."


def no_package(package: str, near: str | None, file: str, names: Sequence[str]) -> str:
    has = ", ".join(names) or "none"
    return f"the device has no package {package}: " + (f"did you mean {near}?" if near else f"{file} has {has}; or install it first.")


def no_key(package: str) -> str:
    return f"the key of {package} can't be sent: a key is 1 to 255 visible ASCII characters."


def no_key_in(file: str, name: str) -> str:
    return f"{file} has no `{name}`: add a line `{name} = ..` with a text of visible characters at its top."


def no_file(file: str) -> str:
    return f"there is no file {file}: check the name, or write one as docs/DEVICE.md shows."


def folder(file: str, example: str) -> str:
    return f"{file} is a folder: name a file in it, such as {example}."


def unreadable(file: str) -> str:
    return f"{file} may not be read: give yourself the right by `chmod u+r {file}`."


def not_utf8(file: str, offset: int) -> str:
    return f"{file} isn't UTF-8 (byte {offset}): save it as UTF-8."


def not_toml(where: str, what: str, shown: str) -> str:
    return f"{where}: this isn't TOML: {what}. Correct the line:\n    {shown}"


NO_AM = "the program `am` isn't found: name it by --am, in the variable AM or put it on PATH; the repository's README says how to build it."


def program(path: str, is_unproved: bool) -> str:
    return f"am: {path}, not proved: `tools/build_unproved` built it" if is_unproved else f"am: {path}"


def no_am(path: str, source: str, is_there: bool) -> str:
    what = "isn't a program that may be run" if is_there else "isn't there"
    return f"{path}, which {source} names, {what}: name the built `am`, such as crates/am/out/am."


def no_device(variable: str, usual: str) -> str:
    return f"no device file is named: give --device FILE, set {variable}, or stand in a folder with a {usual}."


NO_CALLER = "--as names nobody: give a package, or leave out --as to ask as the system."
STORE_OF_URL = "--store is for a session of its own, and --url asks a server: give the store to `amctl serve`, or leave out one of them."
NO_INTENT = "no intent is given: name a URI, a component or a package, or use -a, -d, -t, -c, -n, -p."


def no_text(word: str) -> str:
    return f"{word} isn't UTF-8: write it in UTF-8."


def os_fault(why: str, path: str | None) -> str:
    if path is None:
        return f"the answer can't be written ({why}): give standard output room."
    return f"{path} can't be used ({why}): check its name."


def usage(message: str, command: str, near: str | None) -> str:
    meant = f" Did you mean `{command} {near}`?" if near else ""
    return f"{message.rstrip('.')}.{meant} See `{command} --help`."


def given_twice(name: str, one: str, other: str) -> str:
    return f"{name} is given twice, as {one} and as {other}: leave out one of them."


def no_value(option: str, word: str) -> str:
    return f"{option} {word} has no value: write it as {option} KEY=VALUE."


def no_number(option: str, value: str) -> str:
    return f"{option} takes a whole number of 64 bits, and {value!r} isn't one: for a text use --es."


def no_truth(option: str, value: str) -> str:
    return f"{option} takes true or false, and {value!r} is neither: for a text use --es."


def not_opened(caller: str, wanted: To, why: str) -> str:
    return f"{caller}'s start didn't open {shown(wanted)}: {why}"


def opened_other(caller: str, wanted: To, got: str | None) -> str:
    return not_opened(caller, wanted, f"it opened {shown(got)}." if got else "the activity is gone.")


def not_received(caller: str, wanted: To, why: str = "") -> str:
    return f"{caller}'s broadcast didn't reach {shown(wanted)}" + (f": {why}" if why else ".")


def no_such_component(kind: "Kind", to: To) -> str:
    return f"the device has no {kind} {shown(to)}: check the class, and the kind as which it is declared."


def was_reached(caller: str, to: To, by: str | None) -> str:
    return f"{caller}'s intent reaches {shown(to)}, and shouldn't" + (f" by {by}." if by else ".")


def other_rule(caller: str, to: To, found: Sequence[str], by: str) -> str:
    return f"{caller}'s intent doesn't reach {shown(to)}, but by {' / '.join(found)} and not by {by}."


def no_device_of_test(test: str, beside: str, mark: str) -> str:
    return (
        f'no device file for {test}: put a {beside} beside the test, mark it by @pytest.mark.{mark}("file.toml"),'
        f" or write `{mark} = file.toml` in the ini file."
    )


def listening(host: str, port: int) -> str:
    return f"listening on {host}:{port}"


def stopped_by(signal: str) -> str:
    return f"stopped by {signal}"
