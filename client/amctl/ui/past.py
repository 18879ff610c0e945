"""The view History: the stored calls, made again one by one in a session of its own."""
from collections.abc import Iterator, Mapping
from dataclasses import dataclass, field
from pathlib import Path
from typing import Any

from amctl import words, words_ui
from amctl.device import Device
from amctl.devicefile import DeviceFile
from amctl.errors import BadWords
from amctl.intents import Intent
from amctl.kept import manifest_of
from amctl.results import Entry
from amctl.transport import DONE, Ask, body_of

# a session answers 65,536 requests; those that look at it, and those that move its moment, count too
MOST_REQUESTS = 60_000
# a row of the timeline is one line
MOST_SHOWN = 300
# an advance goes no further at once
MOST_ADVANCED = 2**50
READS = ("/v1/tasks", "/v1/services", "/v1/inbox", "/v1/status")
ROOT_UID, SYSTEM_UID, FIRST_UID = 0, 1000, 10000
INSTALL, ADVANCE = "/v1/install", "/v1/advance"
LOOKED_FOR = (INSTALL, "/v1/register", "/v1/send", "/v1/pending/send")
HIDDEN = "(the package's key)"


@dataclass(frozen=True)
class Reply:
    """What the replay answered: a status, and its body."""

    status: int
    body: Mapping[str, Any]

    @property
    def refused(self) -> str:
        """The rule that refused the call, or nothing."""
        return "" if self.status in DONE else str(self.body.get("error"))


@dataclass
class Keys:
    """Whose key each uid has, from the device file and the installations of the history. It stays in the gateway."""

    of_uid: dict[int, str] = field(repr=False)
    names: dict[int, str]

    @classmethod
    def of(cls, file: DeviceFile) -> "Keys":
        numbered = list(enumerate(file.packages, FIRST_UID))
        root = {ROOT_UID: file.root_key} if "root_key" in file.document else {}
        keys = {SYSTEM_UID: file.system_key, **root, **{uid: it.key for uid, it in numbered}}
        return cls(keys, {SYSTEM_UID: "android", **({ROOT_UID: "root"} if root else {}), **{uid: it.name for uid, it in numbered}})

    def name(self, uid: int) -> str:
        return self.names.get(uid, f"uid {uid}")


@dataclass(frozen=True)
class Wanted:
    """Which calls of the timeline are looked for; what is empty takes all."""

    caller: str = ""
    call: str = ""
    refused: bool = False

    def takes(self, row: Mapping[str, Any]) -> bool:
        return self.caller in ("", row["caller"]) and self.call in ("", row["call"]) and (not self.refused or bool(row["refused"]))


class Replay:
    """A session of its own in which the calls of a history are made again, each at its own moment."""

    def __init__(self, live: Device, am: Path | None) -> None:
        first = live.system.history()[:1]
        self.moment = first[0].now if first else 0
        self.device = Device.open(live.file.path, am=am, at=self.moment)
        self.keys = Keys.of(self.device.file)
        self.position = 0
        self.requests = 0
        self.rows: list[dict[str, Any]] = []
        self._last: Entry | None = None
        # only what a view looks for later is kept
        self.kept: list[Entry] = []
        self._replies: list[Reply | None] = []

    def close(self) -> None:
        self.device.close()

    @property
    def is_full(self) -> bool:
        return self.requests >= MOST_REQUESTS

    def play(self, entry: Entry) -> Reply | None:
        """Makes a call again; None if its caller's key isn't known."""
        while self.moment < entry.now:
            # what is due on the way is handled now, as the call itself would handle it
            self.advance(min(entry.now - self.moment, MOST_ADVANCED))
        key = self.keys.of_uid.get(entry.uid)
        reply = None
        # what couldn't be kept had no effect
        if key is not None and entry.kept:
            answer = self.device.carry(Ask("GET" if entry.route in READS else "POST", entry.route, key, body_of(entry.request)))
            reply = Reply(answer.status, answer.body)
            self._learn(entry, reply)
        self.position += 1
        self.requests += 1
        self._last = entry
        self.rows.append(row(entry, self.keys, "" if reply is None else reply.refused))
        if entry.route in LOOKED_FOR:
            self.kept.append(entry)
            self._replies.append(reply)
        return reply

    def advance(self, by: int) -> int | None:
        """Moves the moment ahead, and answers the earliest deadline that is left."""
        found = self.device.advance(by)
        self.requests += 1
        self.moment = found.now
        return found.due

    def kept_with(self, *routes: str) -> Iterator[tuple[Entry, Reply]]:
        """The calls of these routes with their replies, if there are any."""
        yield from ((entry, reply) for entry, reply in zip(self.kept, self._replies) if reply is not None and entry.route in routes)

    def is_of(self, live: Device) -> bool:
        """Whether the call that was made last is still in the history."""
        return self._last is None or live.system.history(self._last.at)[:1] == (self._last,)

    def follow(self, live: Device, until: int) -> None:
        """Plays on until so many calls are made, or as many as a session answers."""
        for entry in entries(live, self.position, until):
            if self.is_full:
                return
            self.play(entry)

    def _learn(self, entry: Entry, reply: Reply) -> None:
        """What a later call needs: the key of a package, and the moment to which an advance went."""
        if reply.status == 200 and entry.route == INSTALL:
            uid = int(reply.body["uid"])
            self.keys.of_uid[uid] = str(entry.request.get("key"))
            self.keys.names[uid] = _package_of(str(entry.request.get("manifest")))
        if reply.status == 200 and entry.route == ADVANCE:
            self.moment = int(reply.body["now"])


def _package_of(manifest: str) -> str:
    return str(manifest_of(manifest).get("package"))


def entries(live: Device, start: int, end: int) -> Iterator[Entry]:
    """The stored calls from a number on to another, which isn't among them."""
    while start < end:
        page = live.system.history(start)
        if not page:
            return
        yield from (it for it in page if it.at < end)
        start = page[-1].at + 1


def entry_at(live: Device, number: int) -> Entry:
    page = live.system.history(number) if number >= 0 else ()
    if not page or page[0].at != number:
        raise BadWords(words_ui.no_entry(number))
    return page[0]


def public(entry: Entry) -> dict[str, Any]:
    """A call's request without the key that an installation has."""
    return {**entry.request, "key": HIDDEN} if entry.route == INSTALL else dict(entry.request)


def row(entry: Entry, keys: Keys, refused: str) -> dict[str, Any]:
    """A line of the timeline; `refused` is the rule that refused the call, as far as it was made again."""
    name = keys.name(entry.uid)
    call = entry.route.removeprefix("/v1/")
    made = {"at": entry.at, "moment": words_ui.moment(entry.now), "caller": name, "call": call}
    return {**made, "what": _what(entry)[:MOST_SHOWN], "kept": entry.kept, "refused": refused}


def _what(entry: Entry) -> str:
    request = public(entry)
    intent = request.get("intent")
    if isinstance(intent, dict):
        return words.intent(Intent.from_json(intent))
    named = (f"{name} {value}" for name, value in request.items() if name not in ("manifest", "key") and not isinstance(value, dict))
    return ", ".join(named)


def effect(entry: Entry, reply: Reply | None) -> list[str]:
    """What a call did to packages, grants and links, in the client's own sentences."""
    if reply is None or reply.status != 200:
        return []
    given = entry.request
    package = str(given.get("package"))
    if entry.route == INSTALL:
        return [words.installed(int(reply.body["uid"]))]
    if entry.route == "/v1/grant":
        return [words.granted(package, str(given.get("permission")), bool(given.get("held")))]
    if entry.route == "/v1/link":
        return [words.linked(package, str(given.get("host")), bool(given.get("approved")))]
    if entry.route == "/v1/uninstall":
        return [words.uninstalled(package)]
    return [words.stopped(package)] if entry.route == "/v1/force_stop" else []
