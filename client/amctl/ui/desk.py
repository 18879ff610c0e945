"""What the page asks: one method for each view, all over a device. Nothing in an answer is a key."""
import threading
from collections.abc import Mapping
from contextlib import closing
from pathlib import Path
from typing import Any

from amctl import words, words_ui
from amctl.device import ROOT, Device
from amctl.devicefile import KINDS, SYSTEM, Component, components_of
from amctl.intents import Intent, IntentFilter
from amctl.kept import manifest_of
from amctl.results import Entry
from amctl.ui import ask, now, past
from amctl.ui.copies import as_one_test, copies
from amctl.ui.example import example
from amctl.ui.now import Due
from amctl.ui.past import INSTALL, Replay, Reply, Wanted, entries, entry_at, public

PAGE_LENGTH = 64
# whose deadline is which takes a copy of the device, after each call anew
MOST_COPIED = 2000
# a look at a replay asks for its tasks twice and its services once, and for the inboxes
LOOKS = 3


class Desk:
    """The page's device. One question is answered after the other: a session has one pair of pipes."""

    def __init__(self, device: Device, *, url: str | None = None, am: Path | None = None) -> None:
        self.device = device
        self._url = url
        self._am = am
        self._lock = threading.Lock()
        # one replay follows the history, the other steps back and forth in it
        self._following: Replay | None = None
        self._stepping: Replay | None = None
        self._due: Due | None = None

    @property
    def _note(self) -> str:
        """Why there is nothing to see if nobody else can make a call."""
        return words_ui.OWN_SESSION if self._url is None else ""

    def close(self) -> None:
        self._close_replays()
        self.device.close()

    def about(self) -> dict[str, Any]:
        """Whom and what the form can name, the question with which it begins, and the device's name."""
        with self._lock:
            names = self._names(self._live())
            file = self.device.file
            root = [ROOT] if "root_key" in file.document else []
            return {
                "callers": [SYSTEM, *root, *names],
                "packages": names,
                "components": [words.shown(it.component) for package in file.packages for it in package.components],
                "actions": list(dict.fromkeys(action for package in file.packages for it in package.components for filter in it.filters for action in filter.actions)),
                "example": example(file),
                "file": file.path.name,
                "url": self._url,
                "note": self._note,
            }

    def alive(self) -> dict[str, Any]:
        """Answers as long as the device does. A session of its own isn't asked: it answers at most 65,536 requests."""
        if self._url is None:
            return {"history": None}
        with self._lock:
            return {"history": self.device.system.status().history}

    def ask(self, fields: Mapping[str, Any]) -> dict[str, Any]:
        question = ask.Question.of(fields)
        with self._lock:
            if not question.changes:
                return ask.answer(self.device, question)
            with closing(self._copy()) as copy:
                for change in question.changes:
                    change.make(copy.device)
                return ask.answer(copy.device, question)

    def now(self) -> dict[str, Any]:
        with self._lock:
            status = self.device.system.status()
            replay = self._followed(status.history)
            found = now.waiting(self.device, replay.keys)
            due = self._looked_ahead(status.history, replay, now.deliveries(found))
            return {
                "moment": words_ui.last_call(status.moment, due.next) if status.history else "",
                "tasks": now.tasks(self.device),
                "broadcasts": now.broadcasts(found, _admitted(replay), due.of, status.moment),
                "results": now.outcomes(found),
                "services": now.services(self.device),
                "registered": now.registered(self.device, _registered(replay)),
                "note": words_ui.LONG_HISTORY if replay.position < status.history else "",
            }

    def history(self, start: int, wanted: Wanted) -> dict[str, Any]:
        """A page of the timeline; of a history that is too long only the calls that are made again are looked through."""
        with self._lock:
            total = self.device.system.status().history
            replay = self._followed(total)
            end = start + PAGE_LENGTH
            if wanted == Wanted():
                found = replay.rows[start:end]
                later = entries(self.device, max(start, replay.position), min(end, total))
                found_total, rows = total, [*found, *(past.row(it, replay.keys, "") for it in later)]
            else:
                taken = [it for it in replay.rows if wanted.takes(it)]
                found_total, rows = len(taken), taken[start:end]
            names = {it: sorted({str(row[it]) for row in replay.rows}) for it in ("caller", "call")}
            note = words_ui.LONG_HISTORY if replay.position < total else ""
            return {"total": found_total, "count": words_ui.stored(total, found_total), "from": start, "rows": rows, "names": names, "note": note}

    def entry(self, number: int) -> dict[str, Any]:
        """A call, made again: its reply, and what is different after it."""
        with self._lock:
            entry = entry_at(self.device, number)
            replay = self._stepped(number)
            name = replay.keys.name(entry.uid)
            before = self._lines(replay)
            is_reached = replay.position == number
            reply = replay.play(entry) if is_reached else None
            after = self._lines(replay)
            return {
                **past.row(entry, replay.keys, "" if reply is None else reply.refused),
                "request": public(entry),
                "reply": None if reply is None else {"status": reply.status, "body": dict(reply.body)},
                "note": note_on(entry, reply, is_reached),
                "changed": [*past.effect(entry, reply), *now.changed(before, after)],
                "tasks": now.tasks(replay.device),
                "copies": copies(entry, name, reply, self._url),
            }

    def test(self, number: int) -> dict[str, str]:
        """All calls up to this one as a test."""
        with self._lock:
            entry_at(self.device, number)
            with closing(Replay(self.device, self._am)) as copy:
                return {"test": as_one_test(copy, self.device, number)}

    def packages(self) -> dict[str, Any]:
        """The packages that are on the device now, with what the file says of them."""
        with self._lock:
            live, known = self._live(), self._components()
            return {"packages": [self._package(name, [_component(known.get(it), it) for it in sorted(live) if it.startswith(f"{name}/")]) for name in self._names(live)]}

    def _package(self, name: str, components: list[dict[str, Any]]) -> dict[str, Any]:
        file = self.device.file
        return {
            "name": name,
            "label": words_ui.package_line(name, [it["reach"] for it in components]),
            "components": components,
            "grants": [it.permission for it in file.grants if it.package == name],
            "links": [it.host for it in file.links if it.package == name],
        }

    def _live(self) -> set[str]:
        """The components that are on the device now."""
        return {str(it.to) for kind in KINDS for it in self.device.system.explain(kind, Intent()) if isinstance(it.to, str)}

    def _names(self, live: set[str]) -> list[str]:
        """The packages of the file and those that the history installed, as far as they are there."""
        replay = self._followed(self.device.system.status().history)
        named = [name for uid, name in replay.keys.names.items() if uid >= past.FIRST_UID]
        seen = {it.partition("/")[0] for it in live}
        # a package without components has to be asked for
        return [it for it in dict.fromkeys(named) if it in seen or self.device.is_installed(it)]

    def _components(self) -> dict[str, Component]:
        of_file = {it.component: it for package in self.device.file.packages for it in package.components}
        installed = () if self._following is None else self._following.kept
        manifests = (str(it.request.get("manifest")) for it in installed if it.route == INSTALL)
        return {**of_file, **{it.component: it for text in manifests for it in components_of(manifest_of(text))}}

    def _followed(self, until: int) -> Replay:
        if self._following is None or not self._following.is_of(self.device):
            # a server that began anew has another history
            self._close_replays()
            self._following = Replay(self.device, self._am)
        self._following.follow(self.device, until)
        return self._following

    def _close_replays(self) -> None:
        for replay in (self._following, self._stepping):
            if replay is not None:
                replay.close()
        self._following = self._stepping = None
        self._due = None

    def _stepped(self, number: int) -> Replay:
        """The replay before this call, as far as it goes."""
        is_reached = number < self._followed(number + 1).position
        # looks fill a session too: then it begins anew, unless none comes as far as this call
        if self._stepping is not None and (self._stepping.position > number or (self._stepping.is_full and is_reached)):
            self._stepping.close()
            self._stepping = None
        if self._stepping is None:
            self._stepping = Replay(self.device, self._am)
        self._stepping.follow(self.device, number)
        return self._stepping

    def _lines(self, replay: Replay) -> list[str]:
        found = now.lines(replay.device, replay.keys)
        replay.requests += len(replay.keys.of_uid) + LOOKS
        return found

    def _copy(self) -> Replay:
        """A device on which all calls of the history were made again."""
        copy = Replay(self.device, self._am)
        copy.follow(self.device, self.device.system.status().history)
        return copy

    def _looked_ahead(self, calls: int, replay: Replay, live: set[int]) -> Due:
        """The deadlines after so many calls, as a replay answers them; one that isn't whole doesn't tell."""
        if self._due is None or self._due.calls != calls:
            self._due = Due(calls) if replay.position < calls else self._deadlines(replay, live)
        return self._due

    def _deadlines(self, replay: Replay, live: set[int]) -> Due:
        first = replay.advance(0)
        if first is None or len(live) == 1:
            return Due(replay.position, first, {} if first is None else dict.fromkeys(live, first))
        if replay.position > MOST_COPIED:
            return Due(replay.position, first)
        with closing(self._copy()) as copy:
            return Due(replay.position, first, now.deadlines(copy))


def _admitted(replay: Replay) -> dict[int, list[str]]:
    """Who gets each broadcast, in the order of their turns, as the replay answered."""
    found = {}
    for _, reply in replay.kept_with("/v1/send", "/v1/pending/send"):
        if reply.status == 200 and "broadcast" in reply.body:
            admitted = [words.shown(it["to"]) for it in reply.body["receivers"] if it["verdict"] == "admitted"]
            found[int(reply.body["broadcast"])] = admitted
    return found


def _registered(replay: Replay) -> dict[int, tuple[str, IntentFilter]]:
    replies = replay.kept_with("/v1/register")
    return {int(it.body["number"]): (replay.keys.name(entry.uid), _filter_of(entry)) for entry, it in replies if it.status == 200}


def note_on(entry: Entry, reply: Reply | None, is_reached: bool = True) -> str:
    """Where a reply is from, or why there is none."""
    if reply is not None:
        return words_ui.REPLAYED
    if not entry.kept:
        return words_ui.NOT_KEPT
    return words_ui.STORED_BEFORE if is_reached else words_ui.LONG_HISTORY


def _filter_of(entry: Entry) -> IntentFilter:
    given = entry.request["filter"]
    lists = {it: tuple(given.get(it, ())) for it in ("actions", "categories", "data")}
    return IntentFilter(**lists, priority=int(given.get("priority", 0)))


def _component(found: Component | None, name: str) -> dict[str, Any]:
    if found is None:
        return {"name": words.shown(name), "kind": "", "reach": words_ui.UNKNOWN_REACH, "filters": []}
    filters = [words_ui.filter_line(it.actions, it.categories, it.data, it.priority) for it in found.filters]
    return {"name": words.shown(name), "kind": found.kind, "reach": words_ui.reach(found), "filters": filters}
