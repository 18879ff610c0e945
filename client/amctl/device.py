"""A device and the callers on it: one method for each request, in Android's words."""
import re
import tomllib
from collections.abc import Mapping, Sequence
from pathlib import Path
from types import TracebackType
from typing import Any, Literal

from amctl import results, words, words_server
from amctl.devicefile import SYSTEM, DeviceFile, Kind
from amctl.errors import AmctlError, BadWords, DeviceFault, Ended
from amctl.faults import REFUSED, ending_text
from amctl.find import find_am
from amctl.intents import Extra, Intent, IntentFilter, asked_of, texts_of
from amctl.results import Account, Advanced, Choose, Entry, Item, Placed, Sent, Service, Started, Status, Task
from amctl.transport import DONE, Answer, Ask, Pipes, Transport, Web, body_of, run_visible
from amctl.words_python import in_python

PendingKind = Literal["activity", "broadcast", "service"]
ROOT = "root"
OF_STORE = (7, 10)
NO_SUCH_PACKAGE = 12
KEY = re.compile(r"[!-~]{1,255}")


class Refusal(AmctlError):
    """The device refused a request by a rule; `name` is what the rule names, such as a permission."""

    def __init__(self, rule: str, name: str | None, status: int, sentence: str) -> None:
        super().__init__(in_python(sentence))
        self.rule = rule
        self.name = name
        self.status = status
        self.sentence = str(self)
        self._told = sentence

    @property
    def told(self) -> str:
        return self._told


class Device:
    """A simulated device: a session of its own on pipes (`open`), or a server's (`connect`). Threads may share it."""

    def __init__(self, transport: Transport, file: DeviceFile, *, am: str | Path | None = None, store: Path | None = None) -> None:
        self.file = file
        self._transport = transport
        self._am = am
        self._store = store
        self._given_keys: dict[str, str] = {}

    @classmethod
    def open(
        cls, path: str | Path, *, am: str | Path | None = None, store: str | Path | None = None, at: int = 0, step: int = 0
    ) -> "Device":
        """A session of its own. The first call is at the moment `at`, each later one `step` milliseconds after the one before it."""
        return cls.of_file(DeviceFile.read(path), am=am, store=store, at=at, step=step)

    @classmethod
    def of_file(
        cls, file: DeviceFile, *, am: str | Path | None = None, store: str | Path | None = None, at: int = 0, step: int = 0
    ) -> "Device":
        """A session of its own on a device file that was read."""
        kept = None if store is None else checked_store(Path(store))
        device = cls(Pipes(find_am(am), file.path, store=kept, at=at, step=step), file, am=am, store=kept)
        device._check()
        return device

    @classmethod
    def connect(cls, url: str, device_file: str | Path, *, user: str | None = None, ca: str | Path | None = None) -> "Device":
        """A server's device. The device file is the server's: it has the keys of the callers.

        `user` is `NAME:PASSWORD`, and `ca` a file with the certificate of the authority to trust; else AMCTL_USER and AMCTL_CA."""
        return cls(Web(url, user=user, ca=ca), DeviceFile.read(device_file))

    def __enter__(self) -> "Device":
        return self

    def __exit__(self, kind: type[BaseException] | None, error: BaseException | None, trace: TracebackType | None) -> None:
        self.close()

    def __repr__(self) -> str:
        return f"Device({str(self.file.path)!r})"

    def close(self) -> None:
        self._transport.close()

    @property
    def system(self) -> "App":
        """The system, which no gate stops."""
        return App(self, SYSTEM, self.file.system_key)

    @property
    def root(self) -> "App":
        return App(self, ROOT, self.file.root_key)

    def app(self, package: str) -> "App":
        """A package as a caller, of the device file or installed by a request."""
        if package == SYSTEM:
            return self.system
        if package not in self._given_keys and self.file.package(package) is None and not self.is_installed(package):
            raise BadWords(self._no_package(package))
        return App(self, package, self._given_keys.get(package) or self.file.key_of(package))

    def with_key(self, key: str, package: str = "a caller") -> "App":
        """A caller with a key of one's own choice; the package is only its name in sentences."""
        if key and not KEY.fullmatch(key):
            raise BadWords(words.no_key(package))
        return App(self, package, key)

    def advance(self, by: int = 0) -> Advanced:
        """Moves the moment that many milliseconds ahead, as the system; by 0, no further than any call does."""
        return self.system.advance(by)

    def visible(self, package: str, kind: Kind, intent: Intent | str, *, default_only: bool = False) -> tuple[str, ...]:
        """The components of a query that a package sees by the `queries` of its manifest, as the device file has them."""
        query = body_of(_given(kind=kind, intent=asked_of(intent).to_json(), defaultOnly=default_only or None))
        try:
            return results.components_of(run_visible(find_am(self._am), self.file.path, package, query))
        except Ended as ended:
            if ended.status == NO_SUCH_PACKAGE:
                raise BadWords(self._no_package(package)) from None
            raise self._explained(ended) from None

    def component_of(self, placed: Placed) -> str | None:
        """The component of the instance in which a start ended; the answer of a start doesn't name it."""
        instances = (it for task in self.system.tasks() for it in task.instances)
        return next((it.component for it in instances if it.instance == placed.instance), None)

    def carry(self, ask: Ask) -> Answer:
        """Carries a request as it is."""
        try:
            return self._transport.ask(ask)
        except Ended as ended:
            raise self._explained(ended) from None

    def remember(self, package: str, key: str) -> None:
        """Keeps the key of a package that was installed, for `app`."""
        self._given_keys[package] = key

    def _check(self) -> None:
        """Asks for what isn't there, which isn't a call: a file or a store that is refused shows at once, and the clock stands still."""
        try:
            self.carry(Ask("GET", "/", ""))
        except BaseException:
            # also if the user stops a program that is silent
            self.close()
            raise

    def _explained(self, ended: Ended) -> AmctlError:
        """Why the program ended, with the place if it is a fault of the file."""
        text = ending_text(self.file, ended.status, ended.line) if ended.line else str(ended)
        if ended.status == words.FILE_REFUSED:
            return DeviceFault(text, ended.line.removeprefix(REFUSED))
        of_store = f"{self._store}: " if ended.status in OF_STORE and self._store else ""
        return Ended(ended.status, ended.line, of_store + text)

    def is_installed(self, package: str) -> bool:
        """Whether this package is on the device now."""
        try:
            # this is stored nowhere and reaches nobody
            self.system.explain("service", Intent(package=package), of=package)
        except Refusal as refused:
            if refused.rule == "no_package":
                return False
            raise
        return True

    def _no_package(self, package: str) -> str:
        return words.no_package(package, self.file.nearest(package), str(self.file.path), self.file.names)


class App:
    """A caller on a device: an app, the system or the root. Its key is never shown.

    An intent is an `Intent`, or a text: a URI to view, a component `com.x/.Y`, or a package.
    """

    def __init__(self, device: Device, package: str, key: str) -> None:
        self.device = device
        self.package = package
        self._key = key

    def __repr__(self) -> str:
        return f"App({self.package!r})"

    def query(self, kind: Kind, intent: Intent | str, *, default_only: bool = False) -> tuple[str, ...]:
        """The components that an intent finds, `package/class`, by falling priority."""
        return results.components_of(self._post("/v1/query", kind=kind, intent=asked_of(intent).to_json(), defaultOnly=default_only or None))

    def explain(
        self, kind: Kind, intent: Intent | str, *, as_: str | None = None, permission: str | None = None, of: str | None = None
    ) -> tuple[Account, ...]:
        """Whom an intent would reach, and why not the others. The system may ask for another caller (`as_`)."""
        fields = {"kind": kind, "intent": asked_of(intent).to_json(), "as": as_, "permission": permission, "of": of}
        return results.accounts_of(self._post("/v1/explain", **fields))

    def start(self, intent: Intent | str, *, source: int | None = None) -> Placed | Choose:
        """Starts an activity. Without a source instance an `Intent` needs the flag NEW_TASK; a text gets it."""
        asked = asked_of(intent)
        if isinstance(intent, str) and source is None:
            asked = asked.with_flag("NEW_TASK")
        return results.placed_of(self._post("/v1/start", intent=asked.to_json(), source=source))

    def finish_activity(self, instance: int) -> None:
        self._post("/v1/finish_activity", instance=instance)

    def back(self) -> int | None:
        """Ends the instance that the user sees, and gives its number."""
        return results.finished_of(self._post("/v1/back"))

    def tasks(self) -> tuple[Task, ...]:
        """The caller's tasks from front to back, or all for the system."""
        return results.tasks_of(self._get("/v1/tasks"))

    def start_service(self, intent: Intent | str) -> Started:
        return results.started_of(self._post("/v1/start_service", intent=asked_of(intent).to_json()))

    def stop_service(self, component: str) -> None:
        self._post("/v1/stop_service", component=component)

    def services(self) -> tuple[Service, ...]:
        return results.services_of(self._get("/v1/services"))

    def send(
        self,
        intent: Intent | str,
        *,
        permission: str | None = None,
        ordered: bool = False,
        code: int | None = None,
        data: str | None = None,
        extras: Mapping[str, Extra] | None = None,
        result: bool = False,
    ) -> Sent:
        """Broadcasts an intent. The last four belong to an ordered broadcast."""
        outcome = {"code": code, "data": data, "extras": extras, "result": result or None}
        sent = self._post("/v1/send", intent=asked_of(intent).to_json(), permission=permission, ordered=ordered or None, **outcome)
        return results.sent_of(sent)

    def register(self, filter: IntentFilter, *, permission: str | None = None) -> int:
        """Registers a receiver, and gives its number."""
        return results.number_of(self._post("/v1/register", filter=filter.to_json(), permission=permission))

    def unregister(self, number: int) -> None:
        self._post("/v1/unregister", number=number)

    def inbox(self) -> tuple[Item, ...]:
        """The caller's deliveries and results, at most 64."""
        return results.items_of(self._get("/v1/inbox"))

    def finish(
        self,
        delivery: int,
        *,
        abort: bool = False,
        code: int | None = None,
        data: str | None = None,
        extras: Mapping[str, Extra] | None = None,
    ) -> None:
        """Finishes a delivery, or takes a result. With a code it sets the outcome of an ordered delivery."""
        self._post("/v1/finish", delivery=delivery, abort=abort or None, code=code, data=data, extras=extras)

    def pending_get(self, kind: PendingKind, code: int, intent: Intent | str, flags: Sequence[str]) -> int | None:
        """The token of a pending intent; None if there is none and the flags ask to make none."""
        fields = {"kind": kind, "code": code, "intent": asked_of(intent).to_json(), "flags": list(texts_of("flags", flags))}
        return results.token_of(self._post("/v1/pending/get", **fields))

    def pending_send(self, token: int, *, fill: Intent | str | None = None) -> Placed | Choose | Started | Sent:
        """Does what a token is for, as its creator."""
        return results.done_of(self._post("/v1/pending/send", token=token, fill=None if fill is None else asked_of(fill).to_json()))

    def pending_cancel(self, token: int) -> None:
        self._post("/v1/pending/cancel", token=token)

    def pending_give(self, token: int, package: str) -> None:
        self._post("/v1/pending/give", token=token, package=package)

    def install(self, manifest: str, *, key: str | None = None) -> int:
        """Installs a package by its manifest's text, and gives its uid. Without a key the client gives it one of its own."""
        name = _package_of(manifest)
        given = self.device.file.key_of(name or manifest) if key is None else key
        uid = results.uid_of(self._post("/v1/install", manifest=manifest, key=given))
        self.device.remember(name, given)
        return uid

    def uninstall(self, package: str) -> None:
        self._post("/v1/uninstall", package=package)

    def grant(self, package: str, permission: str, *, held: bool = True) -> None:
        """Gives a package a permission, or takes it."""
        self._post("/v1/grant", package=package, permission=permission, held=held)

    def link(self, package: str, host: str, *, approved: bool = True) -> None:
        """Approves a package for the web links of a host, or withdraws that."""
        self._post("/v1/link", package=package, host=host, approved=approved)

    def force_stop(self, package: str) -> None:
        self._post("/v1/force_stop", package=package)

    def tick(self) -> None:
        """Lets time pass: deadlines that are due are handled."""
        self._post("/v1/tick")

    def advance(self, by: int = 0) -> Advanced:
        """Moves the moment that many milliseconds ahead; by 0, no further than any call does."""
        return results.advanced_of(self._post("/v1/advance", by=by))

    def history(self, from_: int = 0) -> tuple[Entry, ...]:
        """The stored calls from a number on, at most 64."""
        return results.entries_of(self._post("/v1/history", **{"from": from_}))

    def status(self) -> Status:
        return results.status_of(self._get("/v1/status"))

    def _get(self, path: str) -> Mapping[str, Any]:
        return self._answer(Ask("GET", path, self._key), {})

    def _post(self, path: str, **fields: Any) -> Mapping[str, Any]:
        given = _given(**fields)
        return self._answer(Ask("POST", path, self._key, body_of(given)), given)

    def _answer(self, ask: Ask, fields: Mapping[str, Any]) -> Mapping[str, Any]:
        answer = self.device.carry(ask)
        if answer.status in DONE:
            return answer.body
        rule, name = str(answer.body.get("error")), answer.body.get("name")
        asked = words.Asked(self.package, ask.path, fields)
        sentence = words_server.FRONT.get(rule) or words.refusal(rule, name, asked).text
        raise Refusal(rule, name, answer.status, sentence)


def _given(**fields: Any) -> dict[str, Any]:
    return {name: value for name, value in fields.items() if value is not None}


def _package_of(manifest: str) -> str:
    """The package's name, or nothing if the manifest has none: then `am` says what is wrong."""
    try:
        name = tomllib.loads(manifest).get("package")
    except tomllib.TOMLDecodeError:
        return ""
    return name if isinstance(name, str) else ""


def checked_store(store: Path) -> Path:
    """The store, if it is a file or may become one."""
    if store.is_dir():
        raise BadWords(words.store_folder(str(store), str(store / "rows")))
    if not store.parent.is_dir():
        raise BadWords(words.store_nowhere(str(store), str(store.parent)))
    return store
