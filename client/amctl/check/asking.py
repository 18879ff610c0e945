"""The sessions of a check, on copies of the device: without the app, with it, and with its web links approved."""
from collections.abc import Callable, Iterable
from dataclasses import dataclass
from pathlib import Path
from types import TracebackType
from typing import Any, Literal

from amctl import results
from amctl.device import Device
from amctl.devicefile import SYSTEM, DeviceFile, Kind
from amctl.intents import Intent
from amctl.results import Account

State = Literal["before", "after", "approved"]
STATES: tuple[State, ...] = ("before", "after", "approved")
# what a component is asked that refuses its caller
GATES = ("not_exported", "needs_permission")
# a session answers 65,536 requests; some are left for what is done apart from the questions
MOST_ASKED = 60_000
Step = Callable[[Device], object]


@dataclass(frozen=True)
class Exchange:
    """A question to `am` and its answer, on the device in one of its states."""

    state: State
    kind: Kind
    intent: Intent
    caller: str
    permission: str | None
    accounts: tuple[Account, ...]
    of: str | None = None

    def to_json(self) -> dict[str, Any]:
        body: dict[str, Any] = {"as": self.caller, "intent": self.intent.to_json(), "kind": self.kind}
        body |= {name: value for name, value in (("of", self.of), ("permission", self.permission)) if value is not None}
        return {
            "state": self.state,
            "request": {"method": "POST", "path": "/v1/explain", "body": body},
            "response": {"status": 200, "body": {"accounts": results.to_json(self.accounts)}},
        }

    @property
    def reached(self) -> tuple[str, ...]:
        return tuple(str(it.to) for it in self.accounts if it.verdict == "reached")

    def account(self, component: str) -> Account | None:
        return next((it for it in self.accounts if it.to == component), None)


@dataclass(frozen=True)
class Outcome:
    """What a start ends in: it opens a component, one refuses it, the user chooses among some, or nothing gets it."""

    way: Literal["opens", "refuses", "asks", "nothing"]
    components: tuple[str, ...] = ()

    @classmethod
    def of(cls, exchange: Exchange) -> "Outcome":
        tied = tuple(str(it.to) for it in exchange.accounts if it.verdict == "tied")
        if tied:
            return cls("asks", tied)
        # who isn't outranked and shares its rank with none is the target, whatever its gate says; several that share it and
        # refuse their caller are left out by a phone's rules, and nothing opens
        gated = tuple(str(it.to) for it in exchange.accounts if it.verdict in GATES)
        return cls("opens", exchange.reached) if exchange.reached else cls("refuses", gated) if len(gated) == 1 else cls("nothing")


class Copies:
    """The device in its states. The caller without rights is a package of the check's own, without components and grants."""

    def __init__(self, path: Path, am: Path | None, caller: str, most_asked: int = MOST_ASKED) -> None:
        self.caller = caller
        self.answers_as_phone = DeviceFile.read(path).answers_as_phone
        self._path, self._am, self._most_asked = path, am, most_asked
        self._devices: dict[State, Device] = {}
        self._asked = dict.fromkeys(STATES, 0)
        self._done: dict[State, list[Step]] = {state: [] for state in STATES}
        try:
            self._do(STATES, lambda device: device.system.install(f'package = "{caller}"\n'))
        except BaseException:
            self.close()
            raise

    def install(self, manifest: str) -> None:
        """Installs the app; a refusal is the manifest's fault."""

        def step(device: Device) -> object:
            # the key that the client gives an app may be another's here, which is a finding and no obstacle
            return device.system.install(manifest, key=device.file.key_for_new(f"{self.caller} and its app"))

        self._do(STATES[1:], step)

    def approve(self, package: str, host: str, *, approved: bool = True) -> None:
        """Approves the app for a host's links, or withdraws that: an app has at most 256 hosts at a time."""
        self._do(("approved",), lambda device: device.system.link(package, host, approved=approved))

    def ask(
        self, state: State, kind: Kind, intent: Intent, *, caller: str | None = None, permission: str | None = None, of: str | None = None
    ) -> Exchange:
        """Whom the intent would reach; without a caller, for the one without rights."""
        named = caller or self.caller
        found = self._device(state).system.explain(kind, intent, as_=named, permission=permission, of=of)
        return Exchange(state, kind, intent, named, permission, found, of)

    def _do(self, states: Iterable[State], step: Step) -> None:
        """Does something on copies, and again on those that take their place."""
        for state in states:
            step(self._device(state))
            self._done[state].append(step)

    def _device(self, state: State) -> Device:
        """The copy in this state, or a new one if it has answered almost as much as a session does."""
        self._asked[state] += 1
        if state in self._devices and self._asked[state] > self._most_asked:
            self._devices.pop(state).close()
        if state not in self._devices:
            device = self._devices[state] = Device.open(self._path, am=self._am)
            for step in self._done[state]:
                step(device)
            self._asked[state] = 1
        return self._devices[state]

    def as_system(self, exchange: Exchange) -> Exchange | None:
        """The same asked as the system, if its answer differs: only gates and protected actions tell callers apart."""
        told = (*GATES, "protected_action")
        if not any(it.verdict in told for it in exchange.accounts):
            return None
        return self.ask(exchange.state, exchange.kind, exchange.intent, caller=SYSTEM, permission=exchange.permission)

    def __enter__(self) -> "Copies":
        return self

    def __exit__(self, kind: type[BaseException] | None, error: BaseException | None, trace: TracebackType | None) -> None:
        self.close()

    def close(self) -> None:
        for device in self._devices.values():
            device.close()


def caller_name(file: DeviceFile, app: str) -> str:
    """A name for the caller without rights that no package has."""
    name = "amctl.check"
    while name in (*file.names, app):
        name += "x"
    return name
