"""What a device is asked: who reaches whom by name, and who claims a link."""
from collections.abc import Iterable, Sequence
from dataclasses import dataclass, field
from pathlib import Path
from types import TracebackType
from typing import Any

from amctl.device import Device, Refusal
from amctl.devicefile import Component, DeviceFile, Kind
from amctl.intents import Intent
from amctl.results import Account
from amctl.survey import links
from amctl.survey.made import opened, parsed

# a session answers 65,536 requests
MOST_ASKED = 60_000
# how `am` refuses a question with a text that is too long or that no intent can have, though a manifest has it
UNFIT = ("bad_request", "over_limit")
UNASKED = "unasked"
# the verdicts on those that don't take a link at all
NO_CLAIM = ("filters", "disabled", "other_component", "other_package")


@dataclass
class Copy:
    """A session on a device, and another one once it has answered almost as much as a session does."""

    text: str
    am: Path | None
    most_asked: int = MOST_ASKED
    _asked: int = 0
    _device: Device | None = None
    file: DeviceFile = field(init=False)

    def __post_init__(self) -> None:
        self.file = parsed(self.text)

    def explain(self, kind: Kind, intent: Intent, *, caller: str | None = None, of: str | None = None) -> tuple[Account, ...]:
        return self._session().system.explain(kind, intent, as_=caller, of=of)

    def _session(self) -> Device:
        if self._device is not None and self._asked >= self.most_asked:
            self.close()
        if self._device is None:
            self._device, self._asked = opened(self.text, self.am), 0
        self._asked += 1
        return self._device

    def close(self) -> None:
        if self._device is not None:
            self._device.close()
        self._device = None

    def __enter__(self) -> "Copy":
        return self

    def __exit__(self, kind: type[BaseException] | None, error: BaseException | None, trace: TracebackType | None) -> None:
        self.close()


class Sessions:
    """The session that is open: the next job on the same device goes on with it, since questions change nothing."""

    def __init__(self) -> None:
        self._copy: Copy | None = None

    def on(self, text: str, am: Path | None) -> Copy:
        if self._copy is None or (self._copy.text, self._copy.am) != (text, am):
            self.close()
            self._copy = Copy(text, am)
        return self._copy

    def close(self) -> None:
        if self._copy is not None:
            self._copy.close()
        self._copy = None

    def __enter__(self) -> "Sessions":
        return self

    def __exit__(self, kind: type[BaseException] | None, error: BaseException | None, trace: TracebackType | None) -> None:
        self.close()


def reach(copy: Copy, callers: Iterable[str], targets: Sequence[str]) -> list[dict[str, Any]]:
    """The verdict on each component of each target, as each caller names it; an app's own aren't asked."""
    components = {name: copy.file.package(name) for name in targets}
    found = []
    for caller in callers:
        for target, package in components.items():
            if target != caller and package is not None and package.components:
                asked = [(it, _verdict(copy, caller, it)) for it in package.components]
                found.append({"caller": caller, "target": target, "verdicts": _by_kind(asked)})
    return found


def _verdict(copy: Copy, caller: str, component: Component) -> str:
    try:
        accounts = copy.explain(component.kind, Intent(component=component.component), caller=caller, of=component.package)
    except Refusal as refused:
        if refused.rule in UNFIT:
            return UNASKED
        raise
    return next((it.verdict for it in accounts if it.to == component.component), UNASKED)


def _by_kind(asked: Sequence[tuple[Component, str]]) -> dict[str, list[list[str]]]:
    """By kind each component's class, and the verdict on it."""
    found: dict[str, list[list[str]]] = {}
    for component, verdict in asked:
        found.setdefault(component.kind, []).append([component.name, verdict])
    return found


def claims(copy: Copy, package: str) -> tuple[list[dict[str, Any]], int]:
    """For each link that the package's filters name, who claims it, if several packages do; and how many links weren't asked."""
    own = copy.file.package(package)
    named, left = links.named(own.components if own else ())
    found = []
    for link in named:
        accounts = _of_link(copy, link)
        taken = [[str(it.to), it.verdict] for it in accounts if it.verdict not in NO_CLAIM]
        if len({to.partition("/")[0] for to, _ in taken}) > 1:
            found.append({"link": link, "claims": taken})
    return found, left


def _of_link(copy: Copy, link: str) -> tuple[Account, ...]:
    try:
        # the system asks, which no gate stops: a claim is the filter's, whoever may follow the link
        return copy.explain("activity", Intent.view(link))
    except Refusal as refused:
        if refused.rule in UNFIT:
            # the filter names what no link can have
            return ()
        raise
