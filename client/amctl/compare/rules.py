"""The rules of docs/PROFILE.md by which `am` answers: their headings and names, by what an account says."""
from collections.abc import Iterable, Mapping
from dataclasses import dataclass

from amctl.devicefile import Kind
from amctl.intents import Intent
from amctl.results import Account
from amctl.words_reasons import is_unfound


@dataclass(frozen=True)
class Rule:
    """A rule of the profile: the heading, and the name in bold under it."""

    heading: str
    name: str

    def __str__(self) -> str:
        return f"{self.name.rstrip('.')} (docs/PROFILE.md, {self.heading})"


CANDIDATES = Rule("Which components an intent finds", "Candidates.")
FINDING = Rule("Which components an intent finds", "Finding")
TARGET = Rule("Which activity a start reaches", "Target.")
NARROWING = Rule("Which activity a start reaches", "Narrowing")
GATE = Rule("Gates", "Verdict.")
SKIPPED = Rule("Receivers", "Skip rules")
OFFERS = Rule("Receivers", "Offers.")
PROTECTED = Rule("Broadcasts", "Protected action")
SERVICE = Rule("Services", "Starting a service")

BY_VERDICT: Mapping[str, Rule] = {
    "other_component": CANDIDATES,
    "other_package": CANDIDATES,
    "disabled": CANDIDATES,
    "listed": CANDIDATES,
    "narrowed": NARROWING,
    "implicit_service": SERVICE,
    "outranked": TARGET,
    "tied": TARGET,
    "registered_only": SKIPPED,
    "manifest_implicit": SKIPPED,
    "stopped_package": SKIPPED,
    "receiver_lacks": SKIPPED,
    "not_exported": GATE,
    "needs_permission": GATE,
    "protected_action": PROTECTED,
}
BY_REASON: Mapping[str, Rule] = {
    "action": Rule("The filter test", "Action"),
    "scheme": Rule("The filter test", "URI test"),
    "host": Rule("The filter test", "Authority"),
    "path": Rule("Paths and patterns", "Path rule."),
    "type": Rule("The filter test", "Data"),
    "category": Rule("The filter test", "Category"),
}


def rules_of(accounts: Iterable[Account], kind: Kind, intent: Intent, refused_by: str | None = None) -> tuple[Rule, ...]:
    """The rules that these accounts come from, each once, and behind them the one by which a phone refuses."""
    found: list[Rule] = []
    for account in accounts:
        if account.verdict == "filters":
            reasons = [it for it in account.reasons or () if it in BY_REASON]
            found += [FINDING if is_unfound(it, intent) else BY_REASON[it] for it in reasons] or [CANDIDATES]
        elif account.verdict == "reached":
            found.append(OFFERS if kind == "receiver" else TARGET)
        elif account.verdict in BY_VERDICT:
            found.append(BY_VERDICT[account.verdict])
    if refused_by is not None:
        found.append(BY_VERDICT[refused_by])
    return tuple(dict.fromkeys(found))
