"""Which components come nearest to what an intent asks for: what it reaches, and the misses by how many tests they passed."""
from collections import Counter
from collections.abc import Mapping, Sequence
from dataclasses import dataclass

from amctl.devicefile import DeviceFile, Kind
from amctl.intents import Intent
from amctl.results import Account
from amctl.words_reasons import REASON_ORDER, is_alike, tests_passed

MOST = 10
REACHED = ("reached", "admitted")
# these are decided before any filter is looked at
BEFORE_FILTERS = ("disabled", "other_component", "other_package")
NO_FILTER = "no_filter"


@dataclass(frozen=True)
class Near:
    """What is reached and the nearest misses, and the others, counted by their reason."""

    accounts: tuple[Account, ...]
    rest: Mapping[str, int]


def nearest(accounts: Sequence[Account], kind: Kind, intent: Intent, file: DeviceFile, most: int = MOST) -> Near:
    """All that are reached come first; of equally near ones those that `am` names first."""
    reached = [it for it in accounts if it.verdict in REACHED]
    missed = [it for it in accounts if it.verdict not in REACHED]
    missed.sort(key=lambda it: _passed(it, kind, intent, file), reverse=True)
    shown, others = missed[:most], missed[most:]
    return Near((*reached, *shown), dict(Counter(reason_of(it, intent) for it in others).most_common()))


def reason_of(account: Account, intent: Intent) -> str:
    """The verdict, or the reason of the filter that passed the most tests."""
    if account.verdict != "filters":
        return account.verdict
    return max(account.reasons, key=lambda it: tests_passed(it, intent)) if account.reasons else NO_FILTER


def _passed(account: Account, kind: Kind, intent: Intent, file: DeviceFile) -> tuple[int, bool]:
    """How many tests of a filter were passed; a name that differs by Android's prefix alone comes before others."""
    if account.verdict in BEFORE_FILTERS:
        return -2, False
    if account.verdict != "filters":
        return len(REASON_ORDER), False
    if not account.reasons:
        return -1, False
    component = file.component(kind, str(account.to))
    actions = [action for it in component.filters for action in it.actions] if component else []
    return max(tests_passed(it, intent) for it in account.reasons), is_alike(intent.action or "", actions)
