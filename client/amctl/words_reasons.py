"""Why a filter doesn't pass, in words, and what would change it."""
import re
from collections.abc import Callable, Mapping, Sequence
from typing import TYPE_CHECKING
from urllib.parse import unquote, urlsplit

from amctl.intents import Intent

if TYPE_CHECKING:
    from amctl.devicefile import Filter
    from amctl.words import About

REASON_ORDER = ("action", "scheme", "host", "path", "type", "category")
REASON_CHANGES = {
    "action": "list the action in a filter of it, or ask by one that is listed",
    "scheme": "give it a filter with this scheme in `data`, or ask by another URI",
    "host": "give it a filter with this host in `data`, or ask by another URI",
    "path": "give it a filter with this path in `data`, or ask by another URI",
    "type": "give it a filter with this `mimeType` in `data`, or ask by another type",
    "category": "list the category in a filter of it, or ask without it",
}
DEFAULT_CATEGORY = "android.intent.category.DEFAULT"
PATH_KEYS = {"path": "", "pathPrefix": "begins with ", "pathSuffix": "ends with ", "pathPattern": "is like "}
SHORT = re.compile(r"^android\.intent\.(?:action|category)\.")

# what of those that aren't shown is said, by the reason that comes furthest or by the verdict
REST = {
    "action": "whose filters don't list the action",
    "scheme": "whose filters don't take the scheme",
    "host": "whose filters don't take the host",
    "path": "whose filters don't take the path",
    "type": "whose filters don't take the type",
    "category": "whose filters don't list a category",
    "no_filter": "without a filter",
    "disabled": "not enabled",
    "other_component": "that the intent doesn't name",
    "other_package": "in packages that the intent doesn't name",
    "implicit_service": "that an intent has to name",
    "narrowed": "not approved for the host",
    "outranked": "that another one outranks",
    "tied": "that share the greatest priority",
    "registered_only": "that stand in manifests",
    "manifest_implicit": "that stand in manifests",
    "stopped_package": "of stopped packages",
    "not_exported": "not exported",
    "needs_permission": "that ask for a permission",
    "receiver_lacks": "without the sender's permission",
    "protected_action": "that only the system may send to",
}


# what is said instead of those that aren't shown by a phone's rules
REST_BY_PHONE = {
    "narrowed": "that the narrowing of web links leaves out",
    "tied": "that share the greatest priority of those that may be started",
}
UNFOUND = "whose filters aren't found without an action"


def host_and_path(uri: str | None) -> tuple[str, str]:
    """The host and the path of a URI, as far as it has them."""
    try:
        parts = urlsplit(uri or "")
        return parts.hostname or "", unquote(parts.path)
    except ValueError:
        # brackets that don't close: `am` reads such a host, and Python doesn't
        return "", ""


def short(name: str) -> str:
    """An action or a category without Android's own prefix."""
    return SHORT.sub("", name)


def reason(why: str, filter: "Filter | None", intent: Intent) -> str:
    """Why one filter doesn't pass, as the end of a sentence about it."""
    host, path = host_and_path(intent.data)
    if is_unfound(why, intent):
        return _unfound_reason(intent)
    if why == "action":
        listed = filter.actions if filter else ()
        shown = _shortened(intent.action or "", listed)
        return f"doesn't list the action {shown(intent.action or '')}" + _has(map(shown, listed))
    if why == "scheme":
        return _scheme_reason(filter, intent)
    if why == "host":
        return f"doesn't take the host {host or '(none)'}" + _has(_values(filter, "host"))
    if why == "path":
        return f"doesn't take the path {path or '(none)'}" + _has(_path_rules(filter))
    if why == "type":
        return _type_reason(filter, intent)
    if why == "category":
        return _category_reason(filter, intent)
    return f"doesn't pass ({why})"


def change_of(why: str, filter: "Filter | None", intent: Intent) -> str:
    """What would change that a filter doesn't pass."""
    if is_unfound(why, intent):
        return _change_of_unfound(filter)
    asked = (intent.action or "",) if why == "action" else intent.categories if why == "category" else ()
    listed = () if filter is None else filter.actions if why == "action" else filter.categories
    option = "-a" if why == "action" else "-c"
    whole = next((it for one in asked if one not in listed for it in _alike(one, listed)), None)
    return f"write it as the filter does (`{option} {whole}`)" if whole else REASON_CHANGES.get(why, "change its filter")


def tests_passed(why: str, intent: Intent) -> int:
    """How many tests of a filter an intent passed before this one: all, if a phone only doesn't find the filter."""
    if is_unfound(why, intent):
        return len(REASON_ORDER)
    return REASON_ORDER.index(why) if why in REASON_ORDER else 0


def is_unfound(why: str, intent: Intent) -> bool:
    """Whether a filter that passes isn't found, as by a phone's rules: no test of the action fails without one."""
    return why == "action" and intent.action is None


def rest(counts: Mapping[str, int], about: "About") -> str:
    """Those that aren't shown, counted."""
    said = [f"{count} {rest_of(why, about)}" for why, count in counts.items()]
    return f"{sum(counts.values())} more: {', '.join(said)}."


def rest_of(why: str, about: "About") -> str:
    """What is said of those that aren't shown for this reason or verdict."""
    if is_unfound(why, about.intent):
        return UNFOUND
    said = {**REST, **REST_BY_PHONE} if about.file.answers_as_phone else REST
    return said.get(why, why)


def is_alike(name: str, listed: Sequence[str]) -> bool:
    """Whether one of them differs from a name by Android's prefix alone."""
    return bool(_alike(name, listed))


def _alike(name: str, listed: Sequence[str]) -> list[str]:
    """Those of a filter that differ from a name by Android's prefix alone."""
    return [it for it in listed if it != name and short(it) == short(name)]


def _shortened(name: str, listed: Sequence[str]) -> Callable[[str], str]:
    """Leaves Android's prefix out, except where it is what differs."""
    return (lambda it: it) if _alike(name, listed) else short


def _unfound_reason(intent: Intent) -> str:
    """An intent may pass a filter for which a phone looks by the action alone."""
    if intent.type is None:
        return "passes, but isn't found by an intent with neither action nor data nor type"
    return f"passes, but a phone finds it for the type {intent.type} by its action, and the intent has none"


def _change_of_unfound(filter: "Filter | None") -> str:
    if filter is None:
        return "ask by an action that it lists"
    by_action = f"ask by an action that it lists (`-a {filter.actions[0]}`), or " if filter.actions else ""
    return f"{by_action}name its package in the intent (`-p`)"


def _scheme_reason(filter: "Filter | None", intent: Intent) -> str:
    schemes, types = _values(filter, "scheme"), _values(filter, "mimeType")
    if intent.data is None:
        return "wants a URI, and the intent has none" + _has(schemes)
    scheme = intent.data.partition(":")[0]
    if filter is None or schemes:
        return f"doesn't take the scheme {scheme}" + _has(schemes)
    takes = f"takes types alone ({', '.join(types)})" if types else "takes no data"
    return f"{takes}, and the intent has a URI of the scheme {scheme}"


def _type_reason(filter: "Filter | None", intent: Intent) -> str:
    types = _values(filter, "mimeType")
    if intent.type is None:
        return "wants a type, and the intent has none" + _has(types)
    return f"doesn't take the type {intent.type}" + _has(types) if filter is None or types else f"takes no type, and the intent has {intent.type}"


def _category_reason(filter: "Filter | None", intent: Intent) -> str:
    listed = filter.categories if filter else ()
    lacks = [it for it in intent.categories if it not in listed] if filter else []
    # one that differs by the prefix alone is said with it
    alike = [it for one in lacks for it in _alike(one, listed)]
    lacks = [it if _alike(it, listed) else short(it) for it in lacks]
    if alike:
        return f"doesn't list the category {', '.join(lacks)}" + _has(alike)
    if not lacks and filter and DEFAULT_CATEGORY not in listed:
        lacks = ["DEFAULT, which a start needs"]
    return f"doesn't list the category {', '.join(lacks)}" if lacks else "doesn't list a category that is asked for"


def _values(filter: "Filter | None", key: str) -> list[str]:
    return [str(row[key]) for row in filter.data if key in row] if filter else []


def _path_rules(filter: "Filter | None") -> list[str]:
    return [f"{way}{row[key]}" for row in filter.data for key, way in PATH_KEYS.items() if key in row] if filter else []


def _has(values: "Sequence[str] | map[str]") -> str:
    """What a filter takes instead, if that is known."""
    listed = list(dict.fromkeys(values))
    return f", but {' or '.join(listed)}" if listed else ""
