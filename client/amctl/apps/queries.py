"""Which packages a package looks for: the tables `queries` of its manifest."""
from typing import Any

from amctl.apps import sayable
from amctl.apps.elements import Element
from amctl.apps.filters import LIST_LIMIT, Form, names_in
from amctl.apps.sayable import Unsayable
from amctl.apps.told import Place, quoted
from amctl.apps.unsaid import SILENT_TAGS, tell_children

CARRIED = ("package", "intent", "provider")
IN_INTENTS = ("action", "category", "data")
SIGNATURE_FORMS: dict[str, Form[str]] = {"scheme": sayable.scheme, "host": sayable.text, "mimeType": sayable.mime_type}


def single(element: Element, tag: str) -> Element | None:
    """The one child of this tag, or none; several can't be said."""
    children = element.all(tag)
    if len(children) > 1:
        raise Unsayable(f"it has several of {tag}")
    return children[0] if children else None


def without_wildcard(value: str) -> str:
    if value.startswith("*"):
        raise Unsayable(f"the wildcard {quoted(value)}")
    return value


def signature_of(element: Element) -> dict[str, Any]:
    """An intent of the queries: one action, its categories, and at most one data row."""
    action, data = single(element, "action"), single(element, "data")
    if action is None:
        raise Unsayable("it has no action")
    categories = list(dict.fromkeys(sayable.text(child.get("name")) for child in element.all("category")))
    if len(categories) > LIST_LIMIT:
        raise Unsayable(f"over {LIST_LIMIT} categories")
    signature: dict[str, Any] = {"action": without_wildcard(sayable.text(action.get("name")))}
    if categories:
        signature["category"] = categories
    for child in element.children:
        if child.name not in IN_INTENTS and child.name not in SILENT_TAGS:
            raise Unsayable(f"{child.name} has no place in it")
    for key, value in (data.attributes if data else {}).items():
        if key not in SIGNATURE_FORMS:
            raise Unsayable(f"{key} {quoted(value)} has no place in it")
        signature[key] = SIGNATURE_FORMS[key](without_wildcard(sayable.text(value)))
    return signature


def signatures_of(queries: Element, place: Place) -> list[dict[str, Any]]:
    found = []
    for element in queries.all("intent"):
        try:
            found.append(signature_of(element))
        except Unsayable as why:
            place.left_out("an intent of the queries", why)
    apart = list({repr(signature): signature for signature in found}.values())
    if len(apart) > LIST_LIMIT:
        place.left_out(f"{len(apart) - LIST_LIMIT} of the {len(apart)} intents of the queries", f"over {LIST_LIMIT}")
    return apart[:LIST_LIMIT]


def queries_of(root: Element, place: Place) -> tuple[list[str], list[dict[str, Any]]]:
    """The names and the intents that all elements `queries` of a manifest list."""
    together = Element("queries")
    for queries in root.all("queries"):
        together.children += queries.children
    for provider in together.all("provider"):
        place.left_out(f"provider {quoted(provider.get('authorities') or '')} of the queries",
                       "a device file has no providers")
    tell_children(together, CARRIED, place, " of the queries")
    names = names_in(together, "package", "packages", sayable.package_name, " of the queries", place)
    return names, signatures_of(together, place)
