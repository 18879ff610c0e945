"""Every sentence of the page: its labels, who may reach a component, what changed, and what went wrong."""
from collections.abc import Mapping, Sequence
from typing import TYPE_CHECKING

from amctl import words, words_reasons
from amctl.intents import IntentFilter

if TYPE_CHECKING:
    from amctl.devicefile import Component, Kind

# of more names than these a sentence names the first ones
MOST_NAMED = 4
_GETS: Mapping[str, str] = {"activity": "opens", "service": "starts", "receiver": "gets it"}

# what the script writes by itself; it has no sentence of its own
PAGE: Mapping[str, str] = {
    "gone_gateway": "The page's own gateway has ended: start `amctl ui` again.",
    "nobody": "Nobody gets it.",
    "an_example": "An example that this device answers: change what you like, and ask again.",
    "deciding": "Reached, and what comes nearest",
    "contents": "Contents",
    "find": "Find in the answer",
    "found_of": "of",
    "nothing_found": "Nothing in it has these words.",
    "set": "set:",
    "one_extra": "1 extra",
    "many_extras": "extras",
    "extra_key": "Name of the extra",
    "extra_sort": "Sort of the extra",
    "extra_value": "Value of the extra",
    "remove": "Remove",
    "text": "text",
    "number": "whole number",
    "truth": "truth",
    "back_to_device": "Back to the device as it is",
    "on_copy": "On a copy of the device, with",
    "copied": "Copied.",
    "not_copied": "The browser doesn't let this page copy: mark the text and copy it yourself.",
    "no_tasks": "No tasks.",
    "no_broadcasts": "No live broadcasts.",
    "no_services": "No services run.",
    "no_registered": "No registered receivers.",
    "loading": "Loading …",
    "front": "front",
    "top": "top",
    "root": "root",
    "turn": "has the turn",
    "waits": "waits",
    "done": "is done",
    "gets": "gets it",
    "many_done": "are done",
    "many_waits": "wait",
    "many_gets": "get it",
    "more": "more",
    "normal": "normal",
    "ordered": "ordered",
    "nothing_changed": "It changed nothing that the page shows.",
    "request": "Request",
    "reply": "Reply",
    "changed": "What it changed",
    "after": "The tasks after it",
    "copy_curl": "Copy as curl",
    "copy_pytest": "Copy as pytest",
    "copy_amctl": "Copy as amctl",
    "copy_test": "Copy up to here as one test",
    "refused": "refused:",
    "every_caller": "every caller",
    "every_request": "every request",
    "before": "Step back",
    "next": "Step forth",
    "task": "Task",
    "instance": "instance",
    "broadcast": "Broadcast",
    "holds": "holds",
    "approved": "approved for",
    "find_device": "Find a package, a component or an action",
    "component": "Component",
    "kind": "Kind",
    "reach": "Who may reach it",
    "filters": "Filters",
}

NO_LIBRARY = (
    "the page needs packages that aren't here: `apt-get install --no-install-recommends python3-starlette python3-uvicorn python3-jinja2`."
)
OTHER_HOST = "the page is asked by its own address alone: open the URL that `amctl ui` printed."
OTHER_ORIGIN = "another page asked, and this one answers itself alone: open the URL that `amctl ui` printed."
NOT_JSON = "the request isn't a JSON object: reload the page."
NO_PAGE = "there is no such page: open the URL that `amctl ui` printed."
LONG_HISTORY = "The history is too long to be made again whole: only its first calls are."
STORED_BEFORE = "The caller stands neither in the device file nor in the history, so the call isn't made again: it may stand in the server's store."
NOT_KEPT = "The server couldn't keep this call, so it had no effect."
REPLAYED = "A history has no replies: this one is of a session of its own, in which the same calls are made again at the same moments."
NO_COMMAND = "amctl has no command for this call: copy it as pytest or as curl."
OWN_SESSION = "Nobody makes calls in a session of its own: start `amctl serve`, and give the page its URL by --url."


def opened(url: str) -> str:
    return f"the page is at {url} (Ctrl-C ends it)"


def no_browser(url: str) -> str:
    return f"no browser is found: open {url} in one yourself."


def no_entry(number: int) -> str:
    return f"the history has no call {number}."


def stored(number: int, found: int) -> str:
    if not number:
        return "No stored calls."
    return ("" if found == number else f"{found:,} of ") + f"{number:,} stored call{'' if number == 1 else 's'}"


def not_retold(number: int) -> str:
    return f"call {number} isn't made again: its caller isn't known here, or the store couldn't keep it"


def no_kind(kind: str) -> str:
    return f"{kind!r} is no kind: say activity, service or receiver."


def no_change(what: str) -> str:
    return f"{what!r} is no change that the page makes: it approves links and grants permissions."


def approve(package: str, host: str) -> str:
    return f"Approve {package} for {host}"


def grant(package: str, permission: str) -> str:
    return f"Grant {package} {permission}"


def verdict_line(reached: tuple[str, ...], kind: "Kind", tied: tuple[str, ...] = ()) -> str:
    """The answer in one line."""
    if not reached:
        return f"The user would choose between {_named(tied)}." if len(tied) > 1 else PAGE["nobody"]
    return f"{_named(reached) if len(reached) > 1 else reached[0]} {_GETS[kind] if len(reached) == 1 else 'get it'}."


def _named(names: Sequence[str]) -> str:
    """Some names as a sentence has them: of many the first ones."""
    first = names[:-1] if len(names) <= MOST_NAMED else names[:MOST_NAMED]
    return f"{', '.join(first)} and {names[-1] if len(names) <= MOST_NAMED else f'{len(names) - len(first)} more'}"


def group_line(count: int, why: str, about: words.About) -> str:
    """How many components share a reason that isn't shown of each."""
    if why == "reached":
        return f"{count} more that {_GETS[about.kind] if count == 1 else 'get it'}"
    return f"{count} {words_reasons.rest_of(why, about)}"


def no_extra_name(value: str) -> str:
    return f"an extra with the value {value!r} has no name: give it one, or empty its line."


def no_number(key: str, value: str) -> str:
    return f"the extra {key} is a whole number of 64 bits, and {value!r} isn't one: choose text for it."


def no_truth(key: str, value: str) -> str:
    return f"the extra {key} is true or false, and {value!r} is neither: choose text for it."


ANY_APP = "any app"


def reach(component: "Component") -> str:
    """Who may reach a component, as its manifest says it."""
    if not component.enabled:
        return "nobody: it isn't enabled"
    exported = component.exported if component.exported is not None else False
    if not exported:
        return f"{component.package} alone: it isn't exported"
    return f"any app that holds {component.permission}" if component.permission else ANY_APP


def package_line(name: str, reaches: Sequence[str]) -> str:
    """A package in one line: how many components it has, and how many of them are for everybody."""
    many = f"{len(reaches)} component{'' if len(reaches) == 1 else 's'}" if reaches else "no components"
    of_all = reaches.count(ANY_APP)
    return f"{name} · {many}" + (f", {of_all} for any app" if of_all else "")


UNKNOWN_REACH = "it was installed by a request that the history doesn't show"


def filter_line(actions: tuple[str, ...], categories: tuple[str, ...], data: tuple[Mapping[str, object], ...], priority: int) -> str:
    """A filter in one line."""
    parts = [", ".join(words.short(it) for it in actions) or "no action"]
    parts += [", ".join(words.short(it) for it in categories)] if categories else []
    parts += ["; ".join(" ".join(f"{key} {value}" for key, value in row.items()) for row in data)] if data else []
    parts += [f"priority {priority}"] if priority else []
    return " · ".join(parts)


def registered_line(filter: IntentFilter) -> str:
    return filter_line(filter.actions, filter.categories, filter.data, filter.priority)


def deadline(due: int, last: int) -> str:
    """Until when a receiver has time. That it is over is noticed by the next stored call."""
    return f"until {moment(due)}, {due - last:,} ms after the last call"


def last_call(last: int, due: int | None) -> str:
    """The moment, and what is due next, if that is known."""
    ahead = "" if due is None else f"; the next deadline is {due - last:,} ms later, at {moment(due)}"
    return f"The last call was at {moment(last)}{ahead}."


def moment(milliseconds: int) -> str:
    return words.moment(milliseconds)


def appeared(line: str) -> str:
    return f"now: {line}"


def vanished(line: str) -> str:
    return f"no more: {line}"
