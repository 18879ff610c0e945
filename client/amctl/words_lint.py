"""Sentences of `amctl lint`: what each rule finds, what is so, and what to write instead."""
from collections.abc import Mapping
from pathlib import Path

from amctl.findings.rule import Rule

RULES: Mapping[str, Rule] = {
    "not-toml": Rule("file", "error", "The file isn't TOML 1.0."),
    "refused": Rule("file", "error", "`am` refuses the file."),
    "unknown-key": Rule("keys", "warning", "A key that no such table has, and that `am` ignores."),
    "host": Rule("values", "warning", "A host with something that no host of a link has."),
    "spelling": Rule("values", "warning", "A name that Android spells otherwise."),
    "no-effect": Rule("values", "warning", "What has no effect as it is written."),
    "no-default": Rule("values", "warning", "A filter for web links that no start finds."),
    "permission": Rule("access", "warning", "A permission that nobody asks for, or that nobody is granted."),
    "unguarded": Rule("access", "warning", "An exported component with neither filter nor permission."),
    "key": Rule("access", "warning", "A caller's key that may be taken for another's."),
    "kept-rows": Rule("store", "error", "What a store keeps doesn't fit the device file."),
}


def no_store(store: Path, fault: str) -> str:
    return f"{store} can't be read as a store ({fault}): name the file that `--store` of a session or a server made, and that no other uses now."


def refused(why: str) -> str:
    return f"`am` refuses the file, since {why}"


def not_toml(what: str) -> str:
    return f"this isn't TOML 1.0, which this client reads: {what}. Correct the line, or the one before it."


def unknown_key(key: str, table: str, near: str | None) -> str:
    return f"`{key}` isn't a key of {table}, so it is ignored: " + (f"write `{near}`." if near else "take it out; docs/DEVICE.md lists the keys.")


def key_elsewhere(key: str, table: str, other: str) -> str:
    return f"`{key}` isn't a key of {table}, so it is ignored: it belongs to {other}."


def activities_alone(key: str, table: str) -> str:
    return f"`{key}` counts for activities alone, and is ignored in {table}: take it out."


def host_with(what: str, host: str) -> str:
    if not host:
        return f"the host has {what}: write the host alone, as in \"www.example.com\"."
    return f"the host has {what}, so it equals no link's host: write \"{host}\"; a scheme, a port and a path have keys of their own."


def wildcard_inside(host: str) -> str:
    return f"a `*` counts only at a host's beginning, so \"{host}\" equals no link's host: write one as in \"*.example.com\"."


def grant_unasked(permission: str, near: str | None) -> str:
    if near:
        return f"no component asks its callers for {permission}, so the grant opens nothing: did you mean {near}?"
    return f"no component asks its callers for {permission}, so the grant opens nothing, unless a broadcast or a registered receiver asks for it: check its name."


def permission_ungranted(permission: str, component: str, near: str | None) -> str:
    so = f"no package is granted {permission}, so only its own app and the system reach {component}: "
    return so + (f"did you mean {near}?" if near else "add a `[[grant]]`, or check its name.")


def unguarded(component: str) -> str:
    return (
        f"any app reaches {component} by its name, and no intent finds it: give it the filter that it is exported for,"
        " or a `permission`, or write `exported = false`."
    )


def short_key(of: str) -> str:
    return f"the key of {of} has one character, so another app's typing error may be it: take a longer one."


def repeated_key(of: str, other: str) -> str:
    return f"the key of {of} is that of {other} too: give each a key of its own."


def alike_key(of: str, other: str) -> str:
    return f"the key of {of} differs from that of {other} only in upper and lower case: give it one that can't be taken for it."


def spelled(value: str, known: str) -> str:
    return f"Android spells \"{value}\" otherwise, and names are compared letter by letter: write \"{known}\"."


def is_other(value: str, is_what: str, key: str) -> str:
    return f"\"{value}\" is {is_what}: write it under `{key}`."


def flag(value: str, key: str) -> str:
    name = value.removeprefix("Intent.").removeprefix("FLAG_ACTIVITY_").removeprefix("FLAG_RECEIVER_").removeprefix("FLAG_")
    return f"\"{value}\" is a flag, which an intent has and no device file: take it out of `{key}`, and give the intent `{name}`."


def blanks(value: str) -> str:
    return f"\"{value}\" has a blank at an end, and names are compared letter by letter: take it out."


def lower_case(key: str, value: str) -> str:
    return f"`{key}` is compared letter by letter, and links and types come in lower case: write \"{value.lower()}\"."


def no_action() -> str:
    return "a filter without an action is left out: add `action` with what it takes."


def needs_beside(key: str, needed: str, row: str) -> str:
    return f"`{key}` counts for nothing without a `{needed}` in {row}: add one, or take it out."


def priority_of_activity(priority: int) -> str:
    return f"an activity's priority above 0 counts as 0, and here it is {priority}: take it out, or lower the others below 0."


def path_without_slash(key: str, value: str) -> str:
    return f"the path of a link begins with `/`, so `{key}` never matches: write \"/{value}\"."


def no_default() -> str:
    return (
        "a start finds this filter only with the default category: add \"android.intent.category.DEFAULT\" to `category`, as links need both."
    )


def link_unlisted(package: str, host: str, near: str | None) -> str:
    return f"no activity of {package} views web links of {host}, so the approval changes nothing: " + (
        f"did you mean \"{near}\"?" if near else "add the host to a filter, or take the link out."
    )


def link_undeclared(package: str, host: str, near: str | None) -> str:
    return f"no activity of {package} has a filter with VIEW, BROWSABLE, http or https, and the host {host}, so the approval counts for nothing: " + (
        f"did you mean \"{near}\"?" if near else "add the host to a filter, or take the link out."
    )


def no_browser(name: str) -> str:
    return (
        f"no activity of {name} is a browser, so the device has none: give a filter of it the category APP_BROWSER, or one with VIEW, BROWSABLE,"
        " http or https, and no host; or take `browser` out."
    )


def no_such_rules(value: str, near: str | None) -> str:
    return f"there are no rules \"{value}\": " + (f"did you mean \"{near}\"?" if near else "write \"profile\" or \"android-12\".")


def no_such_browser(name: str, near: str) -> str:
    return f"no package is called {name}, so the device has no browser: did you mean {near}?"


def kept_right(store: Path, right: str, uid: int) -> str:
    return (
        f"{store} keeps {right} for uid {uid}, and no package has it: it was kept with another device file."
        " Take the file of that time, or another store."
    )


def kept_package(store: Path, name: str, why: str) -> str:
    return f"{store} keeps {name}, and {why}, so `am` refuses the store: take the device file that it was made with, or another store."


def uid_taken(uid: int, name: str) -> str:
    return f"its uid {uid} is {name}'s in this file"


def name_taken() -> str:
    return "this file has a package of that name"


def key_taken() -> str:
    return "its key is another's in this file"
