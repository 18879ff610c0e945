"""Sentences of `amctl check`: what each rule finds, what is so, and what to do."""
from collections.abc import Mapping, Sequence
from pathlib import Path

from amctl.findings.rule import Rule
from amctl.words import shown

# in the order in which they are shown
RULES: Mapping[str, Rule] = {
    "unreadable": Rule("app", "error", "The app can't be read, or `am` refuses its manifest."),
    "left-out": Rule("app", "note", "The converter left this out of the app, or wrote it otherwise, so it wasn't looked at."),
    "taken": Rule("resolution", "error", "What one app opened, another app opens once this one is installed, or by a phone's rules once it is approved too."),
    "refused": Rule("resolution", "error", "What an app opened goes to an activity that refuses its caller."),
    "asks": Rule("resolution", "warning", "What one app opened asks the user to choose."),
    "one-more": Rule("resolution", "note", "Where the user chose before, the choice is another one."),
    "opens": Rule("resolution", "note", "What nothing opened, this app opens."),
    "hears": Rule("resolution", "note", "A receiver of this app gets a broadcast that names nobody."),
    "link-lost": Rule("links", "warning", "Even once its hosts are approved, the app doesn't open its web link."),
    "link-asks": Rule("links", "warning", "Once its hosts are approved, its web link asks the user to choose."),
    "link-unstated": Rule("links", "warning", "The statements don't name the app for a host of its web links."),
    "link-unverified": Rule("links", "warning", "The app doesn't ask Android to verify a host of its web links."),
    "link": Rule("links", "note", "Whom a web link of the app opens as it is, and once the app's hosts are approved."),
    "open-service": Rule("exposed", "warning", "Any app may start the service."),
    "open-receiver": Rule("exposed", "warning", "Any app may send to the receiver."),
    "open-activity": Rule("exposed", "note", "Any app may start the activity."),
    "weak-permission": Rule("exposed", "warning", "A component is guarded by a permission that any app may come to hold."),
    "undefined-permission": Rule("exposed", "warning", "A component is guarded by a permission that no known package defines."),
    "caught-broadcast": Rule("caught", "warning", "Another app receives a broadcast of this app that names nobody."),
    "caught-start": Rule("caught", "warning", "Another app gets a start of this app that names nobody."),
    "may-be-caught": Rule("caught", "note", "Another app takes an intent of the manifest's `queries`."),
    "mutable-implicit": Rule("pending intents", "error", "A pending intent is mutable and names nobody, so its holder fills in where it goes."),
    "permission-twice": Rule("names", "error", "A permission is defined by two apps, so Android refuses the second one."),
    "permission-foreign": Rule("names", "warning", "A permission is defined in another's name space."),
    "affinity": Rule("names", "warning", "An activity has the affinity of another package. Since Android 11 an affinity counts per uid."),
    "key-collides": Rule("names", "error", "The key that the client gives the app is another caller's."),
    "class-twice": Rule("names", "note", "A class has the name of one in another package."),
}
BY_AM, BY_COMPARISON, BY_CONVERTER = "by am", "compared", "converted"
# how an answer explains that a component doesn't open the intent any more
WHY: Mapping[str, str] = {
    "outranked": "outranked by its priority",
    "tied": "tied with it",
    "approved": "narrowed by approved: only what is approved for the host stays",
    "browser": "narrowed by browser: only the device's browser stays",
    "general": "narrowed by general: only what takes any host stays",
    "not_exported": "the new target isn't exported",
    "needs_permission": "the new target asks for a permission",
}
# what these say by a phone's rules
WHY_BY_PHONE: Mapping[str, str] = {
    "approved": "narrowed by approved: of the approved apps only the one installed last stays",
    "general": "narrowed by general: only browsers stay",
}


def installed_already(package: str, device: Path) -> str:
    return f"{package} is on {device} already, so there is no before and after: take its `[[package]]` out of the device file, or check another app."


def too_many(count: int, device: Path, most: int) -> str:
    return (
        f"{device} has {count} packages; with the app and the caller that asks there would be {count + 2}, and a device has {most} at most:"
        f" take {count + 2 - most} out of the device file."
    )


def no_severity(word: str, known: Sequence[str]) -> str:
    return f"there is no severity {word!r}: take one of {', '.join(known)}."


def no_format(word: str, known: Sequence[str]) -> str:
    return f"there is no format {word!r}: take one of {', '.join(known)}."


def bad_file(path: Path, what: str, why: str, wanted: str) -> str:
    return f"{path} can't be used as {what} ({why}): {wanted}."


def no_package() -> str:
    return "the manifest has no `package`, or it isn't a text: add `package = \"com.example\"` to the file's top"


def refused(why: str) -> str:
    return f"`am` refuses the manifest, since {why}"


def too_large(size: int, most: int) -> str:
    return f"the manifest takes {size:,} bytes in a request, and `am` reads {most:,}: take out what has no filter and isn't exported"


def bad_query(why: str) -> str:
    return f"no intent can be made of this row of `queries`, since {why}"


def components(names: Sequence[str]) -> str:
    *before, last = [shown(it) for it in names]
    return f"{', '.join(before)} and {last}" if before else last


def why(rule: str, *, answers_as_phone: bool) -> str:
    """Why a component doesn't open the intent any more."""
    said = {**WHY, **WHY_BY_PHONE} if answers_as_phone else WHY
    return said.get(rule, rule)


def _by_system(differs: str) -> str:
    return f"; the system {differs}" if differs else ""


def taken(old: str, new: str, why: str, system: str) -> str:
    return f"went from {shown(old)} to {shown(new)} ({why}){_by_system(system)}"


def turned_down(old: str, new: str, why: str, system: str) -> str:
    return f"went from {shown(old)} to {shown(new)}, which refuses the caller ({why}){_by_system(system)}"


def shut_all(old: Sequence[str], why: str) -> str:
    """What opened, or what the user chose among, and now activities tie that all refuse their caller."""
    before = f"opened {shown(old[0])}" if len(old) == 1 else f"asked among {components(old)}"
    return f"{before}, and now nothing opens it, since all that share the greatest priority refuse the caller" + (f" ({why})" if why else "")


def asks(old: str, among: Sequence[str], why: str) -> str:
    return f"opened {shown(old)}, and now asks among {components(among)} ({why})"


def one_more(before: Sequence[str], after: Sequence[str]) -> str:
    return f"asked among {components(before)}, and now among {components(after)}"


def choice_ends(before: Sequence[str], target: str) -> str:
    return f"asked among {components(before)}, and now goes to {shown(target)} alone"


def opens(target: str) -> str:
    return f"nothing opened it, and now {shown(target)} does"


def opens_many(among: Sequence[str]) -> str:
    return f"nothing opened it, and now it asks among {components(among)}"


def shut(target: str, system: str) -> str:
    return f"nothing opened it, and now it goes to {shown(target)}, which refuses the caller{_by_system(system)}"


def system_opens(target: str) -> str:
    return f"opens {shown(target)}"


def hears(receiver: str, is_system: bool) -> str:
    return f"{shown(receiver)} gets it" + (" from the system alone" if is_system else "")


def says_outcome(way: str, names: Sequence[str]) -> str:
    if way == "nothing":
        return "nothing opens it"
    verb = {"opens": "opens", "refuses": "goes, and is refused, to", "asks": "asks among"}[way]
    return f"{verb} {components(names)}"


def link(now: str, approved: str, why: str) -> str:
    return f"as it is: {now}; once approved: {approved}" + (f" ({why})" if why else "")


def link_taken(old: str, new: str, why: str) -> str:
    return f"opens {shown(old)}, whose app is approved, and {shown(new)} once this app is approved too ({why})"


def link_unstated(host: str, package: str) -> str:
    return f"the statements for {host} don't name {package}, so the host wouldn't be approved and the link isn't the app's"


def link_unverified(host: str) -> str:
    return f"no filter for {host} has `autoVerify`, so Android never asks the host, and only the user approves it in the settings"


def decided_by(filters: Sequence[str], permission: str | None) -> str:
    """What opens a component, or guards it."""
    by = f"by its filter ({', '.join(filters)})" if filters else "by `exported` alone"
    return f"{by}, with the permission {permission}, which the caller holds" if permission else f"{by}, without a permission"


def exposed(component: str, decided: str) -> str:
    return f"any app reaches {shown(component)}: exported {decided}"


def weak_permission(component: str, permission: str, level: str) -> str:
    return f"{shown(component)} asks for {permission} of the level {level}, which any app may be granted: take `signature` if only your apps shall call it"


def undefined_permission(component: str, permission: str) -> str:
    return f"{shown(component)} asks for {permission}, which no known package defines: whichever app defines it first may hold it"


def caught_broadcast(receivers: Sequence[str], permission: str | None) -> str:
    guarded = f", though it asks for {permission}" if permission else ""
    return f"{components(receivers)} receives the broadcast{guarded}: name a package or a component, or ask for a permission"


def caught_start(way: str, names: Sequence[str]) -> str:
    return f"the start {says_outcome(way, names)}: name a package or a component if it is for one app"


def may_be_caught(kind: str, names: Sequence[str]) -> str:
    return f"asked for in `queries`; sent as a {'start' if kind == 'activity' else 'broadcast'} it reaches {components(names)}"


def mutable_implicit(entry: int) -> str:
    return f"entry {entry} of the history makes a mutable pending intent that names nobody: add IMMUTABLE, or name a component"


def permission_twice(permission: str, other: str) -> str:
    return f"{permission} is defined by {other} too, so Android refuses to install the app unless both have one signature: give it a name of its own"


def permission_foreign(permission: str, owner: str) -> str:
    return f"{permission} is defined in the name space of {owner}: begin it with the app's own package name"


def affinity(component: str, affinity_: str, other: str) -> str:
    return (
        f"{shown(component)} has the affinity {affinity_} of {other}: since Android 11 it counts only where both share a uid;"
        " before, their activities share tasks"
    )


def key_collides(package: str, other: str) -> str:
    return f"the key that the client gives {package} is that of {other}: give {other} another key in the device file"


def class_twice(name: str, other: str) -> str:
    return f"{other} has a class {name} too: only the package tells them apart, so name both in an intent"


def summary(counts: Mapping[str, int]) -> str:
    said = [f"{count} {name}{'' if count == 1 else 's'}" for name, count in counts.items()]
    return f"{', '.join(said[:-1])} and {said[-1]}"


def not_looked_at(number: int) -> str:
    if number == 1:
        return "1 thing of the app wasn't looked at, since a device file can't say it: `left-out` names it."
    return f"{number} things of the app weren't looked at, since a device file can't say them: `left-out` names each."


def nothing(app: str) -> str:
    return f"{app}: nothing found."


def nothing_new(app: str) -> str:
    return f"{app}: nothing new."


def no_calls(package: str, history: Path) -> str:
    return f"{history} has no call of {package}, so nothing is said of what others catch: record one with the app installed, or leave --history out."
