"""What is asked of the phone as a whole, and of each package."""
from collections.abc import Iterable, Sequence
from dataclasses import dataclass, field

from amctl import words_phone
from amctl.apps.elements import InputFault
from amctl.apps.manifests import SYSTEM, Package, name_of, package_of, protected_of
from amctl.apps.told import Place, Report
from amctl.phone import apks
from amctl.phone.adb import Adb, NoPhone
from amctl.phone.kept import Kept
from amctl.phone.lines import Links, Listed, State, holders_in_dump, holders_of, links_of, packages_of, paths_of, state_of

BROWSER_ROLE = "android.app.role.BROWSER"
LIST = ("pm", "list", "packages")
# the words differ from one Android to the next; the first that answers counts
HOLDERS = (("cmd", "role", "holders", BROWSER_ROLE), ("cmd", "role", "get-role-holders", BROWSER_ROLE))
DUMPED_ROLES = ("dumpsys", "role")


@dataclass(frozen=True)
class Learnt:
    """A package as the phone has it, or none if its manifest can't be read; and what is to be said of it."""

    name: str
    declared: Package | None = None
    hosts: tuple[str, ...] = ()
    said: tuple[str, ...] = ()


@dataclass
class Whole:
    """What is so for the phone as a whole; None is what couldn't be learnt."""

    serial: str
    release: str
    level: str
    protected: list[str] | None = None
    browser: str | None = None
    said: dict[str, list[str]] = field(default_factory=dict)

    def say(self, key: str, *sentences: str) -> None:
        """Sentences that belong to this key of the device file."""
        self.said.setdefault(key, []).extend(sentences)


def listed(adb: Adb) -> tuple[Listed, ...]:
    """The installed packages in the order of their uids, in which the phone installed them."""
    said = adb.shell(*LIST, "-f", "-U")
    found = packages_of(said.out)
    if said.status or not found:
        raise NoPhone(words_phone.not_listed(said.last_line))
    return tuple(sorted(found, key=lambda it: it.uid or 0))


def names_listed(adb: Adb, option: str) -> frozenset[str] | None:
    """The names of `pm list packages` with this option."""
    said = adb.shell(*LIST, option)
    found = None if said.status else packages_of(said.out)
    return None if found is None else frozenset(it.name for it in found)


def property_of(adb: Adb, name: str) -> str:
    said = adb.shell("getprop", name)
    return said.out.strip() if not said.status and said.out.strip() else "?"


def learn_whole(adb: Adb, kept: Kept, serial: str, packages: Sequence[Listed]) -> Whole:
    whole = Whole(serial, property_of(adb, "ro.build.version.release"), property_of(adb, "ro.build.version.sdk"))
    _learn_browser(adb, whole, frozenset(it.name for it in packages))
    framework = next((it for it in packages if it.name == SYSTEM), None)
    try:
        report = Report()
        root = apks.read([kept.apk(adb, it) for it in _paths(adb, framework or Listed(SYSTEM))])
        whole.protected = protected_of(root, Place(report, SYSTEM, SYSTEM))
        whole.say("protected", *(it.words for it in report.told))
    except InputFault as why:
        whole.say("protected", words_phone.no_protected(str(why)))
    whole.say("exempt", words_phone.EXEMPT)
    return whole


def _learn_browser(adb: Adb, whole: Whole, known: frozenset[str]) -> None:
    holders = None
    for words in HOLDERS:
        said = adb.shell(*words)
        holders = None if said.status else holders_of(said.out, known)
        if holders is not None:
            break
    if holders is None:
        holders = holders_in_dump(adb.shell(*DUMPED_ROLES).out, BROWSER_ROLE)
    if holders is None:
        whole.say("browser", words_phone.NO_BROWSER_KNOWN)
    elif not holders:
        whole.say("browser", words_phone.NO_BROWSER)
    else:
        whole.browser = holders[0]


def learn(adb: Adb, kept: Kept, package: Listed, disabled: frozenset[str] | None) -> Learnt:
    """A package with what is granted to it, switched on and off in it, and approved for it."""
    report = Report()
    place = Place(report, package.name, package.name)
    state, links = _state(adb, package.name), _links(adb, package.name)
    try:
        root = apks.read([kept.apk(adb, it) for it in _paths(adb, package)])
        apks.switch(root, package.name, None if disabled is None else package.name not in disabled, state)
        if name_of(root) != package.name:
            raise InputFault(words_phone.other_name(name_of(root)))
        declared = package_of(root, package.name, place)
    except InputFault as why:
        return Learnt(package.name, said=(words_phone.not_read(package.name, str(why)),))
    declared.grants = list(state.granted) if state else []
    hosts = links.hosts if links and links.is_allowed else ()
    wild = _wildcards(declared, hosts)
    said = [*_unlearnt(state, links, disabled), *_unsaid(state, links, wild), *(_line(it.place, it.words, package.name) for it in report.told)]
    return Learnt(package.name, declared, (*hosts, *wild), tuple(said))


def _line(place: str, words: str, package: str) -> str:
    return words if place == package else f"{place.removeprefix(package)}: {words}"


def _paths(adb: Adb, package: Listed) -> tuple[str, ...]:
    said = adb.shell("pm", "path", package.name)
    found = None if said.status else paths_of(said.out)
    if found is None and package.path:
        return (package.path,)
    if found is None:
        raise InputFault(words_phone.no_path(said.last_line))
    return found


def _state(adb: Adb, package: str) -> State | None:
    said = adb.shell("dumpsys", "package", package)
    return None if said.status else state_of(said.out, package)


def _links(adb: Adb, package: str) -> Links | None:
    said = adb.shell("pm", "get-app-links", "--user", "0", package)
    return None if said.status else links_of(said.out, package)


def _unlearnt(state: State | None, links: Links | None, disabled: frozenset[str] | None) -> Iterable[str]:
    """What the phone didn't tell."""
    if state is None:
        yield words_phone.NO_STATE
    if links is None:
        yield words_phone.NO_LINKS
    if disabled is None:
        yield words_phone.NO_DISABLED


def _unsaid(state: State | None, links: Links | None, wild: Sequence[str]) -> Iterable[str]:
    """What the phone told and a device file can't say, or says otherwise."""
    if state and state.is_stopped:
        yield words_phone.STOPPED
    if state and state.is_hidden:
        yield words_phone.HIDDEN
    if links and links.hosts and not links.is_allowed:
        yield words_phone.UNLINKED
    yield from map(words_phone.wildcard, wild)


def _wildcards(declared: Package, hosts: Sequence[str]) -> tuple[str, ...]:
    """The wildcards of its filters that the phone names by the domain below alone: an approval counts as a filter has its host."""
    of_filters = {row.get("host", "").lower() for it in declared.components for filter in it.filters for row in filter.rows}
    return tuple(sorted(it for it in of_filters if it.startswith("*.") and it not in hosts and it.removeprefix("*.") in hosts))
