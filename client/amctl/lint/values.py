"""Values that `am` takes and that match nothing, or something else than was meant."""
import difflib
from collections.abc import Iterator, Mapping
from typing import Any

from amctl import words_lint
from amctl.android import BROWSABLE, DEFAULT, WEB_SCHEMES
from amctl.devicefile import RULES, Component, DeviceFile, Filter, Link, Package
from amctl.findings.finding import Finding
from amctl.intents import VIEW
from amctl.lint.finding import finding
from amctl.lint.names import ACTIONS, CATEGORIES, meant, mode_meant, near_name
from amctl.weblinks import covers, declared_hosts, makes_browser

PATHS = ("path", "pathPrefix", "pathSuffix", "pathPattern")


def check(file: DeviceFile) -> Iterator[Finding]:
    for key in ("protected", "exempt"):
        yield from _names(file, file.document.get(key), key, "action")
    for package in file.packages:
        for component in package.components:
            yield from _component(file, component)
        yield from _queries(file, package)
    for link in file.links:
        yield from _link(file, link)
    yield from _browser(file)
    yield from _rules(file)


def _rules(file: DeviceFile) -> Iterator[Finding]:
    if file.rules not in RULES:
        yield finding(file, "rules", "spelling", words_lint.no_such_rules(file.rules, _rules_meant(file.rules)))


def _rules_meant(value: str) -> str | None:
    """The rules that were meant by a name that isn't theirs: by its case, by a part of it, or by what is most like it."""
    plain = "".join(it for it in value.lower() if it.isalnum())
    plains = {"".join(it for it in name if it.isalnum()): name for name in RULES}
    part = next((name for it, name in plains.items() if plain and (plain in it or it in plain)), None)
    near = difflib.get_close_matches(plain, plains, 1, 0.6)
    return part or (plains[near[0]] if near else None)


def _component(file: DeviceFile, component: Component) -> Iterator[Finding]:
    mode = mode_meant(component.launch_mode) if component.launch_mode and component.kind == "activity" else None
    if mode:
        yield finding(file, f"{component.at}.launchMode", "spelling", words_lint.spelled(str(component.launch_mode), mode))
    for it in component.filters:
        yield from _names(file, it.actions, f"{it.at}.action", "action")
        yield from _names(file, it.categories, f"{it.at}.category", "category")
        yield from _filter(file, it, component)
        for index, row in enumerate(it.data):
            yield from _row(file, row, f"{it.at}.data[{index}]", it)


def _names(file: DeviceFile, values: Any, at: str, key: str) -> Iterator[Finding]:
    """What is misspelt in the list of actions or categories at a path."""
    for index, value in enumerate(values if isinstance(values, (list, tuple)) else ()):
        said = _name(value, key) if isinstance(value, str) else None
        if said is not None:
            yield finding(file, f"{at}[{index}]", "spelling", said)


def _name(value: str, key: str) -> str | None:
    if value.removeprefix("Intent.").startswith("FLAG_"):
        return words_lint.flag(value, key)
    if value.strip() != value:
        return words_lint.blanks(value)
    own, other, what, at = (ACTIONS, CATEGORIES, "a category", "category") if key == "action" else (CATEGORIES, ACTIONS, "an action", "action")
    if value in other:
        return words_lint.is_other(value, what, at)
    known = meant(value, own)
    return words_lint.spelled(value, known) if known else None


def _filter(file: DeviceFile, it: Filter, component: Component) -> Iterator[Finding]:
    if not it.actions:
        yield finding(file, it.at, "no-effect", words_lint.no_action())
    if component.kind != "activity":
        return
    if it.priority > 0:
        yield finding(file, f"{it.at}.priority", "no-effect", words_lint.priority_of_activity(it.priority))
    if VIEW in it.actions and BROWSABLE in it.categories and DEFAULT not in it.categories:
        yield finding(file, f"{it.at}.category", "no-default", words_lint.no_default())


def _row(file: DeviceFile, row: Mapping[str, Any], at: str, it: Filter) -> Iterator[Finding]:
    """A row of data. Schemes and hosts of the filter's other rows go with it, a port only with its own host."""
    has_scheme = any("scheme" in other for other in it.data)
    has_host = any("host" in other for other in it.data)
    yield from _host(file, row.get("host"), f"{at}.host")
    if "host" in row and not has_scheme:
        yield finding(file, f"{at}.host", "no-effect", words_lint.needs_beside("host", "scheme", "a row of the filter"))
    if "port" in row and "host" not in row:
        yield finding(file, f"{at}.port", "no-effect", words_lint.needs_beside("port", "host", "the same row"))
    for key in (key for key in PATHS if key in row):
        if not has_host:
            yield finding(file, f"{at}.{key}", "no-effect", words_lint.needs_beside(key, "host", "a row of the filter"))
    for key in ("path", "pathPrefix", "pathPattern"):
        value = row.get(key)
        if isinstance(value, str) and value and not _may_begin(value, is_pattern=key == "pathPattern"):
            yield finding(file, f"{at}.{key}", "no-effect", words_lint.path_without_slash(key, value))
    for key in ("scheme", "mimeType"):
        value = row.get(key)
        if isinstance(value, str) and value != value.lower():
            yield finding(file, f"{at}.{key}", "spelling", words_lint.lower_case(key, value))


def _may_begin(path: str, *, is_pattern: bool) -> bool:
    """Whether a link's path may begin as this one does."""
    # in a pattern a character before `*` may be left out
    return path[0] == "/" or (is_pattern and (path[0] in ".*\\" or path[1:2] == "*"))


def _host(file: DeviceFile, host: Any, at: str) -> Iterator[Finding]:
    said = _host_fault(host) if isinstance(host, str) else None
    if said is not None:
        yield finding(file, at, "host", said)


def _host_fault(host: str) -> str | None:
    scheme, separator, rest = host.partition("://")
    authority = (rest if separator else host).lstrip("/").partition("/")[0].partition("?")[0].rpartition("@")[2]
    bare, colon, _ = authority.partition(":")
    if separator:
        return words_lint.host_with(f"the scheme `{scheme}`", bare)
    if "/" in host or "?" in host:
        return words_lint.host_with("a path", bare)
    if colon and not authority.startswith("["):
        return words_lint.host_with("a port", bare)
    if host.strip() != host:
        return words_lint.blanks(host)
    return words_lint.wildcard_inside(host) if "*" in host[1:] else None


def _queries(file: DeviceFile, package: Package) -> Iterator[Finding]:
    base = f"{package.at}.manifest.queries.intent"
    intents = package.queries.get("intent")
    for index, table in enumerate(intents if isinstance(intents, list) else ()):
        if not isinstance(table, dict):
            continue
        action = table.get("action")
        said = _name(action, "action") if isinstance(action, str) else None
        if said is not None:
            yield finding(file, f"{base}[{index}].action", "spelling", said)
        yield from _names(file, table.get("category"), f"{base}[{index}].category", "category")
        yield from _host(file, table.get("host"), f"{base}[{index}].host")
        if "host" in table and "scheme" not in table:
            yield finding(file, f"{base}[{index}].host", "no-effect", words_lint.needs_beside("host", "scheme", "the same table"))


def _link(file: DeviceFile, link: Link) -> Iterator[Finding]:
    at = f"{link.at}.host"
    if _host_fault(link.host):
        yield from _host(file, link.host, at)
        return
    package = file.package(link.package)
    if package is None or not link.host:
        return
    if file.answers_as_phone:
        yield from _link_of_phone(file, link, package)
        return
    hosts = [hosts for component in package.components if component.kind == "activity" for hosts in _web_hosts(component)]
    if not any(not listed or any(_takes(it, link.host.lower()) for it in listed) for listed in hosts):
        near = difflib.get_close_matches(link.host.lower(), [it for listed in hosts for it in listed], 1, 0.7)
        yield finding(file, at, "no-effect", words_lint.link_unlisted(link.package, link.host, near[0] if near else None))


def _link_of_phone(file: DeviceFile, link: Link, package: Package) -> Iterator[Finding]:
    """A phone asks that the manifest has the host as it is approved."""
    declared = declared_hosts(package.components)
    if link.host.lower() not in declared:
        near = next((it for it in declared if covers(it, link.host)), None) or next(iter(difflib.get_close_matches(link.host.lower(), declared, 1, 0.7)), None)
        yield finding(file, f"{link.at}.host", "no-effect", words_lint.link_undeclared(link.package, link.host, near))


def _web_hosts(component: Component) -> Iterator[tuple[str, ...]]:
    """The hosts of each filter that views web links; a filter without one takes them all."""
    for it in component.filters:
        if VIEW in it.actions and any(str(row.get("scheme")).lower() in WEB_SCHEMES for row in it.data):
            yield tuple(str(row["host"]).lower() for row in it.data if "host" in row)


def _takes(listed: str, host: str) -> bool:
    return host.endswith(listed[1:]) if listed.startswith("*") else listed == host


def _browser(file: DeviceFile) -> Iterator[Finding]:
    if file.browser is None:
        return
    package = file.package(file.browser)
    # a browser that isn't installed is allowed, a misspelt one isn't meant
    near = near_name(file.browser, file.names) if package is None else None
    if near:
        yield finding(file, "browser", "spelling", words_lint.no_such_browser(file.browser, near))
    if package is not None and file.answers_as_phone and not _is_browser(package):
        yield finding(file, "browser", "no-effect", words_lint.no_browser(file.browser))


def _is_browser(package: Package) -> bool:
    return any(makes_browser(it) for component in package.components if component.kind == "activity" for it in component.filters)
