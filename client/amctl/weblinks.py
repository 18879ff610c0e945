"""What a phone goes by when it opens web links: which approvals count, and what a browser is."""
from collections.abc import Iterable, Iterator

from amctl.android import APP_BROWSER, BROWSABLE, VIEW, WEB_SCHEMES
from amctl.devicefile import Component, Filter

WILDCARD = "*."


def declared_hosts(components: Iterable[Component]) -> tuple[str, ...]:
    """The hosts of which an approval counts, in lower case: those in an activity's filter for web pages, each once."""
    filters = (filter for it in components if it.kind == "activity" for filter in it.filters)
    return tuple(dict.fromkeys(host for it in filters if _views_pages(it) for host in _hosts(it)))


def covers(approved: str, host: str) -> bool:
    """Whether an approval of the one is one for the other."""
    one, other = approved.lower(), host.lower()
    return one == other or (one.startswith(WILDCARD) and other.endswith(one.removeprefix(WILDCARD)))


def approvals_for(components: Iterable[Component], host: str) -> tuple[str, ...]:
    """The hosts to approve so that a package may open links to a host; itself first."""
    return tuple(sorted((it for it in declared_hosts(components) if covers(it, host)), key=lambda it: it != host.lower()))


def makes_browser(filter: Filter) -> bool:
    """Whether an activity that is found by this filter is a browser: an app for some hosts is none."""
    return bool(filter.actions) and (APP_BROWSER in filter.categories or (_views_pages(filter) and not any(_hosts(filter))))


def _views_pages(filter: Filter) -> bool:
    return VIEW in filter.actions and BROWSABLE in filter.categories and any(row.get("scheme") in WEB_SCHEMES for row in filter.data)


def _hosts(filter: Filter) -> Iterator[str]:
    yield from (host.lower() for row in filter.data if isinstance(host := row.get("host"), str))
