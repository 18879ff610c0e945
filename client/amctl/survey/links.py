"""The links that the filters of a package's activities name."""
import itertools
from collections.abc import Iterator, Sequence

from amctl.check import witness
from amctl.devicefile import Component, Filter
from amctl.intents import VIEW

WEB = ("http", "https")
# a filter's schemes, hosts and paths are merged, so a few lines may name hundreds of thousands of links
MOST_OF_FILTER = 1024


def named(components: Sequence[Component]) -> tuple[tuple[str, ...], int]:
    """The links, each once, and how many more there would be."""
    found: dict[str, None] = {}
    left = 0
    for filter in (filter for it in components if it.kind == "activity" for filter in it.filters if VIEW in filter.actions):
        of_filter = dict.fromkeys(_links(filter))
        found |= dict.fromkeys(itertools.islice(of_filter, MOST_OF_FILTER))
        left += max(0, len(of_filter) - MOST_OF_FILTER)
    return tuple(found), left


def _links(filter: Filter) -> Iterator[str]:
    hosts = list(dict.fromkeys(_hosts(filter)))
    paths = list(dict.fromkeys(it for row in filter.data for it in witness.paths_of(row))) or ["/"]
    for scheme in dict.fromkeys(it for row in filter.data if isinstance(it := row.get("scheme"), str)):
        if hosts:
            yield from (f"{scheme}://{host}{witness.encoded(path)}" for host, path in itertools.product(hosts, paths))
        else:
            yield f"{scheme}://{witness.ANY}.example/" if scheme in WEB else f"{scheme}:{witness.ANY}"


def _hosts(filter: Filter) -> Iterator[str]:
    for row in filter.data:
        host, port = row.get("host"), row.get("port")
        if isinstance(host, str):
            yield witness.host_of(host) + (f":{port}" if isinstance(port, int) else "")
