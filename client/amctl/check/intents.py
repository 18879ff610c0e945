"""The intents to ask with: one for each combination of action, scheme, host, path and type that a filter names."""
import itertools
from collections.abc import Iterable, Iterator, Sequence
from dataclasses import dataclass

from amctl.check import witness
from amctl.devicefile import Component, Filter, Kind
from amctl.intents import Intent

DEFAULT = "android.intent.category.DEFAULT"
WEB = ("http", "https")
# a broadcast is asked as if each package had been started once, since a new one is stopped until then
STARTED_ONCE = ("INCLUDE_STOPPED",)


@dataclass(frozen=True)
class Question:
    """An intent, and the first filter that it was made for."""

    kind: Kind
    intent: Intent
    component: Component
    filter: Filter

    @property
    def key(self) -> tuple[object, ...]:
        """What tells two questions apart."""
        return self.kind, self.intent.action, self.intent.data, self.intent.type, frozenset(self.intent.categories)

    @property
    def plain_key(self) -> tuple[object, ...]:
        """The key of the same question without categories."""
        return *self.key[:-1], frozenset[str]()


def questions(components: Sequence[Component]) -> list[Question]:
    """The intents that the filters of activities and receivers take, each once. A service takes none that names nobody."""
    found: dict[tuple[object, ...], Question] = {}
    for kind in ("activity", "receiver"):
        of_kind = [it for it in components if it.kind == kind]
        pool = _Pool.of(filter for it in of_kind for filter in it.filters)
        for component in of_kind:
            for filter in component.filters:
                for intent in _intents(component.kind, filter, pool):
                    question = Question(component.kind, intent, component, filter)
                    found.setdefault(question.key, question)
    return list(found.values())


@dataclass(frozen=True)
class _Pool:
    """What all filters name: one that takes more than it names is asked with what the others name."""

    hosts: tuple[str, ...]
    types: tuple[str, ...]

    @classmethod
    def of(cls, filters: Iterable[Filter]) -> "_Pool":
        rows = [row for filter in filters for row in filter.data]
        return cls(tuple(dict.fromkeys(witness.host_of(it) for it in _texts(rows, "host"))), tuple(dict.fromkeys(_texts(rows, "mimeType"))))


def _texts(rows: Iterable["dict[str, object] | object"], key: str) -> Iterator[str]:
    for row in rows:
        value = row.get(key) if isinstance(row, dict) else None
        if isinstance(value, str):
            yield value


def _intents(kind: Kind, filter: Filter, pool: _Pool) -> Iterator[Intent]:
    categories = tuple(it for it in filter.categories if it != DEFAULT)
    data = list(_data(filter, pool))
    flags = STARTED_ONCE if kind == "receiver" else ()
    for action, (uri, mime), asked in itertools.product(filter.actions, data, dict.fromkeys(((), categories))):
        yield Intent(action=action, data=uri, type=mime, categories=asked, flags=flags)


def _data(filter: Filter, pool: _Pool) -> Iterator[tuple[str | None, str | None]]:
    """A URI and a type, either of which may be missing."""
    schemes = list(dict.fromkeys(_texts(filter.data, "scheme")))
    types = list(dict.fromkeys(it for mime in _texts(filter.data, "mimeType") for it in witness.types_of(mime, pool.types)))
    uris = [uri for scheme in schemes for uri in _uris(scheme, filter, pool)]
    if uris:
        typed: list[str | None] = [*types]
        yield from itertools.product(uris, typed or [None])
    elif types:
        # without a scheme a filter takes local content too
        yield from itertools.product([None, f"content://{witness.ANY}/{witness.ANY}"], types)
    else:
        yield None, None


def _uris(scheme: str, filter: Filter, pool: _Pool) -> Iterator[str]:
    hosts = list(dict.fromkeys(_hosts(filter, pool)))
    if not hosts:
        yield f"{scheme}://{witness.ANY}.example/" if scheme in (*WEB, "content") else f"{scheme}:{witness.ANY}"
        return
    paths = list(dict.fromkeys(it for row in filter.data for it in witness.paths_of(row))) or ["/"]
    for host, path in itertools.product(hosts, paths):
        yield f"{scheme}://{host}{witness.encoded(path)}"


def _hosts(filter: Filter, pool: _Pool) -> Iterator[str]:
    """The filter's hosts with their ports; a wildcard is asked with the others' hosts too."""
    for row in filter.data:
        host, port = row.get("host"), row.get("port")
        if isinstance(host, str):
            named = [witness.host_of(host)]
            if host.startswith("*"):
                named += [it for it in pool.hosts if witness.takes_host(host, it)]
            yield from (f"{it}:{port}" if isinstance(port, int) else it for it in named)
