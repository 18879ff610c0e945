"""One finding for all links of a host of which the same is said: an app may list hundreds of paths."""
import dataclasses
from collections.abc import Iterable, Iterator, Sequence
from urllib.parse import urlsplit

from amctl import words
from amctl.findings.finding import Finding
from amctl.intents import Intent
from amctl.words import host_and_path

Said = tuple[Intent, Finding]
ANY_PATH = "/..."


def of_hosts(found: Iterable[Said]) -> Iterator[Finding]:
    """The findings, each with the intent that it is about; those that differ by path and scheme alone become one."""
    groups: dict[tuple[object, ...], list[Said]] = {}
    for intent, finding in found:
        host = host_and_path(intent.data)[0]
        if host:
            groups.setdefault(_key(host, intent, finding), []).append((intent, finding))
        else:
            yield finding
    for group in groups.values():
        first = group[0][1]
        exchanges = tuple(it for _, finding in group for it in finding.exchanges)
        yield first if len(group) == 1 else dataclasses.replace(first, about=_about([it for it, _ in group]), exchanges=exchanges)


def _key(host: str, intent: Intent, finding: Finding) -> tuple[object, ...]:
    return finding.rule, finding.message, host, intent.action, intent.type, frozenset(intent.categories)


def _about(intents: Sequence[Intent]) -> str:
    """The links in one, such as `http|https://a.example/...`."""
    links = [urlsplit(it.data or "") for it in intents]
    schemes = "|".join(dict.fromkeys(it.scheme for it in links))
    places = {it.netloc + it.path for it in links}
    place = places.pop() if len(places) == 1 else f"{host_and_path(intents[0].data)[0]}{ANY_PATH}"
    return words.intent(dataclasses.replace(intents[0], data=f"{schemes}://{place}"))
