"""Statements of Digital Asset Links, read offline: for which hosts an app would be approved.

Certificates aren't compared: a manifest has none.
"""
from collections.abc import Iterable, Iterator, Mapping
from dataclasses import dataclass
from pathlib import Path
from typing import Any
from urllib.parse import urlsplit

from amctl import words_check
from amctl.files import read_json
from amctl.errors import BadWords

RELATION = "delegate_permission/common.handle_all_urls"
WHAT = "statements of Digital Asset Links"
FORM = "write an object with each host and the list in its `/.well-known/assetlinks.json`, or take a reply of the API `statements:list`"


@dataclass(frozen=True)
class Statements:
    """The packages that each host names."""

    packages: Mapping[str, frozenset[str]]

    def name(self, host: str, package: str) -> bool:
        """Whether the host's statements name the package; a wildcard's are at the host below it."""
        return package in self.packages.get(host.lower().removeprefix("*").removeprefix("."), frozenset())


def read_statements(path: Path) -> Statements:
    document = read_json(path, WHAT, FORM)
    found: dict[str, set[str]] = {}
    try:
        for host, package in _pairs(document):
            found.setdefault(host.lower(), set()).add(package)
    except (AttributeError, KeyError, TypeError, ValueError) as fault:
        raise BadWords(words_check.bad_file(path, WHAT, f"{type(fault).__name__} {fault}", FORM)) from None
    return Statements({host: frozenset(names) for host, names in found.items()})


def _pairs(document: Any) -> Iterator[tuple[str, str]]:
    """Each host with each package that it names."""
    if not isinstance(document, dict):
        raise ValueError("no object at the top")
    if isinstance(document.get("statements"), list):
        for statement in document["statements"]:
            host = urlsplit(statement["source"]["web"]["site"]).hostname or ""
            # the API writes a whole name with a dot at its end
            yield from ((host.removesuffix("."), it) for it in _packages([statement]))
        return
    for host, statements in document.items():
        yield from ((host, it) for it in _packages(statements))


def _packages(statements: Iterable[Mapping[str, Any]]) -> Iterator[str]:
    for statement in statements:
        relation, target = statement["relation"], statement["target"]
        if RELATION in ([relation] if isinstance(relation, str) else relation):
            # a website's file and the API write an app in two ways
            if target.get("namespace") == "android_app":
                yield str(target["package_name"])
            elif "androidApp" in target:
                yield str(target["androidApp"]["packageName"])
