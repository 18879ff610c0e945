"""The rows of a store, read as they are: a store is a database of SQLite with one table."""
import shutil
import sqlite3
import tempfile
import tomllib
from collections.abc import Iterator, Mapping
from contextlib import closing
from dataclasses import dataclass, field
from pathlib import Path
from typing import Any

from amctl import words_lint
from amctl.errors import BadWords

PACKAGE, GRANT, LINK = 0, 1, 2
QUERY = "SELECT kind, uid, word, name, access, manifest, truth FROM kept ORDER BY kind, uid, word"


@dataclass(frozen=True)
class KeptPackage:
    """A package that was installed by a request, or is gone. Its key is never shown."""

    uid: int
    name: str
    key: str = field(repr=False)
    manifest: str = field(repr=False)
    gone: bool


@dataclass(frozen=True)
class KeptRight:
    """A permission or a host that was given to a uid, or taken from it."""

    uid: int
    text: str
    held: bool


@dataclass(frozen=True)
class Kept:
    packages: tuple[KeptPackage, ...] = ()
    grants: tuple[KeptRight, ...] = ()
    links: tuple[KeptRight, ...] = ()

    @property
    def uids(self) -> Iterator[int]:
        """All uids that a row names."""
        yield from (it.uid for it in self.packages)
        yield from (it.uid for it in (*self.grants, *self.links))


def read_kept(store: Path) -> Kept:
    """The rows of a store. A file that isn't there yet has none."""
    if not store.exists():
        return Kept()
    try:
        rows = _rows(store)
    except (OSError, sqlite3.Error) as fault:
        raise BadWords(words_lint.no_store(store, str(fault))) from None
    packages = tuple(KeptPackage(uid, name, key, manifest, bool(truth)) for kind, uid, _, name, key, manifest, truth in rows if kind == PACKAGE)
    grants, links = (tuple(KeptRight(row[1], row[2], bool(row[6])) for row in rows if row[0] == kind) for kind in (GRANT, LINK))
    return Kept(packages, grants, links)


def manifest_of(text: str) -> Mapping[str, Any]:
    """The table of a manifest's text; an empty one if it isn't TOML."""
    try:
        return tomllib.loads(text)
    except tomllib.TOMLDecodeError:
        return {}


def _rows(store: Path) -> list[tuple[int, int, str, str, str, str, int]]:
    # a reader would leave a file beside the store, and one that a session holds can't be read in place
    with tempfile.TemporaryDirectory() as folder:
        copy = Path(folder) / "rows"
        shutil.copyfile(store, copy)
        log = store.with_name(f"{store.name}-wal")
        if log.exists():
            shutil.copyfile(log, copy.with_name("rows-wal"))
        with closing(sqlite3.connect(copy)) as database:
            return database.execute(QUERY).fetchall()
