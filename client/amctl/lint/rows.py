"""Kept rows that don't fit the device file."""
from collections.abc import Iterator
from pathlib import Path

from amctl import words_lint
from amctl.android import FIRST_UID
from amctl.devicefile import DeviceFile
from amctl.findings.finding import Finding
from amctl.kept import Kept, KeptPackage

RULE = "kept-rows"


def check(file: DeviceFile, store: Path, kept: Kept) -> Iterator[Finding]:
    """What a store keeps for packages that aren't there. What a removed package had stays in its store, and isn't a fault."""
    live = {FIRST_UID + at: package.name for at, package in enumerate(file.packages)}
    gone = {row.uid for row in kept.packages if row.gone}
    keys = _keys(file, gone)
    names = {name for uid, name in live.items() if uid not in gone}
    for row in (row for row in kept.packages if not row.gone):
        why = _misfit(row, live, names, keys)
        if why is not None:
            yield Finding(RULE, row.name, words_lint.kept_package(store, row.name, why), tool="lint")
    known = {*live, *(row.uid for row in kept.packages)}
    for what, rights in (("the permission", kept.grants), ("the approval for", kept.links)):
        for right in rights:
            if right.held and right.uid not in known:
                yield Finding(RULE, f"uid {right.uid}", words_lint.kept_right(store, f"{what} {right.text}", right.uid), tool="lint")


def _misfit(row: KeptPackage, live: dict[int, str], names: set[str], keys: set[str]) -> str | None:
    if row.uid in live:
        return words_lint.uid_taken(row.uid, live[row.uid])
    if row.name in names:
        return words_lint.name_taken()
    return words_lint.key_taken() if row.key in keys else None


def _keys(file: DeviceFile, gone: set[int]) -> set[str]:
    """The keys in use: those of packages that a row removes are free again."""
    own = {package.key for at, package in enumerate(file.packages) if FIRST_UID + at not in gone}
    return own | {str(file.document[key]) for key in ("system_key", "root_key") if key in file.document}
