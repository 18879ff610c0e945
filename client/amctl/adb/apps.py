"""Files of apps: manifests in TOML, and what the converter reads, which are APKs and manifests in XML."""
from dataclasses import dataclass
from pathlib import Path

from amctl import words_adb
from amctl.adb.console import NotServed
from amctl.errors import AmctlError

BUNDLES = (".apex", ".apks", ".apkm", ".xapk", ".aab")
TOML = ".toml"


class Unparsed(AmctlError):
    """Why the converter can't read an app."""


@dataclass(frozen=True)
class Given:
    """What is installed: a manifest's text; of an app that was converted, what it asks for, and how much was left out of it."""

    manifest: str
    asked: tuple[str, ...] = ()
    left_out: int = 0


def check_name(path: str) -> None:
    if path.lower().endswith(BUNDLES):
        raise NotServed(words_adb.no_bundle(path))


def read(path: Path) -> Given:
    """Reads the app; a file that can't be read at all is an OSError or a UnicodeDecodeError."""
    if path.suffix.lower() == TOML:
        return Given(path.read_text(encoding="utf-8"))
    with path.open("rb"):
        pass
    # the readers of APKs take a while to load
    from amctl.apps import InputFault, read_app

    try:
        found = read_app(path)
    except InputFault as fault:
        raise Unparsed(f"{path}: {fault}") from None
    return Given(found.manifest, found.facts.uses_permissions, len(found.left_out))
