"""What a device file can't say of its packages, and the converter writes in another file: permissions, verified hosts and the like."""
import json
from collections.abc import Mapping
from dataclasses import dataclass, field
from pathlib import Path
from typing import Any

from amctl import words_check
from amctl.errors import BadWords
from amctl.files import read_json


@dataclass(frozen=True)
class PackageFacts:
    """What is known of a package: the permissions that it defines, each with its level, and the hosts that it asks to have verified."""

    permissions: Mapping[str, str] = field(default_factory=dict)
    auto_verify: tuple[str, ...] = ()


@dataclass(frozen=True)
class Facts:
    packages: Mapping[str, PackageFacts] = field(default_factory=dict)

    def of(self, package: str) -> PackageFacts | None:
        return self.packages.get(package)

    def level(self, permission: str) -> str | None:
        """The level of a permission, if some package is known to define it."""
        return next((it.permissions[permission] for it in self.packages.values() if permission in it.permissions), None)

    def with_package(self, name: str, facts: PackageFacts) -> "Facts":
        return Facts({**self.packages, name: facts})


def read_facts(path: Path | None) -> Facts:
    if path is None:
        return Facts()
    document = read_json(path, "facts", FORM)
    packages = document.get("packages") if isinstance(document, dict) else None
    if not isinstance(packages, dict):
        raise BadWords(words_check.bad_file(path, "facts", "no object `packages`", FORM))
    try:
        return Facts({name: package_facts(it) for name, it in packages.items()})
    except (AttributeError, KeyError, TypeError, ValueError) as fault:
        raise BadWords(words_check.bad_file(path, "facts", f"{type(fault).__name__} {fault}", FORM)) from None


FORM = "take the file NAME.facts.json that tools/device_from_apks writes"


def package_facts(fields: Mapping[str, Any]) -> PackageFacts:
    # Android takes a level that isn't stated as normal; one that is null isn't known
    permissions = {str(it["name"]): str(it.get("protectionLevel", "normal") or "") for it in fields.get("permissions") or ()}
    return PackageFacts(permissions, tuple(str(it) for it in fields.get("autoVerify") or ()))
