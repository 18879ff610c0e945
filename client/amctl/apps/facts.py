"""What a check needs to know about a package and a device file can't say."""
from collections.abc import Iterable, Iterator, Mapping
from dataclasses import dataclass
from typing import Any

from amctl.android import BROWSABLE, VIEW, WEB_SCHEMES
from amctl.apps.components import FIRST_LEVEL, target_level
from amctl.apps.elements import Element, Reference
from amctl.apps.levels import level_of
from amctl.apps.sayable import Unsayable, number, text, truth


@dataclass(frozen=True)
class Permission:
    """A permission that a package declares; its level is None if it isn't known."""

    name: str
    level: str | None


@dataclass(frozen=True)
class Facts:
    """A number is None if the manifest gives a name in its place, or nothing."""

    permissions: tuple[Permission, ...]
    uses_permissions: tuple[str, ...]
    auto_verify: tuple[str, ...]
    shared_user_id: str | None
    target_sdk_version: int | None
    min_sdk_version: int | None
    version_code: int | None

    def to_json(self) -> dict[str, Any]:
        """The facts as `--facts` writes them."""
        return {
            "autoVerify": list(self.auto_verify),
            "minSdkVersion": self.min_sdk_version,
            "permissions": [{"name": it.name, "protectionLevel": it.level} for it in self.permissions],
            "sharedUserId": self.shared_user_id,
            "targetSdkVersion": self.target_sdk_version,
            "usesPermissions": list(self.uses_permissions),
            "versionCode": self.version_code,
        }


def facts_of(root: Element, asked: Iterable[str]) -> Facts:
    """The facts of a manifest that asks for these permissions on every device."""
    return Facts(
        permissions=tuple(permissions_of(root)),
        uses_permissions=tuple(sorted(asked)),
        auto_verify=tuple(sorted(set(verified_hosts(root)))),
        shared_user_id=root.get("sharedUserId") or None,
        target_sdk_version=target_level(root),
        min_sdk_version=least_level(root),
        version_code=version_of(root),
    )


def permissions_of(root: Element) -> Iterator[Permission]:
    """The permissions that a manifest declares, each once, by their names."""
    found: dict[str, Permission] = {}
    for element in root.all("permission"):
        name, level = element.get("name"), level_of(element)
        if name and not isinstance(name, Reference):
            found.setdefault(name, Permission(name, None if isinstance(level, Reference) else level))
    yield from (found[name] for name in sorted(found))


def least_level(root: Element) -> int | None:
    """The least API level that an app runs on, or none for a name."""
    stated = [element.get("minSdkVersion") for element in root.all("uses-sdk")[:1]]
    return number_or_none(stated[0]) if stated and stated[0] is not None else FIRST_LEVEL


def version_of(root: Element) -> int | None:
    """The version's number; the major one counts above its 32 bits."""
    code, major = number_or_none(root.get("versionCode")), number_or_none(root.get("versionCodeMajor"))
    return None if code is None else (major or 0) << 32 | code & 0xFFFFFFFF


def number_or_none(value: str | None) -> int | None:
    try:
        return number(value)
    except Unsayable:
        return None


def verified_hosts(root: Element) -> Iterator[str]:
    """The hosts of the filters that ask for verification and that take only web links, in lower case."""
    for application in root.all("application")[:1]:
        for activity in application.all("activity", "activity-alias"):
            for element in activity.all("intent-filter"):
                if is_true(element.get("autoVerify")) and takes_web_alone(element):
                    yield from (host.lower() for host in said(element, "data", "host"))


def takes_web_alone(element: Element) -> bool:
    """Whether Android sees a filter of web links in it, and of nothing else."""
    schemes = set(said(element, "data", "scheme"))
    return (
        VIEW in said(element, "action", "name")
        and BROWSABLE in said(element, "category", "name")
        and bool(schemes)
        and schemes <= set(WEB_SCHEMES)
    )


def said(element: Element, tag: str, name: str) -> list[str]:
    """What the children of this tag say under this name, if it's known."""
    found = []
    for child in element.all(tag):
        try:
            found.append(text(child.get(name)))
        except Unsayable:
            continue
    return found


def is_true(value: str | None) -> bool:
    try:
        return truth(value)
    except Unsayable:
        return False


def document(facts: Mapping[str, Facts]) -> dict[str, Any]:
    """The facts of packages as `--facts` writes them."""
    return {"packages": {name: facts[name].to_json() for name in sorted(facts)}}
