"""A package of a device file as AndroidManifest.xml."""
import xml.etree.ElementTree as ET
from collections.abc import Iterable, Mapping
from typing import Any

ANDROID = "http://schemas.android.com/apk/res/android"
KINDS = ("activity", "service", "receiver")
ATTRIBUTES = ("name", "exported", "enabled", "permission", "launchMode", "taskAffinity")
ET.register_namespace("android", ANDROID)


def manifest(package: Mapping[str, Any], level: int = 31) -> ET.Element:
    """The manifest of a package, which targets this API level."""
    root = ET.Element("manifest", {"package": package["package"]})
    _add(root, "uses-sdk", minSdkVersion=level, targetSdkVersion=level)
    application = _add(root, "application")
    for kind in KINDS:
        for component in package.get(kind, ()):
            add_component(application, kind, component)
    _add_queries(root, package.get("queries", {}))
    return root


def system_manifest(protected: Iterable[str]) -> ET.Element:
    """The manifest of the system's own package, which protects these broadcasts."""
    root = ET.Element("manifest", {"package": "android"})
    for action in protected:
        _add(root, "protected-broadcast", name=action)
    return root


def split_manifest(package: str, split: str, kinds: Mapping[str, Iterable[Mapping[str, Any]]]) -> ET.Element:
    """The manifest of a package's split, with components of its own."""
    root = ET.Element("manifest", {"package": package, "split": split})
    application = _add(root, "application")
    for kind, components in kinds.items():
        for component in components:
            add_component(application, kind, component)
    return root


def text_of(root: ET.Element) -> str:
    return ET.tostring(root, encoding="unicode")


def add_component(application: ET.Element, kind: str, component: Mapping[str, Any]) -> ET.Element:
    element = _add(application, kind, **{key: component[key] for key in ATTRIBUTES if key in component})
    for filter in component.get("intent-filter", ()):
        _add_filter(element, filter)
    return element


def _add_filter(component: ET.Element, filter: Mapping[str, Any]) -> None:
    priority = {"priority": filter["priority"]} if "priority" in filter else {}
    element = _add(component, "intent-filter", **priority)
    for tag in ("action", "category"):
        for name in filter.get(tag, ()):
            _add(element, tag, name=name)
    for row in filter.get("data", ()):
        _add(element, "data", **row)


def _add_queries(root: ET.Element, queries: Mapping[str, Any]) -> None:
    if not queries:
        return
    element = _add(root, "queries")
    for name in queries.get("package", ()):
        _add(element, "package", name=name)
    for signature in queries.get("intent", ()):
        intent = _add(element, "intent")
        _add(intent, "action", name=signature["action"])
        for category in signature.get("category", ()):
            _add(intent, "category", name=category)
        data = {key: signature[key] for key in ("scheme", "host", "mimeType") if key in signature}
        if data:
            _add(intent, "data", **data)


def _add(parent: ET.Element, tag: str, **attributes: Any) -> ET.Element:
    return ET.SubElement(parent, tag, {f"{{{ANDROID}}}{key}": _written(value) for key, value in attributes.items()})


def _written(value: Any) -> str:
    return str(value).lower() if isinstance(value, bool) else str(value)
