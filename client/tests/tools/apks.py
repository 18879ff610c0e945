"""APKs of a device file's packages, by Debian's aapt2."""
import shutil
import subprocess
import tempfile
import tomllib
import xml.etree.ElementTree as ET
from collections.abc import Callable, Mapping
from pathlib import Path
from typing import Any

from tools import manifests

FRAMEWORK = Path("/usr/share/android-framework-res/framework-res.apk")
Change = Callable[[str, ET.Element], None]


def missing() -> tuple[str, ...]:
    """The packages of Debian that lack here."""
    there = {"aapt": shutil.which("aapt2") is not None, "android-framework-res": FRAMEWORK.exists()}
    return tuple(name for name, found in there.items() if not found)


def build(root: ET.Element, path: Path) -> Path:
    """Makes an APK of a manifest."""
    with tempfile.TemporaryDirectory() as folder:
        Path(folder, "AndroidManifest.xml").write_text(manifests.text_of(root), encoding="utf-8")
        command = ["aapt2", "link", "-I", str(FRAMEWORK), "--warn-manifest-validation", "--manifest", "AndroidManifest.xml", "-o", str(path.absolute())]
        ran = subprocess.run(command, cwd=folder, capture_output=True, text=True)
    assert ran.returncode == 0, f"{path}: {ran.stderr}"
    return path


def build_all(device: Path, folder: Path, splits: Mapping[str, Mapping[str, tuple[str, ...]]], change: Change) -> dict[str, tuple[Path, ...]]:
    """The APKs of each package of a device file, the base first. `splits` has the classes that are in a split of their own, by package and
    kind, and `change` may alter a base's manifest."""
    document = tomllib.loads(device.read_text(encoding="utf-8"))
    found: dict[str, tuple[Path, ...]] = {"android": (build(manifests.system_manifest(document.get("protected", ())), folder / "framework-res.apk"),)}
    for package in document.get("package", ()):
        found[package["manifest"]["package"]] = _build_package(package["manifest"], folder, splits, change)
    return found


def _build_package(package: dict[str, Any], folder: Path, splits: Mapping[str, Mapping[str, tuple[str, ...]]], change: Change) -> tuple[Path, ...]:
    name = package["package"]
    apart = splits.get(name, {})
    inside = {**package, **{kind: [it for it in package.get(kind, ()) if it["name"] not in apart.get(kind, ())] for kind in manifests.KINDS}}
    root = manifests.manifest(inside)
    change(name, root)
    base = build(root, folder / f"{name}.apk")
    if not apart:
        return (base,)
    of_split = {kind: [it for it in package[kind] if it["name"] in classes] for kind, classes in apart.items()}
    feature = build(manifests.split_manifest(name, "feature", of_split), folder / f"{name}.feature.apk")
    return base, feature, build(manifests.split_manifest(name, "config.en", {}), folder / f"{name}.config.apk")
