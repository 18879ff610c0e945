"""What the tests of `amctl check` share: devices and manifests as short texts, and a check of them."""
import io
import json
from collections.abc import Iterable
from dataclasses import dataclass, field
from pathlib import Path
from typing import Any

from amctl.check import Asked, Finding, check, main

VIEW, SEND = "android.intent.action.VIEW", "android.intent.action.SEND"
DEFAULT, BROWSABLE = "android.intent.category.DEFAULT", "android.intent.category.BROWSABLE"
APP = "com.new"


def filter_of(action: str = "x.A", rows: str = "", priority: int = 0, categories: Iterable[str] = (DEFAULT,)) -> str:
    listed = ", ".join(f'"{it}"' for it in categories)
    return f'{{ action = ["{action}"], category = [{listed}], data = [{rows}], priority = {priority} }}'


def web(host: str | None, priority: int = 0, path: str = "") -> str:
    """A filter for web links, of any host if none is named."""
    at = f', host = "{host}"' if host else ""
    under = f', pathPrefix = "{path}"' if path else ""
    return filter_of(VIEW, f'{{ scheme = "https"{at}{under} }}', priority, (DEFAULT, BROWSABLE))


def component(kind: str = "activity", name: str = ".C", filters: Iterable[str] = (), others: str = "exported = true") -> str:
    return f'[[{kind}]]\nname = "{name}"\n{others}\nintent-filter = [{", ".join(filters)}]\n'


def app(*components: str, package: str = APP, top: str = "") -> str:
    """A manifest: the first component's name is in line 4."""
    return f'package = "{package}"\n{top}\n' + "".join(components)


def device(*manifests: str, top: str = "", end: str = "") -> str:
    """A device of these manifests."""
    return f'system_key = "sys"\n{top}\n' + "".join(_package(number, it) for number, it in enumerate(manifests, 1)) + end


def _package(number: int, manifest: str) -> str:
    return f'[[package]]\nkey = "k{number}"\n[package.manifest]\n' + manifest.replace("[[", "[[package.manifest.")


OLD = app(component(filters=[filter_of()]), package="com.old")
BROWSER = app(component(filters=[web(None)]), package="com.browser")


@dataclass
class Checked:
    """The files of a check; those of options have their names."""

    folder: Path
    device: str = field(default_factory=lambda: device(OLD))
    manifest: str = field(default_factory=app)
    options: dict[str, Any] = field(default_factory=dict)

    def asked(self) -> Asked:
        paths = {name: self._written(f"{name}.json", json.dumps(it) if not isinstance(it, str) else it) for name, it in self.options.items()}
        return Asked(self._written("app.toml", self.manifest), self.device_file(), **paths)

    def device_file(self) -> Path:
        return self._written("device.toml", self.device)

    def _written(self, name: str, text: str) -> Path:
        path = self.folder / name
        path.write_text(text, encoding="utf-8")
        return path

    def findings(self) -> tuple[Finding, ...]:
        return check(self.asked()).findings

    def printed(self, **words: Any) -> tuple[int, str]:
        out = io.StringIO()
        return main(self.asked(), out=out, **words), out.getvalue()
