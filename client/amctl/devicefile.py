"""Device files: their keys, packages, components and filters, and the place of each."""
import difflib
import functools
import re
import tomllib
from collections.abc import Iterator, Mapping
from dataclasses import dataclass, field
from pathlib import Path
from typing import Any, Literal

from amctl import words
from amctl.errors import BadWords, DeviceFault, NotToml
from amctl.places import Place, places

Kind = Literal["activity", "service", "receiver"]
KINDS: tuple[Kind, ...] = ("activity", "service", "receiver")
SYSTEM = "android"
# by which rules a device answers: the profile's unless its file says otherwise
PROFILE, ANDROID_12 = "profile", "android-12"
RULES = (PROFILE, ANDROID_12)
# a line of a fault is shown, but never a key in it
KEY_VALUE = re.compile(r"""((?:^|[\s{,.])["']?(?:system_key|root_key|key)["']?\s*=\s*)("(?:[^"\\]|\\.)*"?|'[^']*'?|[^,}\s]+)""")
# if a text isn't closed nobody knows where the key ends, and its name may be misspelt too
KEY_AND_REST = re.compile(r"""((?:^|[\s{,.])["']?[\w-]*key[\w-]*["']?\s*=\s*)\S.*""", re.IGNORECASE)
# a key that goes on below its line, and what ends it
KEY_OPENED = re.compile(r"""(?:^|[\s{,.])["']?(?:system_key|root_key|key)["']?\s*=\s*("{3}|'{3}|\[)""")
ENDS = {'"""': '"""', "'''": "'''", "[": "]"}
TOML_PLACE = re.compile(r" \(at (?:line (\d+), column (\d+)|end of document)\)$")


@dataclass(frozen=True)
class Filter:
    """A filter of a manifest; `at` is its path in the file."""

    at: str
    actions: tuple[str, ...]
    categories: tuple[str, ...]
    priority: int
    data: tuple[Mapping[str, Any], ...]


@dataclass(frozen=True)
class Component:
    """A component of a manifest, with its whole class; `exported` is None if the file doesn't state it."""

    at: str
    kind: Kind
    package: str
    name: str
    exported: bool | None
    enabled: bool
    permission: str | None
    launch_mode: str | None
    task_affinity: str | None
    filters: tuple[Filter, ...]

    @property
    def component(self) -> str:
        """`package/class`, as `am` writes it."""
        return f"{self.package}/{self.name}"


@dataclass(frozen=True)
class Package:
    """A package of the file. Its key is never shown."""

    at: str
    name: str
    key: str = field(repr=False)
    components: tuple[Component, ...] = ()
    queries: Mapping[str, Any] = field(default_factory=dict)


@dataclass(frozen=True)
class Grant:
    at: str
    package: str
    permission: str


@dataclass(frozen=True)
class Link:
    at: str
    package: str
    host: str


@dataclass(frozen=True)
class DeviceFile:
    """A device file that is valid TOML. Entries that have no name or aren't tables are left out: `am` refuses them."""

    path: Path
    text: str = field(repr=False)
    document: Mapping[str, Any] = field(repr=False)

    @classmethod
    def read(cls, path: str | Path) -> "DeviceFile":
        """Reads the file, or says why it can't be read."""
        path = Path(path)
        return cls.parse(path, text_of(path))

    @classmethod
    def parse(cls, path: Path, text: str) -> "DeviceFile":
        try:
            # TOML knows both ends of lines, and `am` too; places count one character for either
            return cls(path, text, tomllib.loads(text))
        except tomllib.TOMLDecodeError as fault:
            raise _not_toml(path, text, fault) from None

    @functools.cached_property
    def packages(self) -> tuple[Package, ...]:
        return tuple(_packages(self.document))

    @functools.cached_property
    def grants(self) -> tuple[Grant, ...]:
        rows = _tables(self.document, "", "grant")
        return tuple(Grant(at, _text(row, "package"), _text(row, "permission")) for at, row in rows)

    @functools.cached_property
    def links(self) -> tuple[Link, ...]:
        rows = _tables(self.document, "", "link")
        return tuple(Link(at, _text(row, "package"), _text(row, "host")) for at, row in rows)

    @functools.cached_property
    def places(self) -> dict[str, Place]:
        return places(self.text)

    @property
    def browser(self) -> str | None:
        return _text(self.document, "browser") or None

    @property
    def rules(self) -> str:
        """The rules by which the device answers, as the file names them."""
        return _text(self.document, "rules") or PROFILE

    @property
    def answers_as_phone(self) -> bool:
        return self.rules == ANDROID_12

    @property
    def names(self) -> tuple[str, ...]:
        return tuple(it.name for it in self.packages)

    def package(self, name: str) -> Package | None:
        return next((it for it in self.packages if it.name == name), None)

    def component(self, kind: Kind, component: str) -> Component | None:
        """The component that `am` writes as `package/class`."""
        of_all = (it for package in self.packages for it in package.components)
        return next((it for it in of_all if it.kind == kind and it.component == component), None)

    def place(self, path: str) -> Place | None:
        """Where a path such as `package[0].manifest.activity[1].name` is, or the nearest table or entry around it."""
        while path:
            if path in self.places:
                return self.places[path]
            path = _parent(path)
        return None

    def shown(self, place: Place | None) -> str:
        """The line of a place, with any key in it hidden."""
        return "" if place is None else _hidden_line(self._lines, place.line, KEY_VALUE)

    @functools.cached_property
    def _lines(self) -> list[str]:
        return self.text.split("\n")

    def key_of(self, name: str) -> str:
        """The key of a package: the file's, or the one that this client gives to a package that it installs."""
        if name == SYSTEM:
            return self.system_key
        package = self.package(name)
        return package.key if package else self.key_for_new(name)

    def key_for_new(self, name: str) -> str:
        """A key that whoever has the device file finds again, in another session too, and nobody else."""
        # OpenSSL takes a while to load, and few commands need a key
        import hashlib
        import hmac

        return hmac.new(self.system_key.encode(), name.encode(), hashlib.sha256).hexdigest()[:32]

    @property
    def system_key(self) -> str:
        return self._key("system_key")

    @property
    def root_key(self) -> str:
        return self._key("root_key")

    def _key(self, name: str) -> str:
        key = self.document.get(name)
        if not isinstance(key, str) or not key:
            raise BadWords(words.no_key_in(str(self.path), name))
        return key

    def nearest(self, name: str) -> str | None:
        """The package whose name is most like this one."""
        found = difflib.get_close_matches(name, self.names, 1, 0.5)
        return found[0] if found else None


def shown_line(text: str, line: int, hidden: re.Pattern[str] = KEY_VALUE) -> str:
    """A line, with keys hidden."""
    return _hidden_line(text.split("\n"), line, hidden)


def _hidden_line(lines: list[str], line: int, hidden: re.Pattern[str]) -> str:
    return hidden.sub(r"\1…", lines[line - 1].rstrip("\r")) if 0 < line <= len(lines) else ""


def text_of(path: Path) -> str:
    """The text of a device file or a manifest, or why it can't be read."""
    try:
        return path.read_bytes().decode("utf-8")
    except FileNotFoundError:
        raise DeviceFault(words.no_file(str(path))) from None
    except IsADirectoryError:
        raise DeviceFault(words.folder(str(path), str(path / "device.toml"))) from None
    except PermissionError:
        raise DeviceFault(words.unreadable(str(path))) from None
    except OSError as fault:
        raise DeviceFault(words.os_fault(fault.strerror or str(fault), str(path))) from None
    except UnicodeDecodeError as fault:
        raise DeviceFault(words.not_utf8(str(path), fault.start)) from None


def _not_toml(path: Path, text: str, fault: tomllib.TOMLDecodeError) -> NotToml:
    where = TOML_PLACE.search(str(fault))
    what = TOML_PLACE.sub("", str(fault))
    if where and where[1]:
        line, column = int(where[1]), int(where[2])
    else:
        # what lacks at the end lacks in the last line that has something
        line = len(text.rstrip().split("\n"))
        column = len(text.rstrip().split("\n")[-1]) + 1
    shown = "…" if _is_in_key(text, line) else shown_line(text, line, KEY_AND_REST)
    return NotToml(words.not_toml(f"{path}:{line}:{column}", what, shown), what, line, column, shown)


def _is_in_key(text: str, line: int) -> bool:
    """Whether a key that begins above the line goes on in it."""
    before = "\n".join(text.split("\n")[: line - 1])
    opened = [*KEY_OPENED.finditer(before)]
    return bool(opened) and ENDS[opened[-1][1]] not in before[opened[-1].end() :]


def _parent(path: str) -> str:
    return path[: max(path.rfind("."), path.rfind("["), 0)]


def _text(table: Mapping[str, Any], key: str) -> str:
    value = table.get(key)
    return value if isinstance(value, str) else ""


def _texts(table: Mapping[str, Any], key: str) -> tuple[str, ...]:
    value = table.get(key)
    return tuple(it for it in value if isinstance(it, str)) if isinstance(value, list) else ()


def _tables(table: Mapping[str, Any], base: str, key: str) -> Iterator[tuple[str, Mapping[str, Any]]]:
    """The entries of an array of tables, each with its path."""
    value = table.get(key)
    for index, entry in enumerate(value if isinstance(value, list) else ()):
        if isinstance(entry, dict):
            yield f"{base}{key}[{index}]", entry


def _packages(document: Mapping[str, Any]) -> Iterator[Package]:
    for at, table in _tables(document, "", "package"):
        manifest = table.get("manifest")
        if isinstance(manifest, dict) and _text(manifest, "package"):
            name = _text(manifest, "package")
            queries = manifest.get("queries")
            found = tuple(_components(name, manifest, f"{at}.manifest."))
            yield Package(at, name, _text(table, "key"), found, queries if isinstance(queries, dict) else {})


def components_of(manifest: Mapping[str, Any]) -> tuple[Component, ...]:
    """The components of a manifest that is read by itself."""
    return tuple(_components(_text(manifest, "package"), manifest, ""))


def _components(package: str, manifest: Mapping[str, Any], base: str) -> Iterator[Component]:
    for kind in KINDS:
        for at, table in _tables(manifest, base, kind):
            exported, enabled = table.get("exported"), table.get("enabled")
            yield Component(
                at=at,
                kind=kind,
                package=package,
                name=whole_class(package, _text(table, "name")),
                exported=exported if isinstance(exported, bool) else None,
                enabled=enabled if isinstance(enabled, bool) else True,
                permission=_text(table, "permission") or None,
                launch_mode=_text(table, "launchMode") or None,
                task_affinity=_text(table, "taskAffinity") if "taskAffinity" in table else None,
                filters=tuple(_filters(table, f"{at}.")),
            )


def whole_class(package: str, name: str) -> str:
    """The whole name of a class, which a manifest may shorten."""
    if name.startswith("."):
        return package + name
    return name if "." in name else f"{package}.{name}"


def _filters(component: Mapping[str, Any], base: str) -> Iterator[Filter]:
    for at, table in _tables(component, base, "intent-filter"):
        priority = table.get("priority")
        yield Filter(
            at=at,
            actions=_texts(table, "action"),
            categories=_texts(table, "category"),
            priority=priority if isinstance(priority, int) else 0,
            data=tuple(row for _, row in _tables(table, "", "data")),
        )
