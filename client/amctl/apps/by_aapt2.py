"""Reads a manifest in Android's binary XML, and the resources that it refers to, by the program aapt2.

aapt2 dumps texts as they are: a text with a quotation mark or a new line in it might look like more of the dump. Bytes
with a text that could be taken for the dump's own are refused.
"""
import re
import subprocess
import tempfile
import zipfile
from collections.abc import Iterator
from dataclasses import dataclass
from pathlib import Path

from amctl.apps.attributes import is_android, name_of
from amctl.apps.elements import (
    ANDROID,
    LONGEST_CHAIN,
    PLAIN_ATTRIBUTES,
    Builder,
    Element,
    InputFault,
    OutOfTime,
    Reference,
    Table,
)
from amctl.apps.unsaid import SILENT_ATTRIBUTES

SECONDS = 20
TAKEN_FOR_A_DUMP = re.compile(rb'" \(Raw: | \(line=|\n\s*[AENCT]: ')
TAKEN_FOR_A_TABLE = re.compile(rb'"\n\s*\(')
START = re.compile(r"( *)E: (\S+) \(line=\d+\)")
NAMESPACE = re.compile(r"( *)N: ")
ATTRIBUTE = re.compile(r"( *)A: (?:(\S+):)?([^\s:=(]*)(?:\((0x[0-9a-f]{8})\))?=(.*)", re.DOTALL)
RESOURCE = re.compile(r"    resource (0x[0-9a-f]{8}) (\S+)")
DEFAULT = "      () "
LAST = "  type"
# another value, another resource or another type: all else goes on with the value
AFTER_A_VALUE = re.compile(r"      \(|    resource |  type|Package ")


def might_mislead(data: bytes, pattern: re.Pattern[bytes]) -> bool:
    """Whether a text in these bytes could be taken for more of a dump; texts are in UTF-8 or in UTF-16."""
    return bool(pattern.search(data) or pattern.search(data.replace(b"\0", b"")))


def dumped(program: str, words: list[str], entries: dict[str, bytes]) -> str:
    """What aapt2 dumps of an archive of these entries."""
    with tempfile.TemporaryDirectory() as folder:
        apk = Path(folder, "app.apk")
        with zipfile.ZipFile(apk, "w") as archive:
            for name, data in entries.items():
                archive.writestr(name, data)
        command = [program, "dump", *words, str(apk)]
        try:
            ran = subprocess.run(command, stdin=subprocess.DEVNULL, capture_output=True, timeout=SECONDS)
        except subprocess.TimeoutExpired:
            raise OutOfTime(f"aapt2 takes more than {SECONDS} seconds") from None
    if ran.returncode != 0:
        raise InputFault(f"malformed binary XML: aapt2 says {last_line(ran.stderr)}")
    return ran.stdout.decode(errors="replace")


def last_line(data: bytes) -> str:
    lines = data.decode(errors="replace").strip().splitlines()
    return lines[-1].rpartition("error: ")[2] if lines else "nothing"


@dataclass
class Resources:
    """The table of resources of a package, which is dumped when a reference has to be resolved."""

    program: str
    manifest: bytes
    read_table: Table
    values: dict[str, str] | None = None

    def opened(self) -> dict[str, str]:
        """What each resource has for the default configuration, as it is dumped, by its number and by its name."""
        if self.values is None:
            try:
                self.values = values_of(self.dumped())
            except OutOfTime:
                raise
            except (InputFault, MemoryError, zipfile.BadZipFile):
                self.values = {}  # its references stay unresolved
        return self.values

    def dumped(self) -> str:
        data = self.read_table()
        if data is None or might_mislead(data, TAKEN_FOR_A_TABLE):
            return ""
        return dumped(self.program, ["resources"], {"AndroidManifest.xml": self.manifest, "resources.arsc": data})

    def value(self, reference: str) -> str:
        """The value at the end of the chain of references from this one, or the reference if it isn't resolved."""
        found = reference
        for _ in range(LONGEST_CHAIN):
            found = self.opened().get(found, "")
            if not found.startswith("@"):
                break
        value = plain_value(found)
        return Reference(reference) if value is None else value


def values_of(dump: str) -> dict[str, str]:
    """What the resources of a dumped table have for the default configuration, in one line."""
    values: dict[str, str] = {}
    names: list[str] = []
    lines = dump.rstrip("\n").split("\n")
    for line, after in zip(lines, [*lines[1:], LAST]):
        resource = RESOURCE.match(line)
        if resource:
            names = [f"@{name}" for name in resource.groups()]
        elif line.startswith(DEFAULT) and AFTER_A_VALUE.match(after):
            for name in names:
                values.setdefault(name, line.removeprefix(DEFAULT))
    return values


def plain_value(dumped: str) -> str | None:
    """A value that isn't a reference, or none if it isn't a single value."""
    if len(dumped) >= 2 and dumped[0] == dumped[-1] == '"':
        return dumped[1:-1]
    return dumped if dumped and dumped[0] not in '("@?' else None


def value_of(dumped: str, resources: Resources) -> str | None:
    """The value of an attribute, without its raw form; none for the reference to nothing."""
    if dumped.startswith('"'):
        return dumped[1:].partition('" (Raw: ')[0] if '" (Raw: ' in dumped else dumped[1:-1]
    typed = dumped.partition(' (Raw: "')[0]
    if typed == "@null":
        return None
    if typed == "@empty":
        return ""
    if typed.startswith("@"):
        return resources.value(typed)
    return Reference(typed) if typed.startswith("?") else typed


def put_attribute(element: Element, match: re.Match[str], resources: Resources) -> None:
    """Adds an attribute to its element, if it is of use."""
    indent, space, written, number, dumped = match.groups()
    # a new line in a text is dumped with the indentation of its attribute
    value = dumped.replace("\n" + indent, "\n")
    if space == ANDROID or is_android(number):
        name = name_of(written, number)
        if name not in SILENT_ATTRIBUTES:
            found = value_of(value, resources)
            if found is not None:
                element.attributes.setdefault(name, found)
    elif space is None and written in PLAIN_ATTRIBUTES:
        found = value_of(value, resources)
        if found is not None:
            element.plain.setdefault(written, found)


def entries_of(dump: str) -> Iterator[str]:
    """The entries of a dump of XML: a line, with those after it that continue its text."""
    entry: list[str] = []
    for line in dump.split("\n"):
        if re.match(r" *[AENCT]: ", line):
            if entry:
                yield "\n".join(entry)
            entry = [line]
        elif entry:
            entry.append(line)
    if entry:
        yield "\n".join(entry).removesuffix("\n")


def tree_of(dump: str, resources: Resources) -> Element:
    """The root of the manifest that is dumped. An element is deeper than the one that it is in, and deeper than the
    lines of the namespaces that it declares, which come before it."""
    builder = Builder()
    depths: list[int] = []
    declared: int | None = None
    for entry in entries_of(dump):
        start, attribute, namespace = START.fullmatch(entry), ATTRIBUTE.fullmatch(entry), NAMESPACE.match(entry)
        if namespace:
            declared = len(namespace[1]) if declared is None else declared
        elif start:
            depth = len(start[1]) if declared is None else declared
            declared = None
            while depths and depths[-1] >= depth:
                depths.pop()
                builder.end()
            depths.append(depth)
            builder.start(Element(start[2].rpartition(":")[2]))
        elif attribute and builder.open:
            put_attribute(builder.open[-1], attribute, resources)
        elif re.match(r" *[AE]: ", entry):
            raise InputFault("malformed binary XML: aapt2 dumps it in a form that isn't known")
    for _ in depths:
        builder.end()
    return builder.finished()


def read_by_aapt2(program: str, data: bytes, read_table: Table) -> Element:
    """The root of the manifest in these bytes; `read_table` gives the bytes of the package's resources, or none."""
    if might_mislead(data, TAKEN_FOR_A_DUMP):
        raise InputFault("malformed binary XML: a text in it looks like a line of aapt2's, by which it is read")
    dump = dumped(program, ["xmltree", "--file", "AndroidManifest.xml"], {"AndroidManifest.xml": data})
    return tree_of(dump, Resources(program, data, read_table))
