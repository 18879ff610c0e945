"""Reads a manifest in Android's binary XML, and the resources that it refers to, by the library androguard.

A reference is resolved to the value that the package's own table of resources has for the default configuration.
"""
import importlib
import logging
from collections.abc import Callable, Mapping
from typing import Any

from amctl.apps.elements import (
    ANDROID,
    LONGEST_CHAIN,
    PLAIN_ATTRIBUTES,
    Builder,
    Element,
    InputFault,
    OutOfTime,
    Reference,
    Table,
)
from amctl.apps.unsaid import SILENT_ATTRIBUTES

REFERENCES = (0x01, 0x07)
ATTRIBUTE_REFERENCES = (0x02, 0x08)
NOTHING = 0x00
EMPTY = 1


def library() -> Any:
    """The module of androguard that reads binary XML, or none if it isn't installed for this Python."""
    try:
        axml = importlib.import_module("androguard.core.bytecodes.axml")
    except ImportError:
        return None
    logging.getLogger("androguard").setLevel(logging.CRITICAL + 1)
    return axml


def by_library(words: str, call: Callable[..., Any], *arguments: Any) -> Any:
    """What a call of the library gives; whatever it raises on malformed bytes is a fault of these words."""
    try:
        return call(*arguments)
    except (MemoryError, InputFault):
        raise
    except Exception as error:
        raise InputFault(words) from error


class Resources:
    """The table of resources of a package, which is read when a reference has to be resolved."""

    def __init__(self, read_table: Table) -> None:
        self.read_table = read_table
        self.table: Any = None
        self.fault: str | None = None

    def opened(self) -> bool:
        """Whether there is a table that can be read."""
        if self.table is None and self.fault is None:
            try:
                data = by_library("malformed archive", self.read_table)
                self.table = data and by_library("malformed table of resources", library().ARSCParser, data)
                self.fault = None if self.table else "there is no table of resources"
            except OutOfTime:
                raise
            except (InputFault, MemoryError) as fault:
                self.fault = str(fault) or "the table of resources takes too much memory"
        return self.fault is None

    def value(self, number: int) -> str | None:
        """The value of this resource, none for the reference to nothing, or the reference if it isn't resolved."""
        if number == 0:
            return None
        try:
            found = by_library("malformed table of resources", self.resolved, number) if self.opened() else None
        except OutOfTime:
            raise
        except (InputFault, MemoryError):
            found = None
        return Reference(f"@0x{number:08x}") if found is None else found

    def resolved(self, number: int) -> str | None:
        """The text at the end of the chain of references from this resource, if there is one."""
        for _ in range(LONGEST_CHAIN):
            found = self.table.get_res_configs(number) if number else []
            entry = next((entry for config, entry in found if config.is_default()), None)
            if entry is None or entry.is_complex():
                return None
            kind, number = entry.key.get_data_type(), entry.key.get_data()
            if kind not in REFERENCES:
                return typed_value(kind, number, self.table.stringpool_main.getString)
        return None


def typed_value(kind: int, data: int, string: Callable[[int], str]) -> str | None:
    """The text of a value that isn't a reference to a resource; none if there is no value."""
    if kind == NOTHING:
        return "" if data == EMPTY else None
    if kind in ATTRIBUTE_REFERENCES:
        return Reference(f"?0x{data:08x}")
    found: str = library().format_value(kind, data, string)
    return found


def attribute_name(parser: Any, index: int, names: Mapping[int, str]) -> str | None:
    """The name of an attribute of Android's, which it knows by its number, whatever is written; else none.

    The attribute's place in the resource map is read from the parser's own list, which it has no method for.
    """
    place = parser.m_attributes[5 * index + 1]
    if place < len(parser.m_resourceIDs):
        known = names.get(parser.m_resourceIDs[place])
        if known is not None:
            return known
    name: str = parser.getAttributeName(index)
    return name if parser.getAttributeNamespace(index) == ANDROID else None


def put_attribute(element: Element, parser: Any, index: int, names: Mapping[int, str], resources: Resources) -> None:
    """Adds an attribute to its element, if it is of use."""
    kind, data = parser.getAttributeValueType(index), parser.getAttributeValueData(index)
    name = attribute_name(parser, index, names)
    if name is not None:
        if name not in SILENT_ATTRIBUTES:
            value = resources.value(data) if kind in REFERENCES else typed_value(kind, data, parser.sb.getString)
            if value is not None:
                element.attributes.setdefault(name, value)
    elif parser.getAttributeName(index) in PLAIN_ATTRIBUTES:
        value = typed_value(kind, data, parser.sb.getString)
        if value is not None:
            element.plain.setdefault(parser.getAttributeName(index), value)


def parsed_tree(axml: Any, data: bytes, resources: Resources) -> Element:
    """The root of the manifest, by the events of the library's parser."""
    names = axml.public.SYSTEM_RESOURCES["attributes"]["inverse"]
    builder = Builder()
    parser = axml.AXMLParser(data)
    while parser.is_valid():
        event = next(parser)
        if event == axml.START_TAG:
            element = Element(parser.name)
            for index in range(parser.getAttributeCount()):
                put_attribute(element, parser, index, names, resources)
            builder.start(element)
        elif event == axml.END_TAG:
            builder.end()
        elif event == axml.END_DOCUMENT:
            return builder.finished()
    raise InputFault("malformed binary XML")


def read_by_androguard(axml: Any, data: bytes, read_table: Table) -> Element:
    """The root of the manifest in these bytes; `read_table` gives the bytes of the package's resources, or none."""
    root: Element = by_library("malformed binary XML", parsed_tree, axml, data, Resources(read_table))
    return root
