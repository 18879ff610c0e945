"""Reads a manifest in XML text.

Values are written as in the sources of an app: `\\\\` is a backslash, `\\n` a new line, `\\u0041` a character, and `\\@` and
`\\?` are these characters where they would begin a reference. A backslash before any other character stays, so
patterns that a decoder wrote without doubling their backslashes are read too.
"""
import re
from collections.abc import Callable, Mapping
from typing import NoReturn
from xml.parsers import expat

from amctl.apps.elements import ANDROID, PLAIN_ATTRIBUTES, Builder, Element, InputFault, Reference
from amctl.apps.unsaid import SILENT_ATTRIBUTES

ESCAPE = re.compile(r"\\(?:u([0-9A-Fa-f]{4})|([\\@?#'\"nt]))")
CHARACTERS = {"n": "\n", "t": "\t"}


def unescaped(text: str) -> str:
    """A value without its escapes."""
    def character(match: re.Match[str]) -> str:
        number, letter = match.groups()
        return chr(int(number, 16)) if number else CHARACTERS.get(letter, letter)

    if "\\" not in text:
        return text
    return ESCAPE.sub(character, text).encode("utf-16", "surrogatepass").decode("utf-16", "surrogatepass")


def value_of(text: str) -> str | None:
    """What an attribute's text means, or none for the reference to nothing."""
    if text == "@null":
        return None
    if text[:1] in ("@", "?"):
        return Reference(text)
    return unescaped(text)


def element_of(name: str, attributes: Mapping[str, str]) -> Element:
    """An element as the parser gives it: names in a namespace are its address, a space and the name.

    Android doesn't read the namespace of an element's name.
    """
    element = Element(name.rpartition(" ")[2])
    for key, text in attributes.items():
        space, _, local = key.rpartition(" ")
        if space == ANDROID and local not in SILENT_ATTRIBUTES:
            value = value_of(text)
            if value is not None:
                element.attributes[local] = value
        elif not space and local in PLAIN_ATTRIBUTES:
            element.plain[local] = text
    return element


def refuse(what: str) -> Callable[..., NoReturn]:
    """A handler that refuses the document."""
    def handler(*_: object) -> NoReturn:
        raise InputFault(f"{what} is refused")

    return handler


def read_decoded(text: bytes) -> Element:
    """The root of the manifest in these bytes. Nothing is expanded: a document type or an entity is refused."""
    builder = Builder()
    parser = expat.ParserCreate(namespace_separator=" ")
    parser.StartDoctypeDeclHandler = refuse("a DOCTYPE")
    parser.EntityDeclHandler = refuse("an entity")
    parser.StartElementHandler = lambda name, attributes: builder.start(element_of(name, attributes))
    parser.EndElementHandler = lambda name: builder.end()
    try:
        parser.Parse(text, True)
    except (expat.ExpatError, ValueError, LookupError) as error:
        raise InputFault(f"malformed XML: {error}") from error
    return builder.finished()
