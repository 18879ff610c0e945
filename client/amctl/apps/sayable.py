"""Which values a device file can say: a value is checked and given in its form, or refused with the reason."""
import re

from amctl.apps.elements import Reference

TEXT_BYTES = 1024
KEY = re.compile(r"[\x21-\x7e]{1,255}")
SCHEME = re.compile(r"[A-Za-z][A-Za-z0-9+.-]*")
MIME_TYPE = re.compile(r"[^/\x00-\x20\x7f]+/[^/\x00-\x20\x7f]+")
NUMBER = re.compile(r"[+-]?[0-9]{1,20}")
HEX_NUMBER = re.compile(r"0[xX][0-9A-Fa-f]{1,8}")
TRUTHS = {"true": True, "false": False}
LAUNCH_MODES = ("standard", "singleTop", "singleTask", "singleInstance", "singleInstancePerTask")
LARGEST_PORT = 99_999


class Unsayable(Exception):
    """Why a device file can't say a value."""


def any_text(value: str | None) -> str:
    """A text of at most 1,024 bytes, which may be empty."""
    if value is None:
        raise Unsayable("it isn't stated")
    if isinstance(value, Reference):
        raise Unsayable("an unresolved reference")
    if len(value) > TEXT_BYTES or len(value.encode(errors="surrogatepass")) > TEXT_BYTES:
        raise Unsayable("over 1,024 bytes")
    if any("\ud800" <= c <= "\udfff" for c in value):
        raise Unsayable("not a text in Unicode")
    return value


def text(value: str | None) -> str:
    """A text that isn't empty."""
    found = any_text(value)
    if not found:
        raise Unsayable("an empty text")
    return found


def matching(value: str | None, pattern: re.Pattern[str], words: str) -> str:
    found = text(value)
    if not pattern.fullmatch(found):
        raise Unsayable(words)
    return found


def scheme(value: str | None) -> str:
    return matching(value, SCHEME, "not a URI's scheme")


def mime_type(value: str | None) -> str:
    return matching(value, MIME_TYPE, "not a MIME type")


def number(value: str | None) -> int:
    """A whole number, in decimal digits or in the hexadecimal ones of 32 bits with their sign."""
    found = text(value)
    if HEX_NUMBER.fullmatch(found):
        bits = int(found, 16)
        return bits - 2**32 if bits >= 2**31 else bits
    return int(matching(found, NUMBER, "not a whole number"))


def number_of_32_bits(value: str | None) -> int:
    found = number(value)
    if not -(2**31) <= found < 2**31:
        raise Unsayable("not a whole number of 32 bits")
    return found


def port(value: str | None) -> int:
    found = number(value)
    if not 0 <= found <= LARGEST_PORT:
        raise Unsayable("not a port from 0 to 99,999")
    return found


def truth(value: str | None) -> bool:
    """Whether a value is true; a number is, unless it is 0."""
    found = text(value)
    known = TRUTHS.get(found.lower())
    if known is not None:
        return known
    if NUMBER.fullmatch(found) or HEX_NUMBER.fullmatch(found):
        return number(found) != 0
    raise Unsayable("neither true nor false")


def launch_mode(value: str | None) -> str:
    """The name of a launch mode, given by its name or its number."""
    found = text(value)
    if found in LAUNCH_MODES:
        return found
    if found.isascii() and found.isdigit() and int(found) < len(LAUNCH_MODES):
        return LAUNCH_MODES[int(found)]
    raise Unsayable("not a launch mode")


def name(value: str | None) -> str:
    """A text without a slash."""
    found = text(value)
    if "/" in found:
        raise Unsayable("a name with a slash")
    return found


def package_name(value: str | None) -> str:
    found = name(value)
    if found.startswith("."):
        raise Unsayable("a package's name that begins with a dot")
    return found


def class_name(package: str, value: str | None) -> str:
    """The full name of a class, as Android completes it."""
    if value and not isinstance(value, Reference):
        if value.startswith("."):
            value = package + value
        elif "." not in value:
            value = f"{package}.{value}"
    return name(value)


def affinity(package: str, value: str | None) -> str:
    """The full name of an affinity, which is appended to the package's name if it begins with a colon."""
    if value and value.startswith(":") and not isinstance(value, Reference):
        value = package + value
    return any_text(value)
