"""Reads a manifest in Android's binary XML: by the library androguard, or else by the program aapt2."""
import shutil

from amctl.apps.by_aapt2 import read_by_aapt2
from amctl.apps.by_androguard import library, read_by_androguard
from amctl.apps.elements import Element, InputFault, Table

ANDROGUARD, AAPT2 = READERS = ("androguard", "aapt2")
NO_READER = (
    "a binary manifest is read by androguard or by aapt2, which aren't installed: "
    "install Debian's package aapt, which has aapt2, or its package androguard"
)


def read_binary(data: bytes, read_table: Table, reader: str | None = None) -> Element:
    """The root of the manifest in these bytes; `read_table` gives the bytes of the package's resources, or none.

    It is read by this reader, or else by the first one that is installed.
    """
    axml = None if reader == AAPT2 else library()
    if axml is not None:
        return read_by_androguard(axml, data, read_table)
    program = None if reader == ANDROGUARD else shutil.which(AAPT2)
    if program is None:
        raise InputFault(NO_READER)
    return read_by_aapt2(program, data, read_table)
