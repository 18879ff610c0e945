"""Which files are read, and what is in them."""
import os
import signal
import threading
import zipfile
import zlib
from collections.abc import Iterator
from contextlib import contextmanager
from typing import IO, NoReturn

from amctl.apps.binary import read_binary
from amctl.apps.decoded import read_decoded
from amctl.apps.elements import Element, InputFault, OutOfTime, Table

MANIFEST = "AndroidManifest.xml"
RESOURCES = "resources.arsc"
MANIFEST_LIMIT = 4 * 2**20
RESOURCES_LIMIT = 16 * 2**20
SECONDS = 20
ZIP_MAGIC = b"PK"
BINARY_MAGIC = b"\x00\x08\x00"
ZIP_FAULTS = (zipfile.BadZipFile, zlib.error, EOFError, NotImplementedError, RuntimeError, ValueError, OverflowError)


def is_apk(path: str) -> bool:
    return path.lower().endswith(".apk")


def files_of(path: str) -> list[str]:
    """The file at a path; of a folder its APKs and manifests, also of the folders in it, in order of their paths."""
    if not os.path.isdir(path):
        return [path]
    found = [os.path.join(folder, name) for folder, _, names in os.walk(path)
             for name in names if name == MANIFEST or is_apk(name)]
    if not found:
        raise InputFault("the folder has no APK and no AndroidManifest.xml")
    return sorted(found)


@contextmanager
def time_limit(seconds: int) -> Iterator[None]:
    """Ends what takes longer than so many seconds, if it can: Python gives alarms only to the main thread."""
    if threading.current_thread() is not threading.main_thread():
        yield
        return

    def too_long(*_: object) -> NoReturn:
        raise OutOfTime(f"reading it takes more than {seconds} seconds")

    before = signal.signal(signal.SIGALRM, too_long)
    signal.alarm(seconds)
    try:
        yield
    finally:
        signal.alarm(0)
        signal.signal(signal.SIGALRM, before)


def at_most(stream: IO[bytes], limit: int, what: str) -> bytes:
    """The bytes of a stream, which are at most so many."""
    data = stream.read(limit + 1)
    if len(data) > limit:
        raise InputFault(f"{what} has more than {limit:,} bytes")
    return data


def entry_of(archive: zipfile.ZipFile, name: str, limit: int) -> bytes | None:
    """The bytes of an entry of an archive, or none if it isn't there."""
    if name not in archive.NameToInfo:
        return None
    with archive.open(name) as stream:
        return at_most(stream, limit, name)


def manifest_of(data: bytes, read_table: Table, reader: str | None) -> Element:
    """The root of a manifest, binary or not."""
    if data[1:4] == BINARY_MAGIC:
        return read_binary(data, read_table, reader)
    return read_decoded(data)


def read_archive(path: str, reader: str | None) -> Element:
    """The root of the manifest in an APK."""
    try:
        with zipfile.ZipFile(path) as archive:
            data = entry_of(archive, MANIFEST, MANIFEST_LIMIT)
            if data is None:
                raise InputFault("the archive has no AndroidManifest.xml")
            return manifest_of(data, lambda: entry_of(archive, RESOURCES, RESOURCES_LIMIT), reader)
    except ZIP_FAULTS as error:
        raise InputFault(f"malformed archive: {error}") from error


def read_input(path: str, reader: str | None = None) -> Element:
    """The root of the manifest in a file: an APK, a binary manifest or a decoded one; `reader` reads binary ones."""
    try:
        with time_limit(SECONDS):
            with open(path, "rb") as stream:
                if stream.read(2) == ZIP_MAGIC or is_apk(path):
                    return read_archive(path, reader)
                stream.seek(0)
                return manifest_of(at_most(stream, MANIFEST_LIMIT, "the manifest"), lambda: None, reader)
    except OSError as error:
        raise InputFault(error.strerror or str(error)) from error
    except MemoryError as error:
        raise InputFault("reading it takes more memory than is allowed") from error
