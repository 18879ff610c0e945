"""tools/device_from_apks and `amctl convert`: what they do with their words."""
import argparse
import gc
import json
import resource
import sys
from collections.abc import Sequence
from dataclasses import dataclass
from pathlib import Path

from amctl.apps.binary import READERS
from amctl.apps.device import Device, Keys, keys_in
from amctl.apps.elements import InputFault
from amctl.apps.facts import document
from amctl.apps.inputs import files_of, read_input
from amctl.apps.told import Report

MEMORY_LIMIT = 448 * 2**20
UNREAD = 2
LEFT_OUT = 1


@dataclass(frozen=True)
class Asked:
    """What is converted, and how."""

    inputs: Sequence[str]
    keys: str | None = None
    grant_all: bool = False
    facts: str | None = None
    strict: bool = False
    reader: str | None = None


def arguments(description: str) -> Asked:
    parser = argparse.ArgumentParser(
        prog="device_from_apks", description=description, formatter_class=argparse.RawDescriptionHelpFormatter
    )
    parser.add_argument("--keys", metavar="FILE")
    parser.add_argument("--grant-all", action="store_true")
    parser.add_argument("--facts", metavar="FILE")
    parser.add_argument("--strict", action="store_true")
    parser.add_argument("--reader", choices=READERS)
    parser.add_argument("inputs", metavar="INPUT", nargs="+")
    return Asked(**vars(parser.parse_args()))


def given_keys(path: str | None) -> dict[str, str]:
    """The keys of a file, if there is one."""
    if path is None:
        return {}
    try:
        return keys_in(Path(path).read_text(encoding="utf-8"))
    except OSError as error:
        raise InputFault(error.strerror or str(error)) from error
    except UnicodeDecodeError as error:
        raise InputFault("it isn't UTF-8") from error


def add_inputs(device: Device, report: Report, inputs: Sequence[str], reader: str | None) -> None:
    """Adds every file of the inputs to the device, and reports those that can't be read."""
    for given in inputs:
        try:
            files = files_of(given)
        except InputFault as why:
            report.fault(given, str(why))
            continue
        for file in files:
            try:
                device.add(file, read_input(file, reader))
            except InputFault as why:
                report.fault(file, str(why))
            except MemoryError:
                report.fault(file, "converting it takes more memory than is allowed")


def write_facts(device: Device, path: str, report: Report) -> None:
    """Writes the facts of all packages of the device."""
    text = json.dumps(document(device.facts), ensure_ascii=False, indent=2, sort_keys=True)
    try:
        Path(path).write_text(text + "\n", encoding="utf-8", errors="replace")
    except OSError as error:
        report.write(f"{path}: can't be written: {error.strerror or error}")
        report.unread += 1


def main(description: str) -> int:
    return convert(arguments(description))


def convert(options: Asked) -> int:
    """Writes the device file to standard output, and what is left out to standard error."""
    gc.disable()  # what the readers build has no cycles, and looking for them takes a third of the time
    resource.setrlimit(resource.RLIMIT_DATA, (MEMORY_LIMIT, MEMORY_LIMIT))
    report = Report(sys.stderr)
    try:
        keys = Keys(given_keys(options.keys))
    except InputFault as why:
        report.fault(str(options.keys), str(why))
        return UNREAD
    device = Device(report, keys, options.grant_all)
    add_inputs(device, report, options.inputs, options.reader)
    sys.stdout.buffer.write(device.text().encode())
    if options.facts is not None:
        write_facts(device, options.facts, report)
    if report.unread:
        return UNREAD
    return LEFT_OUT if options.strict and report.told else 0
