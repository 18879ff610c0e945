#!/usr/bin/python3
"""Measures `amctl survey` on apps that it makes up, or on APKs.

    survey_speed.py AM [--client FOLDER ..] [--apps N] [--on PACKAGES] [--apks FOLDER]

AM is the built program. There are N apps, 50 if left out, each with ten components. They are surveyed on one device; with --on each
is surveyed on a copy of a device of so many such packages. With --apks it says how long it takes to read the APKs below FOLDER, and
then the apps are the first one of each package, each on a device with nothing else. Every client that is named, the repository's if
none is, does the same in turns: by one job, by four, and over a Dask scheduler with four workers (Debian's python3-distributed).
Prints the time and the processor time of each, those of the workers included; it fails if any result has other bytes than the first.
"""
import argparse
import hashlib
import itertools
import os
import resource
import shutil
import subprocess
import sys
import tempfile
import time
from collections.abc import Iterator
from contextlib import ExitStack, contextmanager
from dataclasses import dataclass
from pathlib import Path

from server import free_port

TOP = Path(__file__).resolve().parent.parent
PYTHON = "/usr/bin/python3"
WORKERS = 4
PATIENCE_SECONDS = 60
# where the APKs are counted apart
SIZES = (100_000, 1_000_000)
TICKS = os.sysconf("SC_CLK_TCK")
VIEW = 'action = ["android.intent.action.VIEW"], category = ["android.intent.category.DEFAULT", "android.intent.category.BROWSABLE"]'


def manifest(name: str) -> str:
    """Six activities, two services and two receivers, half of them exported; one activity takes links of its own host."""
    link = f'intent-filter = [{{ {VIEW}, data = [{{ scheme = "https", host = "{name}.example" }}] }}]'
    activities = [f'{{ name = ".A0", exported = true, {link} }}', *(f'{{ name = ".A{it}", exported = {str(it % 2 == 0).lower()} }}' for it in range(1, 6))]
    services, receivers = (", ".join(f'{{ name = ".{it}{at}", exported = {str(at == 0).lower()} }}' for at in range(2)) for it in "SR")
    return f'package = "{name}"\nactivity = [{", ".join(activities)}]\nservice = [{services}]\nreceiver = [{receivers}]\n'


def made_up(folder: Path, apps: int) -> Path:
    folder.mkdir()
    for it in range(apps):
        (folder / f"app{it}.toml").write_text(manifest(f"com.app{it}"), encoding="utf-8")
    return folder


def device(path: Path, packages: int) -> Path:
    rows = "".join(f'[[package]]\nkey = "k{it}"\n[package.manifest]\n{manifest(f"com.on{it}")}' for it in range(packages))
    path.write_text(f'system_key = "system"\n{rows}', encoding="utf-8")
    return path


@dataclass(frozen=True)
class Measured:
    status: int
    seconds: float
    processor: float


def processor_of(process: "subprocess.Popen[bytes]") -> float:
    """The seconds of processor of a process that runs, with those of its children that it waited for."""
    fields = Path(f"/proc/{process.pid}/stat").read_text(encoding="ascii").rpartition(")")[2].split()
    return sum(map(int, fields[11:15])) / TICKS


def measured(words: list[str], environment: dict[str, str], workers: "list[subprocess.Popen[bytes]]") -> Measured:
    before, began = sum(map(processor_of, workers)), time.monotonic()
    ran = subprocess.Popen(words, env=environment, stdout=subprocess.DEVNULL, stderr=subprocess.DEVNULL)
    _, status, used = os.wait4(ran.pid, 0)
    seconds = time.monotonic() - began
    processor = used.ru_utime + used.ru_stime + sum(map(processor_of, workers)) - before
    return Measured(os.waitstatus_to_exitcode(status), seconds, processor)


@contextmanager
def dask(environment: dict[str, str], folder: Path) -> "Iterator[tuple[str, list[subprocess.Popen[bytes]]]]":
    """The address of a scheduler, and its workers."""
    address = f"tcp://127.0.0.1:{free_port()}"
    words = [["dask_scheduler", "--host", address, "--no-dashboard"]]
    worker = ["dask_worker", address, "--nthreads", "1", "--no-dashboard", "--no-nanny", "--local-directory"]
    words += [[*worker, str(folder / f"worker{it}")] for it in range(WORKERS)]
    with (folder / "dask.log").open("wb") as log, ExitStack() as ended:
        started = []
        for name, *options in words:
            process = subprocess.Popen([PYTHON, "-m", f"distributed.cli.{name}", *options], env=environment, stdout=log, stderr=log)
            ended.callback(process.wait)
            ended.callback(process.kill)
            started.append(process)
        waiting = f"from distributed import Client\nClient({address!r}, timeout='{PATIENCE_SECONDS}s').wait_for_workers({WORKERS})"
        subprocess.run([PYTHON, "-c", waiting], check=True, timeout=PATIENCE_SECONDS)
        yield address, started[1:]


def bytes_of(results: Path) -> str:
    """A mark of all that a person reads of a survey."""
    files = sorted(it for it in results.iterdir() if it.is_file())
    return hashlib.sha256(b"".join(it.name.encode() + it.read_bytes() for it in files)).hexdigest()


def measure(client: str, am: Path, asked: list[str], folder: Path) -> Iterator[tuple[str, Measured, str]]:
    """Each way with what it takes, and the mark of its results."""
    environment = {**os.environ, "AM": str(am), "PYTHONPATH": client, "PYTHONDONTWRITEBYTECODE": "1"}

    def by(name: str, words: list[str], workers: "list[subprocess.Popen[bytes]]") -> tuple[str, Measured, str]:
        into = Path(tempfile.mkdtemp(dir=folder)) / "survey"
        found = measured([PYTHON, "-m", "amctl", "survey", *asked, *words, "--into", str(into)], environment, workers)
        return name, found, bytes_of(into)

    yield by("1 job", ["--jobs", "1"], [])
    yield by(f"{WORKERS} jobs", ["--jobs", str(WORKERS)], [])
    with dask(environment, Path(tempfile.mkdtemp(dir=folder))) as (address, workers):
        # a worker loads the client with its first job
        by("", ["--dask", address], workers)
        yield by(f"Dask, {WORKERS} workers", ["--dask", address], workers)


def apks(given: Path, folder: Path) -> Path:
    """The APKs below a folder, of each package the first that can be read."""
    sys.path.insert(0, str(TOP / "client"))
    from amctl.apps import InputFault, read_app

    folder.mkdir()
    names: set[str] = set()
    took: list[tuple[int, float]] = []
    paths = sorted(given.rglob("*.apk"))
    for path in paths:
        before = own_processor()
        try:
            name = read_app(path).package
        except InputFault:
            continue
        took.append((path.stat().st_size, own_processor() - before))
        if name not in names and name != "android":
            names.add(name)
            shutil.copy(path, folder / f"{name}.apk")
    print(f"{len(paths)} APKs, {len(paths) - len(took)} refused; seconds of processor to read one of these:")
    for least, most in itertools.pairwise((0, *SIZES, sys.maxsize)):
        if of_size := [seconds for size, seconds in took if least <= size < most]:
            print(f"{len(of_size)} of {least} bytes and more: {sum(of_size) / len(of_size):.3f}, at most {max(of_size):.3f}")
    return folder


def own_processor() -> float:
    """The seconds of processor of this process, and of what it waited for: the reader may be one."""
    return sum(it.ru_utime + it.ru_stime for it in map(resource.getrusage, (resource.RUSAGE_SELF, resource.RUSAGE_CHILDREN)))


def main() -> int:
    parser = argparse.ArgumentParser(description=__doc__, formatter_class=argparse.RawDescriptionHelpFormatter)
    parser.add_argument("am", type=Path)
    parser.add_argument("--client", action="append", metavar="FOLDER")
    parser.add_argument("--apps", type=int, default=50)
    parser.add_argument("--on", type=int)
    parser.add_argument("--apks", type=Path)
    words = parser.parse_args()
    with tempfile.TemporaryDirectory(prefix="survey-speed-") as made:
        folder = Path(made)
        given = apks(words.apks, folder / "apps") if words.apks else made_up(folder / "apps", words.apps)
        asked = [str(given)]
        if words.on is not None or words.apks:
            asked += ["--each", "--on", str(device(folder / "device.toml", words.on or 0))]
        marks = set()
        print(f"{len(list(given.iterdir()))} apps")
        for client in words.client or [str(TOP / "client")]:
            for name, found, mark in measure(client, words.am.resolve(), asked, folder):
                marks.add(mark)
                print(f"{client}: {name}: {found.seconds:.2f} s, {found.processor:.2f} s of processor, status {found.status}", flush=True)
    print("the results are the same" if len(marks) == 1 else "THE RESULTS DIFFER")
    return 0 if len(marks) == 1 else 1


if __name__ == "__main__":
    sys.exit(main())
