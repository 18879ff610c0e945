#!/usr/bin/env python3
"""Measures `am serve` beside a plain Rust server of the same design (`peer.rs`) and nginx that answers a file.

    serve_bench.py [PROGRAM] [--seconds N] [--rounds N] [--workers N] [--idle N]

PROGRAM is the built am; without it the one under crates/am/out is taken. It needs wrk and nginx, and rustc for the peer; without
rustc the peer is left out. At 1, 4, 16 and 64 connections that are kept alive it asks for the status, for a query over 256
packages and for the start of an activity that has a task. The servers take turns, and each figure is the median of the rounds:
requests a second, the latencies in the middle and at 99 in 100, and the processor time of the server a request. Behind them
stand the ratios of am to the others. With `--idle` so many further connections are open and ask nothing. Then it prints the
resident memory of am at rest, after 200,000 reads, and after 200,000 starts, which its history keeps.
"""
import argparse
import os
import re
import resource
import shutil
import socket
import statistics
import subprocess
import sys
import tempfile
import threading
import time
from collections.abc import Iterator
from contextlib import ExitStack, contextmanager
from dataclasses import dataclass
from pathlib import Path

from server import HEAD, Server, ask_many, built, fail, frame, free_port, is_listening, text_of, whole_responses

CONNECTIONS = (1, 4, 16, 64)
PACKAGES = 256
REQUESTS = 200_000
# after so many responses am ends a connection, which wrk counts as an error of a read
MOST_RESPONSES = 65_536
START = {"intent": {"component": "com.p0/com.p0.A", "flags": ["NEW_TASK"]}}
QUERY = {"intent": {"action": "x.0"}, "kind": "activity"}
ASKED = {
    "status": ("sys", "/v1/status", None),
    "query": ("k0", "/v1/query", text_of(QUERY)),
    "start": ("k0", "/v1/start", text_of(START)),
}
# nginx answers files, so it has no start; the peer knows no query.
SERVERS = {"status": ("am", "peer", "nginx"), "query": ("am", "nginx"), "start": ("am", "peer")}
UNITS = {"us": 1.0, "ms": 1e3, "s": 1e6}


@dataclass(frozen=True)
class Plan:
    """What to run: the programs, the folder of the files, the length of a run in seconds, and how many rounds."""

    program: str
    peer: str | None
    folder: Path
    seconds: int
    rounds: int
    workers: int
    idle: int


@dataclass(frozen=True)
class Running:
    """A server that listens, and its processes."""

    port: int
    pids: list[int]


@dataclass(frozen=True)
class Figures:
    """Requests a second, and in microseconds the middle latency, the one at 99 in 100, and the processor time a request."""

    rate: float
    middle: float
    late: float
    processor: float

    def line(self) -> str:
        return f"{self.rate:9.0f} a second, {self.middle:6.0f} us and {self.late:7.0f} us, {self.processor:5.1f} us of processor a request"


def device() -> str:
    """256 packages, of which four each have an activity of the same action."""
    lines = ['system_key = "sys"']
    for number in range(PACKAGES):
        found = f'intent-filter = [{{ action = ["x.{number % 64}"] }}]'
        lines += ["[[package]]", f'key = "k{number}"']
        lines += [f'manifest = {{ package = "com.p{number}", activity = [{{ name = ".A", exported = true, {found} }}] }}']
    return "\n".join(lines) + "\n"


def write_script(folder: Path, name: str) -> None:
    """What wrk is to ask."""
    key, path, body = ASKED[name]
    lines = [f'wrk.method = "{"GET" if body is None else "POST"}"', f'wrk.path = "{path}"', f'wrk.headers["AM-Key"] = "{key}"']
    lines += [] if body is None else [f"wrk.body = '{body}'"]
    (folder / f"{name}.lua").write_text("\n".join(lines) + "\n", encoding="utf-8")
    (folder / f"{name}.file.lua").write_text(f'wrk.path = "/{name}"\n', encoding="utf-8")


def answer(port: int, asked: bytes) -> bytes:
    """The bytes of one response."""
    with socket.create_connection(("127.0.0.1", port)) as link:
        link.sendall(asked)
        link.shutdown(socket.SHUT_WR)
        read = b""
        while piece := link.recv(1 << 16):
            read += piece
    return read


def body_of(port: int, name: str) -> bytes:
    """The body that am answers."""
    first = answer(port, frame(*ASKED[name]))
    head = HEAD.match(first)
    if not head or head[1] != b"200 OK":
        fail(f"{name} was answered {first!r}")
    return first[head.end():]


def with_children(pid: int) -> list[int]:
    """A process and those that it started."""
    return [pid, *map(int, Path(f"/proc/{pid}/task/{pid}/children").read_text(encoding="ascii").split())]


@contextmanager
def listening(words: list[str], port: int) -> Iterator[Running]:
    """Another server than am, until it is no longer needed."""
    process = subprocess.Popen(words, stdout=subprocess.DEVNULL, stderr=subprocess.DEVNULL)
    try:
        while not is_listening(port):
            if process.poll() is not None:
                fail(f"{words[0]} ended")
            time.sleep(0.02)
        time.sleep(0.2)
        yield Running(port, with_children(process.pid))
    finally:
        process.terminate()
        process.wait()


@contextmanager
def am(plan: Plan) -> Iterator[Running]:
    server = Server(plan.program, str(plan.folder / "device.toml"), plan.workers)
    try:
        yield Running(server.port, [server.process.pid])
    finally:
        server.kill()


@contextmanager
def nginx(plan: Plan) -> Iterator[Running]:
    """nginx with as many workers as it takes for this machine, over files of am's answers."""
    port = free_port()
    folder = plan.folder
    paths = "".join(f" {it}_temp_path {folder}/{it};" for it in ("client_body", "proxy", "fastcgi", "uwsgi", "scgi"))
    (folder / "nginx.conf").write_text(
        f"worker_processes auto; daemon off; pid {folder}/nginx.pid; error_log {folder}/nginx.log;\n"
        "events { worker_connections 16384; }\n"
        "http { access_log off; keepalive_requests 1000000000; default_type application/json; open_file_cache max=16;\n"
        f"{paths}\n server {{ listen 127.0.0.1:{port}; location / {{ root {folder}; }} }} }}\n",
        encoding="utf-8",
    )
    with listening(["nginx", "-c", f"{folder}/nginx.conf", "-e", f"{folder}/nginx.log"], port) as running:
        yield running


@contextmanager
def started(plan: Plan, server: str) -> Iterator[Running]:
    if server == "am":
        opened = am(plan)
    elif server == "nginx":
        opened = nginx(plan)
    else:
        port = free_port()
        opened = listening([str(plan.peer), str(port), "64"], port)
    with opened as running:
        yield running


def processor_time(pids: list[int]) -> float:
    """Seconds that the processes have had."""
    ticks = 0
    for pid in pids:
        fields = Path(f"/proc/{pid}/stat").read_text(encoding="ascii").rsplit(")", 1)[1].split()
        ticks += int(fields[11]) + int(fields[12])
    return ticks / os.sysconf("SC_CLK_TCK")


def latency(output: str, share: int) -> float:
    """The latency of that share of the requests, in microseconds."""
    found = re.search(rf"(?m)^\s+{share}%\s+([\d.]+)(us|ms|s)", output)
    return float(found[1]) * UNITS[found[2]] if found else fail(f"wrk printed {output!r}")


def is_fault(note: str, requests: int) -> bool:
    """Whether a line of wrk says more than that connections ended which had all their responses."""
    counts = [int(count) for count in re.findall(r"\d+", note)]
    if not note.startswith("Socket errors") or len(counts) != 4:
        return True
    connect, read, write, late = counts
    return connect + write + late > 0 or read > requests // MOST_RESPONSES


def measured(plan: Plan, running: Running, connections: int, script: str) -> Figures:
    """One run of wrk."""
    before = processor_time(running.pids)
    output = subprocess.run(
        ["wrk", "-t", str(min(connections, 2)), "-c", str(connections), "-d", f"{plan.seconds}s", "--latency",
         "-s", str(plan.folder / script), f"http://127.0.0.1:{running.port}/"],
        capture_output=True, text=True, check=True,
    ).stdout
    used = processor_time(running.pids) - before
    count, rate = re.search(r"(\d+) requests in", output), re.search(r"Requests/sec:\s+([\d.]+)", output)
    if not count or not rate:
        fail(f"wrk printed {output!r}")
    notes = re.findall(r"(Socket errors: .*|Non-2xx or 3xx responses: .*)", output)
    if any(is_fault(note, int(count[1])) for note in notes):
        fail(f"{script} at {connections} connections: {' '.join(notes)}")
    return Figures(float(rate[1]), latency(output, 50), latency(output, 99), used / max(int(count[1]), 1) * 1e6)


@contextmanager
def idle_links(port: int, count: int) -> Iterator[None]:
    """So many connections that ask nothing."""
    with ExitStack() as links:
        for _ in range(count):
            links.enter_context(socket.create_connection(("127.0.0.1", port)))
        yield


def one_round(plan: Plan, server: str, name: str, connections: int) -> Figures:
    with started(plan, server) as running:
        if server == "am":
            (plan.folder / name).write_bytes(body_of(running.port, name))
        with idle_links(running.port, plan.idle if server != "peer" else 0):
            return measured(plan, running, connections, f"{name}.file.lua" if server == "nginx" else f"{name}.lua")


def median(rounds: list[Figures]) -> Figures:
    return Figures(
        statistics.median(it.rate for it in rounds),
        statistics.median(it.middle for it in rounds),
        statistics.median(it.late for it in rounds),
        statistics.median(it.processor for it in rounds),
    )


def compare(plan: Plan, name: str, connections: int) -> None:
    """The servers in turn, and the ratios of am to the others."""
    servers = [it for it in SERVERS[name] if it != "peer" or plan.peer]
    rounds: dict[str, list[Figures]] = {server: [] for server in servers}
    for _ in range(plan.rounds):
        for server in servers:
            rounds[server].append(one_round(plan, server, name, connections))
    medians = {server: median(figures) for server, figures in rounds.items()}
    ours = medians["am"]
    for server, figures in medians.items():
        ratios = "" if server == "am" else (
            f" (am: rate {ours.rate / figures.rate:.2f}, p99 {ours.late / figures.late:.2f},"
            f" processor {ours.processor / max(figures.processor, 0.01):.2f})"
        )
        print(f"{name:6} {connections:2} {server:5} {figures.line()}{ratios}", flush=True)


def ask_from_all(server: Server, asked: bytes) -> None:
    """200,000 requests over 64 connections."""
    links = [threading.Thread(target=ask_many, args=(server.port, asked, REQUESTS // 64)) for _ in range(64)]
    for link in links:
        link.start()
    for link in links:
        link.join()


def print_memory(plan: Plan) -> None:
    server = Server(plan.program, str(plan.folder / "device.toml"), plan.workers)
    try:
        time.sleep(0.5)
        print(f"{plan.workers} workers at rest: {server.resident() >> 10} kB")
        with idle_links(server.port, plan.idle):
            time.sleep(0.5)
            print(f"with {plan.idle} idle connections: {server.resident() >> 10} kB")
        for name in ("status", "start"):
            ask_from_all(server, frame(*ASKED[name]))
            print(f"after {REQUESTS} times {name}: {server.resident() >> 10} kB")
        told = list(whole_responses(answer(server.port, frame(*ASKED["status"]))))
        print(f"its status then: {told[0].split(bytes([13, 10, 13, 10]))[1].decode()}")
    finally:
        server.kill()


def built_peer(folder: Path) -> str | None:
    """The peer, built, or nothing without a compiler."""
    if not shutil.which("rustc"):
        return None
    out = folder / "peer"
    subprocess.run(["rustc", "-O", "-o", str(out), str(Path(__file__).with_name("peer.rs"))], check=True)
    return str(out)


def words() -> argparse.Namespace:
    parser = argparse.ArgumentParser(description="Measures am serve beside a plain Rust server and nginx.")
    parser.add_argument("program", nargs="?", help="the built am")
    parser.add_argument("--seconds", type=int, default=3, help="how long a run of wrk takes (3)")
    parser.add_argument("--rounds", type=int, default=3, help="of how many rounds a figure is the median (3)")
    parser.add_argument("--workers", type=int, default=os.cpu_count(), help="the workers of am (one for each processor)")
    parser.add_argument("--idle", type=int, default=0, help="connections that ask nothing meanwhile (0)")
    return parser.parse_args()


def main() -> int:
    os.environ["PATH"] += ":/usr/sbin"
    if missing := [name for name in ("wrk", "nginx") if not shutil.which(name)]:
        print(f"serve_bench: install the packages {' and '.join(missing)}", file=sys.stderr)
        return 2
    asked = words()
    hard = resource.getrlimit(resource.RLIMIT_NOFILE)[1]
    resource.setrlimit(resource.RLIMIT_NOFILE, (hard, hard))
    with tempfile.TemporaryDirectory() as name:
        folder = Path(name)
        folder.chmod(0o755)
        (folder / "device.toml").write_text(device(), encoding="utf-8")
        plan = Plan(asked.program or built(), built_peer(folder), folder, asked.seconds, asked.rounds, asked.workers, asked.idle)
        for request in ASKED:
            write_script(folder, request)
            for connections in CONNECTIONS:
                compare(plan, request, connections)
        print_memory(plan)
    return 0


if __name__ == "__main__":
    sys.exit(main())
