#!/usr/bin/python3
"""Asks `am serve` by the pools of real HTTP clients, and through nginx.

    try_pools.py [PROGRAM]

PROGRAM is the built am; without it the one under crates/am/out is taken. 32 threads ask a server of two workers for the status, a
hundred times each, over connections that their client keeps alive: a client of requests and one of httpx for each thread, one of
httpx that all share, and the same through nginx, which keeps 64 connections alive. Then all connections rest for three seconds, and
each thread asks once more. It fails if a request isn't answered by 200 within two seconds. It needs nginx-light, python3-requests and
python3-httpx.
"""
import subprocess
import sys
import tempfile
import threading
import time
from collections.abc import Callable, Iterator
from contextlib import contextmanager
from dataclasses import dataclass, field
from pathlib import Path

import httpx
import requests

from server import Server, built, fail, free_port, is_listening

THREADS = 32
TIMES = 100
WORKERS = 2
REST = 3.0
BEARABLE = 2.0
KEY = {"AM-Key": "sys"}
PATH = "/v1/status"

Ask = Callable[[], int]


@dataclass
class Seen:
    """How long the answers took, in seconds, and what went wrong."""

    delays: list[float] = field(default_factory=list)
    faults: list[str] = field(default_factory=list)

    def note(self, ask: Ask) -> None:
        began = time.monotonic()
        try:
            status = ask()
            if status != 200:
                self.faults.append(f"status {status}")
        except (requests.RequestException, httpx.HTTPError) as error:
            self.faults.append(repr(error))
        self.delays.append(time.monotonic() - began)


def by_requests(url: str) -> Ask:
    """A session of requests of its own."""
    session = requests.Session()
    return lambda: int(session.get(url, headers=KEY, timeout=10).status_code)


def by_httpx(url: str) -> Ask:
    """A client of httpx of its own."""
    client = httpx.Client(timeout=10)
    return lambda: client.get(url, headers=KEY).status_code


def by_shared(url: str) -> Callable[[str], Ask]:
    """The client of httpx that all share."""
    client = httpx.Client(timeout=10, limits=httpx.Limits(max_keepalive_connections=THREADS, max_connections=THREADS))
    return lambda _: lambda: client.get(url, headers=KEY).status_code


def asked_by_all(make: Callable[[str], Ask], url: str) -> Seen:
    """What all threads see."""
    seen = Seen()

    def run() -> None:
        ask = make(url)
        for _ in range(TIMES):
            seen.note(ask)
        time.sleep(REST)
        seen.note(ask)

    threads = [threading.Thread(target=run) for _ in range(THREADS)]
    for thread in threads:
        thread.start()
    for thread in threads:
        thread.join()
    return seen


def report(name: str, seen: Seen) -> bool:
    """Prints a line, and answers whether every request was answered in time."""
    delays = sorted(seen.delays)
    late = delays[len(delays) * 99 // 100]
    print(
        f"{name}: {len(delays)} requests, {len(seen.faults)} faults {seen.faults[:2] or ''}, "
        f"{delays[len(delays) // 2] * 1000:.1f} ms in the middle, {late * 1000:.1f} at 99 in 100, {delays[-1] * 1000:.1f} at most",
        flush=True,
    )
    return not seen.faults and delays[-1] <= BEARABLE


@contextmanager
def nginx(folder: Path, port: int) -> Iterator[int]:
    """nginx in front of the port."""
    front = free_port()
    paths = "".join(f" {it}_temp_path {folder}/{it};" for it in ("client_body", "proxy", "fastcgi", "uwsgi", "scgi"))
    (folder / "nginx.conf").write_text(
        f"worker_processes 2; daemon off; pid {folder}/nginx.pid; error_log {folder}/nginx.log;\n"
        f"events {{ worker_connections 1024; }}\nhttp {{ access_log off;{paths}\n"
        f" upstream am {{ server 127.0.0.1:{port}; keepalive 64; }}\n"
        f" server {{ listen 127.0.0.1:{front}; location / {{ proxy_pass http://am; proxy_http_version 1.1;"
        ' proxy_set_header Connection ""; } } }\n',
        encoding="utf-8",
    )
    process = subprocess.Popen(["/usr/sbin/nginx", "-c", f"{folder}/nginx.conf", "-e", f"{folder}/nginx.log"])
    try:
        while not is_listening(front):
            if process.poll() is not None:
                fail("nginx ended")
            time.sleep(0.05)
        yield front
    finally:
        process.terminate()
        process.wait()


def main() -> int:
    program = sys.argv[1] if len(sys.argv) > 1 else built()
    with tempfile.TemporaryDirectory() as name:
        folder = Path(name)
        folder.chmod(0o755)
        (folder / "device.toml").write_text('system_key = "sys"\n', encoding="utf-8")
        server = Server(program, str(folder / "device.toml"), WORKERS)
        try:
            url = f"http://127.0.0.1:{server.port}{PATH}"
            good = [
                report("requests", asked_by_all(by_requests, url)),
                report("httpx", asked_by_all(by_httpx, url)),
                report("httpx, one pool", asked_by_all(by_shared(url), url)),
            ]
            with nginx(folder, server.port) as front:
                good.append(report("nginx in front", asked_by_all(by_httpx, f"http://127.0.0.1:{front}{PATH}")))
        finally:
            server.kill()
    print(f"{len(good)} pools, {good.count(False)} in trouble")
    return 0 if all(good) else 1


if __name__ == "__main__":
    sys.exit(main())
