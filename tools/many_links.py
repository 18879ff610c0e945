#!/usr/bin/env python3
"""Says how soon `am serve` answers a client beside many others that keep their connections open.

    many_links.py [PROGRAM] [--links N] [--workers N]

PROGRAM is the built am; without it the one under crates/am/out is taken. So many links (100) each ask for the status once and stay
open, a quarter of them in the midst of a next request, on so many workers (2). Then a client that is new each time asks, and so do
all the links once more. It prints how long the new clients waited at most, how long a link did, and what a link costs the server
in memory. It fails if a new client waited for more than 10 ms in the middle, or if a link isn't answered.

For 10,000 links run it under `ulimit -n 20000`.
"""
import argparse
import statistics
import sys
import tempfile
import time
from contextlib import closing

from server import Link, Server, built, fail, frame

STATUS = frame("sys", "/v1/status")
DEVICE = 'system_key = "sys"\n'
NEW_CLIENTS = 51
BEARABLE = 0.010
BEGUN = 12


def opened(port: int, count: int) -> list[Link]:
    """So many links, each of which was answered once."""
    links = []
    for _ in range(count):
        link = Link(port)
        link.ask(STATUS)
        links.append(link)
    return links


def begin(links: list[Link]) -> None:
    """Sends the first bytes of a request over every fourth link."""
    for link in links[::4]:
        link.socket.sendall(STATUS[:BEGUN])


def new_client(port: int) -> float:
    """How long a client waits that connects first."""
    began = time.monotonic()
    with closing(Link(port)) as link:
        link.ask(STATUS)
    return time.monotonic() - began


def ask_all(links: list[Link]) -> list[float]:
    """How long each link waits for the answer to its next request."""
    delays = []
    for number, link in enumerate(links):
        began = time.monotonic()
        link.ask(STATUS[BEGUN:] if number % 4 == 0 else STATUS)
        delays.append(time.monotonic() - began)
    return delays


def measure(server: Server, count: int) -> float:
    """Prints the figures, and answers how long a new client waits in the middle."""
    before = server.resident()
    links = opened(server.port, count)
    begin(links)
    each = (server.resident() - before) / count
    new = [new_client(server.port) for _ in range(NEW_CLIENTS)]
    again = ask_all(links)
    middle = statistics.median(new)
    print(f"{count} links: {each:.0f} bytes each")
    print(f"new clients: {middle * 1000:.2f} ms in the middle, {max(new) * 1000:.2f} at most")
    print(f"links again: {statistics.median(again) * 1000:.2f} ms in the middle, {max(again) * 1000:.2f} at most")
    for link in links:
        link.close()
    return middle


def main() -> int:
    words = argparse.ArgumentParser(description="Says how soon am serve answers a client beside many open connections.")
    words.add_argument("program", nargs="?", metavar="PROGRAM", help="the built am")
    words.add_argument("--links", type=int, default=100, metavar="N", help="how many stay open")
    words.add_argument("--workers", type=int, default=2, metavar="N", help="how many workers serve them")
    given = words.parse_args()
    with tempfile.NamedTemporaryFile("w", suffix=".toml") as file:
        file.write(DEVICE)
        file.flush()
        server = Server(given.program or built(), file.name, given.workers)
        try:
            middle = measure(server, given.links)
        finally:
            server.kill()
    if middle > BEARABLE:
        fail(f"a new client waited for {middle * 1000:.2f} ms")
    return 0


if __name__ == "__main__":
    sys.exit(main())
