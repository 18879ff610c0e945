#!/usr/bin/env python3
"""Fills the history of `am serve` and looks how it answers then.

    full_history.py [PROGRAM]

PROGRAM is the built am; without it the one under crates/am/out is taken. One worker serves sixteen connections of 65,536 ticks each,
which fill a history of 1,048,576 entries: each tick has to be answered by the next place. On a last connection a further tick
has to be refused by `history_full`, at the history's end and not stored, a status to tell the whole history, and its last page
to have the last entries. It prints how long the ticks took and how much memory the server has then.
"""
import json
import os
import re
import socket
import sys
import tempfile
import threading
import time

from server import HEAD, Server, built, fail, frame

LINKS, FRAMES = 16, 65536
MOST = LINKS * FRAMES


def send_all(link, frames):
    link.sendall(frames)
    link.shutdown(socket.SHUT_WR)


def answers(port, frames):
    """What comes back for these frames."""
    with socket.create_connection(("127.0.0.1", port)) as link:
        sender = threading.Thread(target=send_all, args=(link, frames))
        sender.start()
        pieces = []
        while piece := link.recv(1 << 20):
            pieces.append(piece)
        sender.join()
    return b"".join(pieces)


def responses(read):
    at = 0
    while head := HEAD.match(read, at):
        end = head.end() + int(head[2])
        yield head[1].decode(), int(head[3]), int(head[4]), read[head.end():end].decode()
        at = end
    if at != len(read):
        fail(f"a response begins {read[at:at + 200]!r}")


def tick_all(server):
    """Ticks until the history is full."""
    at = 0
    for _ in range(LINKS):
        for response in responses(answers(server.port, frame("sys", "/v1/tick", "{}") * FRAMES)):
            if response != ("200 OK", at, 1, "{}"):
                fail(f"tick {at} was answered {response}")
            at += 1
    if at != MOST:
        fail(f"{at} ticks were answered")


def look(server):
    """How a full history is answered."""
    asked = [("/v1/tick", "{}"), ("/v1/status", None), ("/v1/history", f'{{"from":{MOST - 1}}}'), ("/v1/history", f'{{"from":{MOST}}}')]
    full, status, last, none = responses(answers(server.port, b"".join(frame("sys", *it) for it in asked)))
    if full != ("429 Too Many Requests", MOST, 0, '{"error":"history_full"}'):
        fail(f"a further tick was answered {full}")
    if status[:3] != ("200 OK", MOST, 0) or json.loads(status[3])["history"] != MOST:
        fail(f"the status was {status}")
    if [it["at"] for it in json.loads(last[3])["entries"]] != [MOST - 1] or json.loads(none[3])["entries"]:
        fail(f"the last pages were {last} and {none}")


def main(program):
    with tempfile.TemporaryDirectory() as folder:
        file = f"{folder}/device.toml"
        with open(file, "w", encoding="utf-8") as out:
            out.write('system_key = "sys"\n')
        server = Server(program, file, 1, LINKS + 1)
        before, began = server.resident(), time.monotonic()
        tick_all(server)
        took, after = time.monotonic() - began, server.resident()
        look(server)
        out, _ = server.process.communicate(timeout=60)
        if (server.process.returncode, out) != (0, f"history {MOST} served {LINKS + 1}\n"):
            fail(f"the server ended with {server.process.returncode} and {out!r}")
    print(f"{MOST} ticks in {took:.1f} s, {took / MOST * 1e6:.1f} us each; {before >> 10} kB before and {after >> 10} kB after, {(after - before) / MOST:.0f} bytes an entry; then history_full")


if __name__ == "__main__":
    main(sys.argv[1] if len(sys.argv) > 1 else built())
