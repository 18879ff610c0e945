#!/usr/bin/env python3
"""Stands between clients and `am serve`, and writes down what `am_audit` needs to judge the answers.

    record.py --listen PORT --to PORT --key SYSTEM_KEY --into FOLDER

It listens on 127.0.0.1 at one port and passes each connection on to the server at the other. What comes from a client is
also written to FOLDER/frames-N, and what the server writes to FOLDER/responses-N, where N numbers the connections from 0.
Once it is interrupted (Ctrl-C) it ends its clients' sides, lets the server answer what it has read, and asks it for its
history by the system's key, in pages over one more connection. Each entry becomes a line of FOLDER/history. Then

    am_audit --device DEVICE --history FOLDER/history --frames FOLDER/frames-N --responses FOLDER/responses-N

says whether the server answered that connection as its history promises. DEVICE is the server's device file; the server
has to have begun without kept rows. At its end the recorder prints how many connections and entries there were.
"""
import argparse
import http.client
import json
import os
import select
import signal
import socket
import sys
import threading
import time

PATIENCE_SECONDS = 60


def read(link):
    """The next bytes; none at the end, or if the connection failed."""
    try:
        return link.recv(65536)
    except OSError:
        return b""


def write(link, piece):
    """Writes to a peer that may be gone."""
    try:
        link.sendall(piece)
    except OSError:
        pass


def shut(link, way):
    try:
        link.shutdown(way)
    except OSError:
        pass


def opened(port):
    link = socket.create_connection(("127.0.0.1", port))
    link.setsockopt(socket.IPPROTO_TCP, socket.TCP_NODELAY, 1)
    return link


def private(path, mode="wb", **form):
    """A new file for its owner alone: it holds keys."""
    return open(os.open(path, os.O_WRONLY | os.O_CREAT | os.O_TRUNC, 0o600), mode, **form)


class Connection:
    """A client's connection, passed on to the server and written to two files."""

    def __init__(self, number, client, server, folder):
        self.client, self.server = client, server
        self.server_ended, self.closed = threading.Event(), threading.Event()
        frames, responses = (os.path.join(folder, f"{name}-{number}") for name in ("frames", "responses"))
        self.ways = [
            threading.Thread(target=self.pass_frames, args=(frames,), daemon=True),
            threading.Thread(target=self.pass_responses, args=(responses,), daemon=True),
        ]
        threading.Thread(target=self.pass_on, daemon=True).start()

    def pass_frames(self, path):
        """Once the server has ended its side it reads nothing more, and nothing more is written down."""
        with private(path) as kept:
            while piece := read(self.client):
                if not self.server_ended.is_set():
                    kept.write(piece)
                    write(self.server, piece)
        shut(self.server, socket.SHUT_WR)

    def pass_responses(self, path):
        with private(path) as kept:
            while piece := read(self.server):
                kept.write(piece)
                write(self.client, piece)
        self.server_ended.set()
        shut(self.server, socket.SHUT_WR)
        shut(self.client, socket.SHUT_WR)

    def pass_on(self):
        """Passes both ways on, and closes both ends once they are over."""
        for way in self.ways:
            way.start()
        for way in self.ways:
            way.join()
        self.client.close()
        self.server.close()
        self.closed.set()


def entries(port, key):
    """The entries of the server's history, page by page."""
    link = http.client.HTTPConnection("127.0.0.1", port)
    start = 0
    while True:
        link.request("POST", "/v1/history", json.dumps({"from": start}), {"AM-Key": key})
        answer = link.getresponse()
        body = answer.read()
        if answer.status != 200:
            sys.exit(f"record: the history was answered {answer.status}: {body.decode()}")
        page = json.loads(body)["entries"]
        if not page:
            break
        yield from page
        start += len(page)
    link.close()


def write_history(port, key, path):
    """Writes the history, a compact line for each entry, with the keys of objects in the order of their bytes."""
    count = 0
    with private(path, "w", encoding="utf-8", newline="\n") as kept:
        for entry in entries(port, key):
            kept.write(json.dumps(entry, ensure_ascii=False, separators=(",", ":"), sort_keys=True) + "\n")
            count += 1
    return count


def interrupted():
    """A socket that can be read once the process was interrupted."""
    told, teller = socket.socketpair()
    teller.setblocking(False)
    signal.set_wakeup_fd(teller.fileno())
    for number in (signal.SIGINT, signal.SIGTERM):
        signal.signal(number, lambda *_: None)
    return told, teller


def take_connections(gate, end, port, folder):
    """Takes connections until the end is told."""
    connections = []
    while end not in select.select([gate, end], [], [])[0]:
        client, _ = gate.accept()
        client.setsockopt(socket.IPPROTO_TCP, socket.TCP_NODELAY, 1)
        try:
            server = opened(port)
        except OSError as error:
            print(f"record: the server isn't reached: {error}", file=sys.stderr)
            client.close()
            continue
        connections.append(Connection(len(connections), client, server, folder))
    return connections


def end_all(connections):
    """Ends the clients' sides, and answers which connections the server leaves open."""
    for one in connections:
        shut(one.client, socket.SHUT_RD)
    end = time.monotonic() + PATIENCE_SECONDS
    return [number for number, one in enumerate(connections) if not one.closed.wait(max(0, end - time.monotonic()))]


def main():
    words = argparse.ArgumentParser(description=__doc__.splitlines()[0])
    words.add_argument("--listen", type=int, required=True, metavar="PORT", help="where the clients connect")
    words.add_argument("--to", type=int, required=True, metavar="PORT", help="where the server listens")
    words.add_argument("--key", required=True, metavar="SYSTEM_KEY", help="the system's key")
    words.add_argument("--into", required=True, metavar="FOLDER", help="where the files go")
    asked = words.parse_args()
    os.makedirs(asked.into, exist_ok=True)
    end, _teller = interrupted()
    with socket.create_server(("127.0.0.1", asked.listen)) as gate:
        connections = take_connections(gate, end, asked.to, asked.into)
    signal.signal(signal.SIGINT, signal.default_int_handler)
    open_still = end_all(connections)
    count = write_history(asked.to, asked.key, os.path.join(asked.into, "history"))
    print(f"{len(connections)} connections, {count} entries")
    if open_still:
        sys.exit(f"record: the server hasn't ended its side of connection {open_still[0]}")


if __name__ == "__main__":
    main()
