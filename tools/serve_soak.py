#!/usr/bin/env python3
"""Asks `am serve` by many clients at once, and replays its history.

    serve_soak.py [PROGRAM] [--requests N] [--seed N] [--workers N] [--links N]
    serve_soak.py [PROGRAM] --bad

PROGRAM is the built am; without it the one under crates/am/out is taken. 64 clients ask a server of 64 workers over TCP, each in
a process of its own, 200,000 requests of many kinds together. A client asks over so many links in turn (1), which stay open.
Each response has to be whole and in the form of docs/HTTP.md. Then the history is read, and the server has to end by itself and
to print its length and the number of links.

The history has to hold exactly the stored requests, each at the place that its response named. Its entries are rebuilt into
frames and asked again, with the reads among them at their places: first over one connection after the other to a server of one
worker, and then the first 65,536 of them in one `am session`. Each has to be answered as before, but for the moments and the
numbers of the desks. No delivery gets late in the meantime, so the moments change nothing else.

With `--bad` clients that stall, are slow, are cut off, never read or reset their connection stand beside good ones, which have
to go on; each is ended within the time that docs/COMMANDS.md gives it. It also tries a port that is in use, and looks whether a
thousand connections that close at once leave descriptors behind, for a server with hardly any to spare too: 200 clients come to
it at once, again and again, while a good one is answered, and it is answered once they have left.
"""
import argparse
import json
import multiprocessing
import random
import re
import socket
import struct
import subprocess
import sys
import tempfile
import threading
import time

from attack import BEARABLE, CROWD, ROUNDS, answered_at_once, held_by_bytes, watched
from server import HEAD, Link, Server, built, fail, frame, text_of

CLIENTS = 64
VISITS = 2
FRAMES = 65536


def action(client):
    return f"x.{client}"


def device():
    """Three packages for each client, each with an activity and with a receiver of the client's action."""
    lines = ['system_key = "sys"', "exempt = [" + ", ".join(f'"{action(client)}"' for client in range(CLIENTS)) + "]"]
    for number in range(3 * CLIENTS):
        listens = f'intent-filter = [{{ action = ["{action(number // 3)}"] }}]'
        manifest = f'package = "com.p{number}", activity = [{{ name = ".A", exported = true }}], receiver = [{{ name = ".R", exported = true, {listens} }}]'
        lines += ["[[package]]", f'key = "k{number}"', f"manifest = {{ {manifest} }}"]
    return "\n".join(lines) + "\n"


class Client:
    """One of the clients, which finishes each delivery of its own packages."""

    def __init__(self, number, port, wanted, seed, width):
        self.number, self.port, self.wanted, self.width = number, port, wanted, width
        self.random = random.Random(f"{seed} {number}")
        self.keys = [f"k{3 * number + place}" for place in range(3)]
        self.log = []
        self.ordered = self.unfinished = 0
        self.place = 0
        self.links = []

    def ask(self, key, path, body=None):
        """The body of the response, which is noted with its frame."""
        asked = frame(key, path, None if body is None else body if isinstance(body, str) else text_of(body))
        status, at, stored, answer = self.links[len(self.log) % self.width].ask(asked)
        if at is not None:
            if at < self.place:
                fail(f"place {at} was answered behind place {self.place}")
            self.place = at
        self.log.append((self.place, at, stored, key, path, asked, status, answer))
        return status, json.loads(answer)

    def intent(self, **more):
        return {"action": action(self.number), **more}

    def drain(self):
        """Finishes what has come to the three packages."""
        for key in self.keys:
            _, inbox = self.ask(key, "/v1/inbox")
            for item in inbox["items"]:
                finish = {"delivery": item["delivery"]}
                if item.get("ordered") and self.random.random() < 0.5:
                    finish.update(code=self.random.randrange(1, 9), abort=True) if self.random.random() < 0.2 else finish.update(code=5)
                status, _ = self.ask(key, "/v1/finish", finish)
                if status != "200 OK":
                    fail(f"{finish} of {item} was answered {status}")
                self.ordered -= "result" in item
                self.unfinished -= item.get("ordered") is False

    def settle(self):
        end = time.monotonic() + 300
        while self.ordered or self.unfinished:
            self.drain()
            if time.monotonic() > end:
                fail(f"client {self.number} waits for {self.ordered} results and {self.unfinished} deliveries")

    def send(self):
        _, sent = self.ask(self.keys[0], "/v1/send", {"intent": self.intent()})
        self.unfinished += len(sent["receivers"])
        self.drain()

    def send_ordered(self):
        if self.ordered < 2:
            asked = {"code": self.random.randrange(1, 5), "intent": self.intent(), "ordered": True, "result": True}
            if self.ask(self.keys[0], "/v1/send", asked)[0] == "200 OK":
                self.ordered += 1
        self.drain()

    def pending(self):
        asked = {"code": self.random.randrange(3), "flags": ["IMMUTABLE"], "intent": self.intent(), "kind": "broadcast"}
        _, got = self.ask(self.keys[0], "/v1/pending/get", asked)
        for key in self.random.choice([self.keys[:1], self.keys[:2]]):
            status, sent = self.ask(key, "/v1/pending/send", {"token": got["token"]})
            self.unfinished += len(sent["receivers"]) if status == "200 OK" else 0
        self.drain()
        if self.random.random() < 0.5:
            self.ask(self.keys[0], "/v1/pending/cancel", {"token": got["token"]})

    def start(self):
        intent = {"component": f"com.p{3 * self.number}/com.p{3 * self.number}.A", "flags": ["NEW_TASK"]}
        status, placed = self.ask(self.keys[0], "/v1/start", {"intent": intent})
        if status == "200 OK" and self.random.random() < 0.3:
            self.ask(self.keys[0], "/v1/finish_activity", {"instance": placed["instance"]})
        self.ask(self.keys[1], "/v1/tasks")

    def query(self):
        self.ask(self.random.choice(self.keys), "/v1/query", {"intent": self.intent(), "kind": "receiver"})

    def tick(self):
        self.ask("sys", "/v1/tick", "{}")

    def status(self):
        self.ask("sys", "/v1/status")

    def inbox(self):
        self.ask(self.random.choice(self.keys), "/v1/inbox")

    def grant(self):
        asked = {"held": self.random.random() < 0.5, "package": f"com.p{3 * self.number}", "permission": f"p.{self.random.randrange(4)}"}
        self.ask("sys", "/v1/grant", asked)

    def install(self):
        name = f"com.i{self.number}"
        if self.random.random() < 0.5:
            self.ask("sys", "/v1/install", {"key": f"ki{self.number}", "manifest": f'package = "{name}"'})
            self.ask(f"ki{self.number}", "/v1/inbox")
        else:
            self.ask("sys", "/v1/uninstall", {"package": name})

    def history(self):
        """The entries from a place of its own on begin with what it asked there."""
        own = [it for it in self.log[-200:] if it[2]]
        if own:
            _, at, _, _, path, asked, _, _ = self.random.choice(own)
            _, found = self.ask("sys", "/v1/history", {"from": at})
            entry = found["entries"][0]
            if (entry["at"], entry["route"], entry["request"]) != (at, path, json.loads(body_of(asked) or "{}")):
                fail(f"place {at} has {entry}, and not {asked!r}")

    def refused(self):
        self.random.choice([
            lambda: self.ask("none", "/v1/status"),
            lambda: self.ask("sys", "/v1/none"),
            lambda: self.ask("sys", "/v1/tick"),
            lambda: self.ask("sys", "/v1/grant", "{"),
            lambda: self.ask(self.keys[0], "/v1/tick", "{}"),
            lambda: self.ask(self.keys[0], "/v1/finish", {"delivery": 0}),
        ])()

    def visit(self, wanted):
        """Connections, over which it asks until it has asked so often, and finishes what it began."""
        kinds = [self.send, self.send_ordered, self.pending, self.start, self.query, self.tick, self.status, self.inbox,
                 self.grant, self.install, self.history, self.refused]
        self.links = [Link(self.port) for _ in range(self.width)]
        while len(self.log) < wanted:
            self.random.choices(kinds, [5, 3, 4, 6, 8, 6, 6, 6, 3, 1, 3, 2])[0]()
        self.settle()
        for link in self.links:
            link.close()

    def run(self):
        for visit in range(VISITS):
            self.visit(self.wanted * (visit + 1) // VISITS)
        return self.log


def body_of(asked):
    return asked.split(b"\r\n\r\n", 1)[1].decode()


def client(words):
    try:
        return Client(*words).run()
    except SystemExit as end:
        raise RuntimeError(str(end)) from None


def pages(link):
    """The whole history, page by page."""
    entries = []
    while True:
        asked = frame("sys", "/v1/history", text_of({"from": len(entries)}))
        status, at, stored, body = link.ask(asked)
        found = json.loads(body)
        if status != "200 OK" or stored or found["from"] != len(entries):
            fail(f"{asked!r} was answered {status} {body[:300]}")
        if not found["entries"]:
            return entries if at == len(entries) else fail(f"{len(entries)} entries of {at} were told")
        entries += found["entries"]


def soak(program, file, words):
    """What the clients noted, and the history."""
    links = CLIENTS * VISITS * words.links + 1
    of_worker = -(-links // words.workers)
    server = Server(program, file, words.workers, of_worker)
    try:
        each = -(-words.requests // CLIENTS)
        asked = [(number, server.port, each, words.seed, words.links) for number in range(CLIENTS)]
        with multiprocessing.get_context("fork").Pool(CLIENTS) as pool:
            logs = pool.map(client, asked, chunksize=1)
        reader = Link(server.port)
        entries = pages(reader)
        reader.close()
        for _ in range(words.workers * of_worker - links):
            Link(server.port).close()
        server.end(len(entries), words.workers * of_worker)
    finally:
        server.kill()
    return [it for log in logs for it in log], entries


def rebuilt(entries, notes):
    """The frames of the history, each made of its entry alone, and the reads at their places."""
    keys = {1000: "sys", **{10000 + number: f"k{number}" for number in range(3 * CLIENTS)}}
    stored = {it[1]: it for it in notes if it[2]}
    if len(stored) != len(entries) or len(stored) != sum(it[2] for it in notes):
        fail(f"{len(entries)} entries, and {sum(it[2] for it in notes)} stored requests at {len(stored)} places")
    asked = []
    for at, entry in enumerate(entries):
        uid, body = entry["uid"], text_of(entry["request"])
        made = frame(keys[uid], entry["route"], body)
        if entry["at"] != at or not entry["kept"] or entry["weight"] != len(body.encode()) or made != stored[at][5]:
            fail(f"entry {at} is {entry}, and asked was {stored[at][5]!r}")
        asked.append((at, 1, made, stored[at]))
    asked += [(it[0], 0, it[5], it) for it in notes if not it[2]]
    return sorted(asked, key=lambda it: it[:2])


def timeless(path, body):
    """The body without its moments and its numbers of desks."""
    if path not in ("/v1/history", "/v1/status"):
        return body
    return re.sub(r'"(now|moment|desk)":\d+', r'"\1":0', body)


def count_differing(asked, answers, name):
    differing = 0
    for (_, _, _, note), (status, at, stored, body) in zip(asked, answers, strict=True):
        path = note[4]
        if (at, stored, status, timeless(path, body)) != (note[1], note[2], note[6], timeless(path, note[7])):
            differing += 1
            if differing <= 5:
                print(f"{name}: {note[5]!r} at {note[1]} was answered {note[6]} {note[7][:300]}\n  and then at {at} {status} {body[:300]}")
    return differing


def answered_over(port, asked):
    """What these frames are answered over one connection, which takes some at a time."""
    link, answers = Link(port), []
    for begin in range(0, len(asked), 32):
        part = asked[begin:begin + 32]
        link.socket.sendall(b"".join(it[2] for it in part))
        answers += [link.response() for _ in part]
    link.close()
    return answers


def replay_served(program, file, asked, history):
    parts = [asked[begin:begin + FRAMES - 1] for begin in range(0, len(asked), FRAMES - 1)]
    server = Server(program, file, 1, len(parts))
    try:
        answers = [it for part in parts for it in answered_over(server.port, part)]
        server.end(history, len(parts))
    finally:
        server.kill()
    return count_differing(asked, answers, "one worker")


class Output(Link):
    """The responses of a session."""

    def __init__(self, read):
        self.read = read

    def more(self):
        fail(f"the session's output ends with {self.read!r}")


def replay_session(program, file, asked, entries):
    asked = asked[:FRAMES - 1]
    first = str(entries[0]["now"])
    with tempfile.TemporaryFile() as frames:
        frames.write(b"".join(it[2] for it in asked))
        frames.seek(0)
        run = subprocess.run([program, "session", "--device", file, "--at", first, "--step", "0"], stdin=frames, capture_output=True)
    if run.returncode or run.stderr:
        fail(f"the session ended with {run.returncode} and {run.stderr!r}")
    output = Output(run.stdout)
    answers = []
    for part in split_responses(run.stdout):
        output.read = part
        answers.append(output.response())
    return len(asked), count_differing(asked, answers, "a session")


def split_responses(output):
    """Each response by itself, as its head tells its length."""
    at = 0
    while head := HEAD.match(output, at):
        end = head.end() + int(head[2])
        yield output[at:end]
        at = end
    if at != len(output):
        fail(f"the session's output ends with {output[at:at + 300]!r}")


def main_soak(program, words):
    with tempfile.NamedTemporaryFile("w", suffix=".toml") as file:
        file.write(device())
        file.flush()
        began = time.perf_counter()
        notes, entries = soak(program, file.name, words)
        took = time.perf_counter() - began
        print(f"{len(notes)} responses over {CLIENTS * words.links} links on {words.workers} workers checked in {took:.0f} s, {len(entries)} of them stored")
        kinds = {}
        for it in notes:
            kinds[it[4]] = kinds.get(it[4], 0) + 1
        print(", ".join(f"{path} {count}" for path, count in sorted(kinds.items())))
        asked = rebuilt(entries, notes)
        differing = replay_served(program, file.name, asked, len(entries))
        print(f"replayed by one worker: {len(asked)} responses, {differing} differ")
        replayed, others = replay_session(program, file.name, asked, entries)
        print(f"replayed by a session: {replayed} responses, {others} differ")
    return 1 if differing or others else 0


STATUS = frame("sys", "/v1/status")


def good_client(port, counts, stop):
    """Asks, over one connection after the other, and counts the answers."""
    while not stop.is_set():
        link, last = Link(port), counts[0] + FRAMES - 1
        while not stop.is_set() and counts[0] < last:
            if link.ask(STATUS)[0] != "200 OK":
                fail("a good client was refused")
            counts[0] += 1
        link.close()


def rest_of(connection):
    """What comes until the server ends the connection, and how it ends."""
    read = b""
    try:
        while piece := connection.recv(1 << 16):
            read += piece
        return read, "closed"
    except ConnectionResetError:
        return read, "reset"


def connect(port):
    connection = socket.create_connection(("127.0.0.1", port))
    connection.settimeout(90)
    return connection


def silent(port):
    began = time.monotonic()
    ended = rest_of(connect(port))
    took = time.monotonic() - began
    return ended == (b"", "closed") and 25 < took < 40, f"sends nothing: {ended[1]} after {took:.1f} s"


def half(port):
    began = time.monotonic()
    connection = connect(port)
    connection.sendall(STATUS[:20])
    ended = rest_of(connection)
    took = time.monotonic() - began
    return ended == (b"", "closed") and 25 < took < 40, f"sends half a frame: {ended[1]} after {took:.1f} s"


def slow(port):
    took = held_by_bytes(port, 1)
    return 25 < took < 40, f"sends a byte each second: ended after {took:.1f} s"


def slow_behind_an_answer(port):
    connection = connect(port)
    connection.sendall(STATUS)
    connection.recv(1 << 16)
    took = held_by_bytes(port, 1, connection)
    return 25 < took < 40, f"sends a byte each second behind an answer: ended after {took:.1f} s"


def half_and_end(port):
    connection = connect(port)
    connection.sendall(STATUS + STATUS[:20])
    connection.shutdown(socket.SHUT_WR)
    read, end = rest_of(connection)
    return end == "closed" and len(list(split_responses(read))) == 1, f"ends inside its second frame: {end} after {len(read)} bytes"


def byte_at_a_time(port):
    connection = connect(port)
    connection.setsockopt(socket.IPPROTO_TCP, socket.TCP_NODELAY, 1)
    for byte in STATUS:
        connection.sendall(bytes([byte]))
        time.sleep(0.002)
    connection.shutdown(socket.SHUT_WR)
    read, end = rest_of(connection)
    return end == "closed" and len(list(split_responses(read))) == 1, f"sends a byte at a time: {end} after {len(read)} bytes"


def never_reads(port):
    """It sends until the server has given it up, which waits 60 seconds for a response that isn't taken. The answers to the
    65,536 frames of a connection are more than the buffers take."""
    connection = socket.socket()
    connection.setsockopt(socket.SOL_SOCKET, socket.SO_RCVBUF, 4096)
    connection.settimeout(200)
    connection.connect(("127.0.0.1", port))
    began, sent = time.monotonic(), 0
    try:
        while time.monotonic() - began < 190:
            sent += connection.send(STATUS * 1000)
    except (ConnectionResetError, BrokenPipeError, TimeoutError) as error:
        took = time.monotonic() - began
        return 55 < took < 120, f"never reads: {type(error).__name__} after {took:.1f} s and {sent} bytes"
    return False, "never reads: was never ended"


def resets(port):
    for cut in (0, 20, len(STATUS)):
        connection = connect(port)
        connection.sendall(STATUS[:cut])
        connection.setsockopt(socket.SOL_SOCKET, socket.SO_LINGER, struct.pack("ii", 1, 0))
        connection.close()
    return True, "resets: three times"


BAD = [silent, half, slow, slow_behind_an_answer, half_and_end, byte_at_a_time, never_reads, resets]


def try_bad(server):
    """The bad clients one beside the other, and good ones among them."""
    stop, counts, results = threading.Event(), [[0], [0]], []
    good = [threading.Thread(target=good_client, args=(server.port, count, stop), daemon=True) for count in counts]
    bad = [threading.Thread(target=lambda it=it: results.append((it.__name__, *it(server.port))), daemon=True) for it in BAD]
    for thread in good + bad:
        thread.start()
    steps = []
    while any(thread.is_alive() for thread in bad):
        before = [count[0] for count in counts]
        time.sleep(2)
        steps.append(min(count[0] - it for count, it in zip(counts, before)))
    stop.set()
    for thread in good:
        thread.join()
    for _, is_right, text in results:
        print(f"{'right' if is_right else 'WRONG'}: a client that {text}")
    print(f"two good clients had {counts[0][0]} and {counts[1][0]} answers, and each at least {min(steps)} in two seconds")
    if len(results) != len(BAD) or not all(it[1] for it in results) or min(steps) == 0:
        fail("a bad client did harm")


def try_many(server):
    """A thousand connections that close at once leave nothing behind."""
    before = server.descriptors()
    for _ in range(1000):
        connect(server.port).close()
    link = Link(server.port)
    link.ask(STATUS)
    link.close()
    end = time.monotonic() + 40
    while server.descriptors() > before and time.monotonic() < end:
        time.sleep(0.1)
    after = server.descriptors()
    print(f"{before} descriptors before a thousand connections that close at once, {after} behind them")
    if after != before:
        fail("descriptors were left")


def try_few_descriptors(program, file, workers, descriptors):
    server = Server(program, file, workers, descriptors=descriptors)
    try:
        with watched(server.port) as watch:
            answered = sum(answered_at_once(server.port) for _ in range(ROUNDS))
        print(
            f"{workers} workers with {descriptors} descriptors: {answered} of {ROUNDS * CROWD} clients that came at once were answered, "
            f"and a good one within {watch.longest * 1000:.0f} ms"
        )
        if answered == 0 or watch.longest > BEARABLE:
            fail("clients that came at once did harm")
        try_many(server)
    finally:
        server.kill()


def try_port_in_use(program, file, server):
    words = [program, "serve", "--device", file, "--port", str(server.port), "--workers", "2"]
    run = subprocess.run(words, stdin=subprocess.DEVNULL, capture_output=True, text=True, timeout=60)
    print(f"a port in use: status {run.returncode}, {run.stderr.strip()}")
    if (run.returncode, run.stdout, run.stderr) != (9, "", "am: network fault\n"):
        fail(f"a port in use was answered {run.returncode}, {run.stdout!r} and {run.stderr!r}")


def main_bad(program):
    with tempfile.NamedTemporaryFile("w", suffix=".toml") as file:
        file.write(device())
        file.flush()
        try_few_descriptors(program, file.name, 64, 130)
        try_few_descriptors(program, file.name, 8, 20)
        server = Server(program, file.name, len(BAD) + 2)
        try:
            try_port_in_use(program, file.name, server)
            try_many(server)
            try_bad(server)
            try_many(server)
            if server.process.poll() is not None:
                fail("the server ended")
        finally:
            server.kill()
    return 0


def main():
    reader = argparse.ArgumentParser(usage=__doc__)
    reader.add_argument("program", nargs="?")
    reader.add_argument("--requests", type=int, default=200_000)
    reader.add_argument("--seed", type=int, default=1)
    reader.add_argument("--workers", type=int, default=CLIENTS)
    reader.add_argument("--links", type=int, default=1)
    reader.add_argument("--bad", action="store_true")
    words = reader.parse_args()
    program = words.program or built()
    return main_bad(program) if words.bad else main_soak(program, words)


if __name__ == "__main__":
    sys.exit(main())
