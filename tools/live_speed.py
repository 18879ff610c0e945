#!/usr/bin/env python3
"""Measures requests of `am session` while many deliveries, or many pending intents, are live.

    live_speed.py PROGRAM

PROGRAM is the built am. In one session the 256 packages of a device send 16,384 broadcasts to seven receivers each, so that
114,688 deliveries are live; in another 30,000 pending intents are. It prints the time a request of each kind, from the first
byte asked to the last byte answered, reading and printing included. Then it waits a minute, until the first of 10,000 broadcasts
to one receiver each is late, and the others aren't, and prints how long an inbox takes then, which works on a copy of all.
"""
import json
import subprocess
import sys
import tempfile
import threading
import time

import frames

GROUP = 7
PACKAGES = 256


def device():
    groups = PACKAGES // GROUP + 1
    lines = ['system_key = "sys"', "exempt = [" + ", ".join(f'"x.{group}"' for group in range(groups)) + "]"]
    for number in range(PACKAGES):
        receiver = f'{{ name = ".R", exported = true, intent-filter = [{{ action = ["x.{number // GROUP}"] }}] }}'
        lines += ["[[package]]", f'key = "k{number}"', f'manifest = {{ package = "com.p{number}", receiver = [{receiver}] }}']
    return "\n".join(lines) + "\n"


def frame(key, path, body=None):
    return frames.frame(key, path, None if body is None else json.dumps(body, separators=(",", ":")))


class Session:
    def __init__(self, program, device_file):
        words = [program, "session", "--device", device_file]
        self.run = subprocess.Popen(words, stdin=subprocess.PIPE, stdout=subprocess.PIPE)

    def ask(self, asked):
        """The seconds until all frames are answered, and the answers."""
        count, answers, found = len(asked), [], 0
        writer = threading.Thread(target=self.write, args=(b"".join(asked),))
        began = time.perf_counter()
        writer.start()
        while found < count:
            part = self.run.stdout.read1(1 << 20)
            if not part:
                sys.exit("live_speed: the session ended")
            answers.append(part)
            if found + part.count(b"HTTP/1.1 ") >= count or part.count(b"HTTP/1.1 ") == 0:
                found = self.whole(b"".join(answers))
            else:
                found += part.count(b"HTTP/1.1 ")
        took = time.perf_counter() - began
        writer.join()
        return took, b"".join(answers)

    @staticmethod
    def whole(answers):
        """How many whole responses these are."""
        found = at = 0
        while True:
            end = answers.find(b"\r\n\r\n", at)
            if end < 0:
                return found
            head = answers[at:end]
            length = int(head.split(b"Content-Length: ")[1].split(b"\r\n")[0])
            at = end + 4 + length
            if at > len(answers):
                return found
            found += 1

    def write(self, asked):
        self.run.stdin.write(asked)
        self.run.stdin.flush()

    def end(self):
        self.run.stdin.close()
        self.run.wait()


def measure(session, name, frames, wanted):
    took, answers = session.ask(frames)
    good = answers.count(b"HTTP/1.1 " + wanted)
    print(f"{name:46} {took / len(frames) * 1e6:8.1f} us a request ({len(frames)} asked, {good} answered {wanted.decode()})", flush=True)
    return good == len(frames)


def sends(broadcasts):
    return [frame(f"k{n % 252}", "/v1/send", {"intent": {"action": f"x.{n % 252 // GROUP}"}}) for n in range(broadcasts)]


def deliveries(program, file):
    session = Session(program, file)
    well = measure(session, "send to 7 receivers", sends(252 * 64), b"200")
    well &= measure(session, "tick, 112,896 live deliveries", [frame("sys", "/v1/tick", {})] * 5000, b"200")
    # Each broadcast has seven deliveries, to the packages of its sender's group in turn.
    finishes = [frame(f"k{n // GROUP % 252 // GROUP * GROUP + n % GROUP}", "/v1/finish", {"delivery": n + 1}) for n in range(10000)]
    well &= measure(session, "finish", finishes, b"200")
    well &= measure(session, "inbox of 64 items", [frame(f"k{n % 252}", "/v1/inbox") for n in range(2000)], b"200")
    session.end()
    return well


def pending(program, file):
    def get(n):
        body = {"kind": "activity", "code": n, "intent": {"component": f"com.p{n % 256}/.None"}, "flags": ["IMMUTABLE"]}
        return frame(f"k{n % 256}", "/v1/pending/get", body)

    session = Session(program, file)
    well = measure(session, "new pending intent, up to 30,000 live", [get(n) for n in range(30000)], b"200")
    well &= measure(session, "known pending intent", [get(n * 7919 % 30000) for n in range(10000)], b"200")
    gives = [frame(f"k{n % 256}", "/v1/pending/give", {"token": n + 1, "package": "com.p7"}) for n in range(10000)]
    well &= measure(session, "give", gives, b"200")
    uses = [frame("k7", "/v1/pending/send", {"token": n + 1}) for n in range(5000)]
    well &= measure(session, "use of one that starts nothing", uses, b"404")
    cancels = [frame(f"k{n % 256}", "/v1/pending/cancel", {"token": n + 1}) for n in range(10000)]
    well &= measure(session, "cancel", cancels, b"200")
    session.end()
    return well


def late(program, file):
    one = [frame(f"k{n % 252}", "/v1/send", {"intent": {"component": f"com.p{n % 252}/.R"}}) for n in range(10000)]
    session = Session(program, file)
    session.ask(one[:1])
    began = time.perf_counter()
    time.sleep(5)
    session.ask(one[1:])
    time.sleep(max(0, began + 61 - time.perf_counter()))
    took, answers = session.ask([frame("k100", "/v1/inbox")])
    print(f"an inbox when the first of 10,000 broadcasts is late: {took * 1e3:.1f} ms", flush=True)
    session.end()
    return b"AM-Stored: 1" in answers


def main(program):
    with tempfile.NamedTemporaryFile("w", suffix=".toml") as file:
        file.write(device())
        file.flush()
        done = [deliveries(program, file.name), pending(program, file.name), late(program, file.name)]
    return 0 if all(done) else 1


if __name__ == "__main__":
    if len(sys.argv) != 2:
        sys.exit(__doc__)
    sys.exit(main(sys.argv[1]))
