#!/usr/bin/env python3
"""Measures one session of 65,536 requests of many kinds over a device of 64 packages.

    session_mix.py PROGRAM

PROGRAM is the built am. The requests come in rounds: a normal broadcast to three receivers, who finish it; an ordered one
to three, who finish it in turn; a start onto a task that is there; a pending start; a tick, a status and an inbox. It
prints the time a request, and the memory that a stored entry takes beyond its request's body.
"""
import json
import resource
import subprocess
import sys
import tempfile
import time

import frames

FRAMES = 65536
GROUPS = 21


def device():
    """64 packages in groups of three: those of a group have a receiver of the same action."""
    actions = ", ".join(f'"x.{group}"' for group in range(GROUPS + 1))
    lines = ['system_key = "sys"', f"exempt = [{actions}]"]
    for number in range(64):
        action = f'intent-filter = [{{ action = ["x.{number // 3}"] }}]'
        activity = '{ name = ".A", exported = true }'
        receiver = f'{{ name = ".R", exported = true, {action} }}'
        lines += ["[[package]]", f'key = "k{number}"']
        lines += [f'manifest = {{ package = "com.p{number}", activity = [{activity}], receiver = [{receiver}] }}']
    return "\n".join(lines) + "\n"


def frame(key, path, body):
    return frames.frame(key, path, None if body is None else json.dumps(body, separators=(",", ":")))


def start(number):
    return {"component": f"com.p{number}/.A", "flags": ["NEW_TASK"]}


def setting_up():
    """A task of each group's first package, and a pending start of it."""
    for group in range(GROUPS):
        first = 3 * group
        yield f"k{first}", "/v1/start", {"intent": start(first)}
        yield f"k{first}", "/v1/pending/get", {"kind": "activity", "code": 0, "intent": start(first), "flags": ["IMMUTABLE"]}


def one_round(group, delivery):
    """The requests of one round, whose first delivery has that number."""
    first = 3 * group
    sent = {"intent": {"action": f"x.{group}"}}
    for ordered in (False, True):
        yield f"k{first}", "/v1/send", dict(sent, ordered=True) if ordered else sent
        for place in range(3):
            yield f"k{first + place}", "/v1/finish", {"delivery": delivery + place}
        delivery += 3
    yield f"k{first}", "/v1/start", {"intent": start(first)}
    yield f"k{first}", "/v1/pending/send", {"token": group + 1}
    yield "sys", "/v1/tick", {}
    yield "sys", "/v1/status", None
    yield f"k{first}", "/v1/inbox", None


def requests():
    yield from setting_up()
    delivery = 1
    group = 0
    while True:
        yield from one_round(group, delivery)
        delivery += 6
        group = (group + 1) % GROUPS


def main(program):
    made = [asked for asked, _ in zip(requests(), range(FRAMES))]
    stored = sum(body is not None for _, _, body in made)
    weight = sum(len(json.dumps(body, separators=(",", ":"))) for _, _, body in made if body is not None)
    with tempfile.NamedTemporaryFile("w", suffix=".toml") as file, tempfile.TemporaryFile() as asked_for:
        file.write(device())
        file.flush()
        words = [program, "session", "--device", file.name]
        subprocess.run(words, stdin=subprocess.DEVNULL, check=True)
        before = resource.getrusage(resource.RUSAGE_CHILDREN).ru_maxrss
        asked_for.write(b"".join(frame(*asked) for asked in made))
        asked_for.seek(0)
        began = time.perf_counter()
        run = subprocess.run(words, stdin=asked_for, capture_output=True)
        took = time.perf_counter() - began
    after = resource.getrusage(resource.RUSAGE_CHILDREN).ru_maxrss
    good = run.stdout.count(b"HTTP/1.1 200 OK\r\n")
    memory = (after - before) * 1024
    print(f"{len(made)} requests, {good} answered 200, {stored} stored; {run.stderr.decode().strip()}")
    print(f"{took / len(made) * 1e6:.1f} us a request; {memory / stored:.0f} bytes a stored entry, its body of {weight / stored:.0f} among them")
    return 0 if good == len(made) else 1


if __name__ == "__main__":
    if len(sys.argv) != 2:
        sys.exit(__doc__)
    sys.exit(main(sys.argv[1]))
