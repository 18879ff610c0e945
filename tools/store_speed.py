#!/usr/bin/env python3
"""Compares `am session --store FILE` with Python's sqlite3: 1,000 rows kept, and the opening of 10,000 rows.

    store_speed.py PROGRAM FOLDER

PROGRAM is the built am, FOLDER one that it may write to. Of a session the whole run counts, less one that asks the same without
a store. sqlite3 runs in WAL with synchronous FULL. An opening reads all rows in their order. The last line has sqlite3 test the
whole file first, as the keeper always does.
"""
import os
import sqlite3
import subprocess
import sys
import time

from frames import frame

CREATE = """CREATE TABLE IF NOT EXISTS kept (kind INTEGER NOT NULL, uid INTEGER NOT NULL, word TEXT NOT NULL,
  name TEXT NOT NULL, access TEXT NOT NULL, manifest TEXT NOT NULL,
  truth INTEGER NOT NULL, PRIMARY KEY (kind, uid, word)) STRICT"""
PUT = """INSERT INTO kept (kind, uid, word, name, access, manifest, truth) VALUES (?, ?, ?, ?, ?, ?, ?)
  ON CONFLICT (kind, uid, word) DO UPDATE SET name = excluded.name, access = excluded.access,
  manifest = excluded.manifest, truth = excluded.truth"""
ALL = "SELECT kind, uid, word, name, access, manifest, truth FROM kept ORDER BY kind, uid, word"


def remove(path):
    for end in ("", "-wal", "-shm"):
        if os.path.exists(path + end):
            os.remove(path + end)


# A package may have 256 grants at most.
EACH = 250
DEVICE = 'system_key = "sys"\n' + "".join(
    f'[[package]]\nkey = "k{number}"\nmanifest = {{ package = "com.p{number}" }}\n' for number in range(40)
)


def grants(count):
    """The frames of so many grants, each of another permission."""
    made = []
    for number in range(count):
        body = f'{{"package":"com.p{number // EACH}","permission":"p.{number % EACH}","held":true}}'
        made.append(frame("sys", "/v1/grant", body))
    return b"".join(made).decode()


def seconds(words, frames):
    start = time.perf_counter()
    out = subprocess.run(words, input=frames, stdout=subprocess.PIPE, text=True, check=True)
    took = time.perf_counter() - start
    if out.stdout.count("HTTP/1.1 200 OK") != frames.count("HTTP/1.1"):
        sys.exit("a grant was refused")
    return took


def by_program(program, folder, count):
    """The seconds that the store adds to a session of so many grants."""
    words = [program, "session", "--device", os.path.join(folder, "device.toml")]
    frames = grants(count)
    return seconds([*words, "--store", os.path.join(folder, "kept.db")], frames) - seconds(words, frames)


def by_python(path, count, tests=False):
    start = time.perf_counter()
    base = sqlite3.connect(path, isolation_level=None)
    base.execute("PRAGMA journal_mode = WAL")
    base.execute("PRAGMA synchronous = FULL")
    base.execute(CREATE)
    if tests:
        base.execute("PRAGMA integrity_check").fetchall()
    base.execute(ALL).fetchall()
    opened = time.perf_counter() - start
    start = time.perf_counter()
    for number in range(count):
        base.execute(PUT, (1, number, "android.permission.CAMERA", "", "", "", 1))
    put = time.perf_counter() - start
    base.close()
    return opened, put


def report(name, pairs, total):
    ours, theirs = total(pair[0] for pair in pairs), total(pair[1] for pair in pairs)
    print(f"{name}: {ours:.4f} s, sqlite3 {theirs:.4f} s, ratio {ours / theirs:.2f}")


def main():
    """The two take turns, so that a disk or a machine that is busy for a while slows both."""
    program, folder = os.path.abspath(sys.argv[1]), os.path.abspath(sys.argv[2])
    with open(os.path.join(folder, "device.toml"), "w") as file:
        file.write(DEVICE)
    path = os.path.join(folder, "kept.db")
    puts = []
    for _ in range(10):
        remove(path)
        remove(path + ".py")
        puts.append((by_program(program, folder, 100), by_python(path + ".py", 100)[1]))
    report("1,000 rows kept in ten rounds", puts, sum)
    by_program(program, folder, 10000)
    by_python(path + ".py", 10000)
    for name, tests in (("opening 10,000 rows, best of twenty", False), ("with integrity_check", True)):
        opened = [(by_program(program, folder, 0), by_python(path + ".py", 0, tests)[0]) for _ in range(20)]
        report(name, opened, min)


main()
