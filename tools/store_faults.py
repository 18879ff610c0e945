#!/usr/bin/env python3
"""Opens stores that aren't any of `am session --store FILE`, and fills a disk under one that is.

Each bad file has to be a fault (status 7) that leaves its bytes as they were. On the full disk a session has to answer
`keeper_fault`, and every grant that was acknowledged has to be in the file at the next opening.

    store_faults.py PROGRAM FOLDER

PROGRAM is the built am, FOLDER an empty folder that it may write to.
"""
import os
import pwd
import resource
import signal
import sqlite3
import subprocess
import sys

from frames import frame

TABLE = """CREATE TABLE kept (kind INTEGER NOT NULL, uid INTEGER NOT NULL, word TEXT NOT NULL,
  name TEXT NOT NULL, access TEXT NOT NULL, manifest TEXT NOT NULL,
  truth INTEGER NOT NULL, PRIMARY KEY (kind, uid, word)) STRICT"""
OTHERS = {
    "another table": ["CREATE TABLE other (a)"],
    "not strict": [TABLE.replace(" STRICT", "")],
    "a column may be null": [TABLE.replace("access TEXT NOT NULL", "access TEXT")],
    "key of two columns": [TABLE.replace("(kind, uid, word)", "(kind, uid)")],
    "one column more": [TABLE.replace("truth INTEGER", "more TEXT, truth INTEGER")],
    "one table more": [TABLE, "CREATE TABLE other (a)"],
    "one index more": [TABLE, "CREATE INDEX other ON kept (uid)"],
    "no such kind": [TABLE, "INSERT INTO kept VALUES (3, 1, 'a', '', '', '', 1)"],
    "no such truth": [TABLE, "INSERT INTO kept VALUES (1, 1, 'a', '', '', '', 2)"],
    "uid below 0": [TABLE, "INSERT INTO kept VALUES (1, -1, 'a', '', '', '', 1)"],
    "uid too large": [TABLE, "INSERT INTO kept VALUES (1, 4294967296, 'a', '', '', '', 1)"],
    "package with a word": [TABLE, "INSERT INTO kept VALUES (0, 1, 'a', '', '', '', 1)"],
    "grant with a name": [TABLE, "INSERT INTO kept VALUES (1, 1, 'a', 'b', '', '', 1)"],
    "no text": [TABLE, "INSERT INTO kept VALUES (1, 1, CAST(x'ff' AS TEXT), '', '', '', 1)"],
}


DEVICE_FILE = os.path.join(os.path.abspath(sys.argv[2]), "device.toml")
DEVICE = """system_key = "sys"
[[package]]
key = "ka"
manifest = { package = "com.a" }
"""


def grants(count):
    """The frames of so many grants, each of another permission."""
    made = []
    for number in range(count):
        body = f'{{"package":"com.a","permission":"p.{number}.{"x" * 100}","held":true}}'
        made.append(frame("sys", "/v1/grant", body))
    return b"".join(made).decode()


def words(program, path):
    return [program, "session", "--device", DEVICE_FILE, "--store", path]


def run(program, path, count, **options):
    """A session over the store that asks for so many grants."""
    return subprocess.run(
        words(program, path), input=grants(count), stdout=subprocess.PIPE, stderr=subprocess.DEVNULL, text=True, **options
    )


def acknowledged(output):
    return output.count("HTTP/1.1 200 OK")


def bytes_of(path):
    with open(path, "rb") as file:
        return file.read()


def expect_fault(program, name, path, **options):
    before = bytes_of(path) if os.path.isfile(path) else None
    status = run(program, path, 1, **options).returncode
    after = bytes_of(path) if os.path.isfile(path) else None
    if status != 7 or before != after:
        sys.exit(f"{name}: status {status}, the file {'stayed' if before == after else 'changed'}")


def bad_files(program, folder):
    expect_fault(program, "missing folder", os.path.join(folder, "no", "kept.db"))
    expect_fault(program, "a folder", folder)
    for name, content in (("garbage", os.urandom(8192)), ("a text", b"kept rows\n" * 500), ("cut header", b"SQLite format 3\0")):
        path = os.path.join(folder, name.replace(" ", "_"))
        with open(path, "wb") as file:
            file.write(content)
        expect_fault(program, name, path)
    for name, statements in OTHERS.items():
        path = os.path.join(folder, name.replace(" ", "_") + ".db")
        base = sqlite3.connect(path, isolation_level=None)
        for statement in statements:
            base.execute(statement)
        base.close()
        expect_fault(program, name, path)


def held_file(program, folder):
    """This process must not open the file otherwise: its close would drop the lock of sqlite3."""
    path = os.path.join(folder, "held.db")
    run(program, path, 3)
    base = sqlite3.connect(path, isolation_level=None)
    base.execute("BEGIN EXCLUSIVE")
    base.execute("SELECT count(*) FROM kept").fetchone()
    if run(program, path, 1).returncode != 7:
        sys.exit("held by sqlite3: no fault")
    base.execute("ROLLBACK")
    base.close()
    holder = subprocess.Popen(words(program, path), stdin=subprocess.PIPE, stdout=subprocess.PIPE, text=True)
    holder.stdin.write(grants(1))
    holder.stdin.flush()
    holder.stdout.readline()
    status = run(program, path, 1).returncode
    holder.kill()
    holder.communicate()
    if status != 7:
        sys.exit("held by another session: no fault")
    if run(program, path, 1).returncode != 0:
        sys.exit("held by another session: a fault after that one ended")


def hot_journal(program, folder):
    path = os.path.join(folder, "hot.db")
    base = sqlite3.connect(path, isolation_level=None)
    base.execute(TABLE)
    base.execute("PRAGMA cache_size = 1")
    base.execute("BEGIN")
    for number in range(2000):
        base.execute("INSERT INTO kept VALUES (1, ?, 'a', '', '', '', 1)", (number,))
    copy = os.path.join(folder, "copy.db")
    for end in ("", "-journal"):
        with open(copy + end, "wb") as file:
            file.write(bytes_of(path + end))
    base.execute("ROLLBACK")
    base.close()
    expect_fault(program, "journal of another program", copy)
    sqlite3.connect(copy).execute("SELECT count(*) FROM kept").fetchone()
    if run(program, copy, 1).returncode != 0:
        sys.exit("journal of another program: a fault after it was recovered")


def read_only(program, folder):
    path = os.path.join(folder, "read_only.db")
    run(program, path, 3)
    os.chmod(path, 0o444)
    os.chmod(folder, 0o555)
    other = {"user": pwd.getpwnam("nobody").pw_uid} if os.getuid() == 0 else {}
    expect_fault(program, "read only", path, **other)
    os.chmod(folder, 0o755)


def small_disk():
    signal.signal(signal.SIGXFSZ, signal.SIG_IGN)
    resource.setrlimit(resource.RLIMIT_FSIZE, (300000, 300000))


def full_disk(program, folder):
    path = os.path.join(folder, "full.db")
    done = run(program, path, 256, preexec_fn=small_disk)
    kept = acknowledged(done.stdout)
    status = run(program, path, 0).returncode
    found = sqlite3.connect(path).execute("SELECT count(*) FROM kept").fetchone()[0]
    if status != 0 or "keeper_fault" not in done.stdout or not 0 < kept <= found <= kept + 1:
        sys.exit(f"full disk: status {status}, {kept} acknowledged, {found} found")
    return kept


def main():
    program, folder = os.path.abspath(sys.argv[1]), os.path.abspath(sys.argv[2])
    with open(DEVICE_FILE, "w") as file:
        file.write(DEVICE)
    bad_files(program, folder)
    held_file(program, folder)
    hot_journal(program, folder)
    full = full_disk(program, folder)
    read_only(program, folder)
    print(f"{len(OTHERS) + 9} faults, and a full disk after {full} grants")


main()
