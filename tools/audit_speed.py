#!/usr/bin/env python3
"""Measures an audit of 65,536 frames over a history of 65,536 entries.

    audit_speed.py AM AM_AUDIT [--frames N]

AM and AM_AUDIT are the built programs. A server of 64 packages is asked the stored requests of tools/session_mix.py over one
connection, and for its history over another one. `am_audit` has to accept the first. It prints how long that took, and the most
memory that it held.
"""
import argparse
import itertools
import os
import socket
import subprocess
import sys
import tempfile
import threading
import time

from record import write_history
from server import free_port, is_listening
from session_mix import FRAMES, device, frame, requests


def stored_requests(count):
    return itertools.islice((asked for asked in requests() if asked[2] is not None), count)


def ask_all(port, frames):
    """Sends the frames, and reads until the server has answered them all."""
    with socket.create_connection(("127.0.0.1", port)) as link:
        def send():
            link.sendall(frames)
            link.shutdown(socket.SHUT_WR)
        sender = threading.Thread(target=send)
        sender.start()
        read = bytearray()
        while piece := link.recv(1 << 20):
            read += piece
        sender.join()
    return bytes(read)


def record(program, folder, count):
    """Writes the files of an audit into a folder."""
    path = {name: os.path.join(folder, name) for name in ("device", "frames", "responses", "history")}
    with open(path["device"], "w", encoding="utf-8") as file:
        file.write(device())
    port = free_port()
    words = ["serve", "--device", path["device"], "--port", str(port), "--workers", "1", "--connections", "2"]
    server = subprocess.Popen([program, *words], stdout=subprocess.DEVNULL)
    while not is_listening(port):
        time.sleep(0.02)
    frames = b"".join(frame(*asked) for asked in stored_requests(count))
    responses = ask_all(port, frames)
    stored = write_history(port, "sys", path["history"])
    if server.wait(60) or stored != count:
        sys.exit(f"audit_speed: {stored} of {count} requests were stored")
    for name, content in (("frames", frames), ("responses", responses)):
        with open(path[name], "wb") as file:
            file.write(content)
    return path


def audit(program, path):
    """What the audit prints, how long it took, and the most memory that it held."""
    words = [word for name in ("device", "history", "frames", "responses") for word in (f"--{name}", path[name])]
    began = time.perf_counter()
    run = subprocess.Popen([program, *words], stdout=subprocess.PIPE)
    printed = run.stdout.read().decode()
    _, _, used = os.wait4(run.pid, 0)
    return printed, time.perf_counter() - began, used.ru_maxrss * 1024


def main():
    words = argparse.ArgumentParser(description=__doc__.splitlines()[0])
    words.add_argument("am")
    words.add_argument("am_audit")
    words.add_argument("--frames", type=int, default=FRAMES)
    asked = words.parse_args()
    with tempfile.TemporaryDirectory() as folder:
        path = record(asked.am, folder, asked.frames)
        sizes = ", ".join(f"{name} {os.path.getsize(path[name]) / 1e6:.1f} MB" for name in ("history", "frames", "responses"))
        printed, took, memory = audit(asked.am_audit, path)
    print(f"{printed.strip()}; {sizes}; {took:.1f} s, {took / asked.frames * 1e6:.0f} us a frame; {memory / 1e6:.0f} MB")
    return 0 if printed == f"yes {asked.frames}\n" else 1


if __name__ == "__main__":
    sys.exit(main())
