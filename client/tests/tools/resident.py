"""Keeps a stand-in, and answers the program `adb` beside this file at a port."""
import os
import socketserver
import threading
from collections.abc import Iterator
from contextlib import contextmanager
from pathlib import Path
from typing import BinaryIO

from amctl.phone.adb import Run

ADB = Path(__file__).resolve().parent / "adb"
# behind the number of words and each word, and behind the status and what goes to standard error: none of them has it
END = b"\0"


@contextmanager
def resident(phone: Run) -> Iterator[dict[str, str]]:
    """Serves the phone at a port; gives the environment in which `adb` finds it."""

    class Handler(socketserver.StreamRequestHandler):
        def handle(self) -> None:
            said = phone([part(self.rfile) for _ in range(int(part(self.rfile)))], 0)
            self.wfile.write(END.join([b"%d" % said.status, said.err.encode(), said.out.encode()]))

    with socketserver.TCPServer(("127.0.0.1", 0), Handler) as server:
        thread = threading.Thread(target=server.serve_forever, kwargs={"poll_interval": 0.01})
        thread.start()
        try:
            yield {"STANDIN": str(server.server_address[1])}
        finally:
            server.shutdown()
            thread.join()


def part(stream: BinaryIO) -> str:
    found = iter(lambda: stream.read(1), END)
    return os.fsdecode(b"".join(found))
