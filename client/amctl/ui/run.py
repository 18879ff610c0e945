"""`amctl ui`: opens the device, takes a port, and serves the page until it is stopped."""
import dataclasses
import socket
import webbrowser
from contextlib import closing
from pathlib import Path

from amctl import words_serve, words_ui
from amctl.errors import BadWords
from amctl.serve import HOST, PortTaken
from amctl.ui.desk import Desk
from amctl.where import Where

try:
    import uvicorn

    from amctl.ui.gateway import make_app
except ImportError:
    raise BadWords(words_ui.NO_LIBRARY) from None


def run(where: Where, port: int | None, is_opened: bool) -> int:
    """Serves the page; all that it started is ended afterwards."""
    with closing(_listener(port)) as listener, closing(_desk(where)) as desk:
        taken = int(listener.getsockname()[1])
        url = f"http://{HOST}:{taken}/"
        listener.listen(128)
        print(words_ui.opened(url), flush=True)
        if is_opened and not webbrowser.open(url):
            print(words_ui.no_browser(url), flush=True)
        config = uvicorn.Config(make_app(desk, taken), log_level="critical", access_log=False, lifespan="off")
        uvicorn.Server(config).run(sockets=[listener])
    return 0


def _desk(where: Where) -> Desk:
    # a copy of the device is made from its file and its history, and a store's rows are in neither
    device = dataclasses.replace(where, store=None).open()
    try:
        # a server that isn't there is said before the page is
        device.system.status()
    except BaseException:
        device.close()
        raise
    return Desk(device, url=where.shown_url, am=where.am)


def _listener(port: int | None) -> socket.socket:
    listener = socket.socket()
    listener.setsockopt(socket.SOL_SOCKET, socket.SO_REUSEADDR, 1)
    try:
        listener.bind((HOST, port or 0))
    except PermissionError:
        listener.close()
        raise BadWords(words_serve.port_forbidden(port or 0)) from None
    except OSError:
        listener.close()
        raise PortTaken(words_serve.port_taken(port or 0)) from None
    return listener
