"""The page's gateway: who may ask, the page with its script and style sheet, and the views as JSON."""
import json
from collections.abc import Awaitable, Callable, Mapping
from pathlib import Path
from typing import Any

from jinja2 import Environment, FileSystemLoader
from starlette.applications import Starlette
from starlette.concurrency import run_in_threadpool
from starlette.middleware import Middleware
from starlette.middleware.base import BaseHTTPMiddleware
from starlette.requests import Request
from starlette.responses import HTMLResponse, JSONResponse, Response
from starlette.routing import Route

from amctl import words_ui
from amctl.devicefile import KINDS
from amctl.errors import AmctlError, BadWords, Ended, NoProgram, NoServer
from amctl.words import INTENT_FLAGS
from amctl.ui.desk import Desk
from amctl.ui.past import Wanted

FOLDER = Path(__file__).resolve().parent
SCRIPTS = ("page", "parts", "ask", "now", "history", "device")
FILES = {**{f"/{it}.js": "text/javascript" for it in SCRIPTS}, "/page.css": "text/css"}
HEADERS = {
    "Content-Security-Policy": "default-src 'self'; img-src 'self' data:; frame-ancestors 'none'; base-uri 'none'; form-action 'none'",
    "Cross-Origin-Resource-Policy": "same-origin",
    "Referrer-Policy": "no-referrer",
    "X-Content-Type-Options": "nosniff",
    "Cache-Control": "no-store",
}
FORBIDDEN, NOWHERE = 403, 404
Next = Callable[[Request], Awaitable[Response]]
Answering = Callable[[Request], Awaitable[Mapping[str, Any]]]


def make_app(desk: Desk, port: int) -> Starlette:
    """The application of one page on this port."""
    hosts = (f"127.0.0.1:{port}", f"localhost:{port}")

    async def guarded(request: Request, go_on: Next) -> Response:
        said = refused(request, hosts)
        answer = await go_on(request) if said is None else JSONResponse({"error": said}, FORBIDDEN)
        answer.headers.update(HEADERS)
        return answer

    async def nowhere(request: Request, fault: Exception) -> Response:
        return JSONResponse({"error": words_ui.NO_PAGE}, NOWHERE)

    middleware = [Middleware(BaseHTTPMiddleware, dispatch=guarded)]
    return Starlette(routes=[*_files(), *_views(desk)], middleware=middleware, exception_handlers={NOWHERE: nowhere})


def refused(request: Request, hosts: tuple[str, ...]) -> str | None:
    """Why a request isn't answered: a name that only leads here, or another page, must not ask."""
    if request.headers.get("host", "").lower() not in hosts:
        return words_ui.OTHER_HOST
    origin = request.headers.get("origin")
    if origin is not None and origin.lower() not in {f"http://{it}" for it in hosts}:
        return words_ui.OTHER_ORIGIN
    # a browser says so too if it sends no origin
    if request.url.path.startswith("/api/") and request.headers.get("sec-fetch-site", "same-origin") not in ("same-origin", "none"):
        return words_ui.OTHER_ORIGIN
    return None


def _files() -> list[Route]:
    texts = {path: (FOLDER / path[1:]).read_text(encoding="utf-8") for path in FILES}
    page = Environment(loader=FileSystemLoader(FOLDER), autoescape=True).get_template("page.html")
    shown = page.render(kinds=KINDS, flags=INTENT_FLAGS, words=dict(words_ui.PAGE))

    async def index(request: Request) -> Response:
        return HTMLResponse(shown)

    async def file(request: Request) -> Response:
        return Response(texts[request.url.path], media_type=FILES[request.url.path])

    return [Route("/", index), *(Route(path, file) for path in FILES)]


def _views(desk: Desk) -> list[Route]:
    async def about(request: Request) -> Mapping[str, Any]:
        return await run_in_threadpool(desk.about)

    async def alive(request: Request) -> Mapping[str, Any]:
        return await run_in_threadpool(desk.alive)

    async def ask(request: Request) -> Mapping[str, Any]:
        fields = await _fields(request)
        return await run_in_threadpool(lambda: desk.ask(fields))

    async def now(request: Request) -> Mapping[str, Any]:
        return await run_in_threadpool(desk.now)

    async def history(request: Request) -> Mapping[str, Any]:
        start = _number(request, "from")
        given = request.query_params
        wanted = Wanted(given.get("caller", ""), given.get("call", ""), "refused" in given)
        return await run_in_threadpool(lambda: desk.history(start, wanted))

    async def entry(request: Request) -> Mapping[str, Any]:
        number = _number(request, "at")
        return await run_in_threadpool(lambda: desk.entry(number))

    async def test(request: Request) -> Mapping[str, Any]:
        number = _number(request, "at")
        return await run_in_threadpool(lambda: desk.test(number))

    async def device(request: Request) -> Mapping[str, Any]:
        return await run_in_threadpool(desk.packages)

    asked = {"about": about, "alive": alive, "now": now, "history": history, "entry": entry, "test": test, "device": device}
    return [Route(f"/api/{name}", _said(view)) for name, view in asked.items()] + [Route("/api/ask", _said(ask), methods=["POST"])]


def _said(view: Answering) -> Callable[[Request], Awaitable[Response]]:
    """A view whose faults are sentences for the page to show; a failed status would be a fault in the browser's console."""

    async def answered(request: Request) -> Response:
        try:
            return JSONResponse(await view(request))
        except (NoServer, Ended, NoProgram) as gone:
            return JSONResponse({"gone": gone.told})
        except AmctlError as wrong:
            return JSONResponse({"error": wrong.told})

    return answered


async def _fields(request: Request) -> Mapping[str, Any]:
    try:
        found = json.loads(await request.body())
    except ValueError:
        found = None
    if not isinstance(found, dict) or "json" not in request.headers.get("content-type", ""):
        raise BadWords(words_ui.NOT_JSON)
    return found


def _number(request: Request, name: str) -> int:
    given = request.query_params.get(name, "0")
    # Python takes other scripts' digits too
    if not (given.isascii() and given.isdigit() and len(given) < 16):
        raise BadWords(words_ui.no_entry(-1) if name == "at" else words_ui.NOT_JSON)
    return int(given)
