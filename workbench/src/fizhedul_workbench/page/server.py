"""The server of the page, on this machine alone."""

import json
from collections.abc import Awaitable, Callable
from dataclasses import dataclass, field
from typing import Any

from starlette.applications import Starlette
from starlette.concurrency import run_in_threadpool
from starlette.requests import ClientDisconnect, Request
from starlette.responses import JSONResponse, Response
from starlette.routing import Route

from ..engine.asked import Engine
from ..words import Refused
from .asking import Failed
from .desk import KINDS, Desk, Missing, Superseded
from .files import Changed, Named, digest
from .request import Sent, Unfit, number_in, of, sent, short
from .share import shared
from .site import assets, main_page
from .views import VIEWS, Asking, Shown, refused_json

# Requests of a tab are numbered as they are sent; a browser's numbers are exact up to here.
MOST_NUMBER = 2**53


@dataclass
class Setting:
    """What the page was started with."""

    engine: Engine
    db: Named
    query: Named | None
    chosen: dict[str, object] = field(default_factory=dict)
    hour: int = 60

    def file(self, kind: str) -> Named:
        found = {"db": self.db, "query": self.query}.get(kind)
        if found is None:
            raise Unfit("there is no such file")
        return found


class Server:
    """The calls of the page."""

    def __init__(self, setting: Setting) -> None:
        self.setting = setting
        self.desk = Desk()
        # The digests of what the files had when they were read or written here last.
        self.on_disk: dict[str, str] = {}

    async def open(self, _: dict[str, Any]) -> Shown:
        """The texts of the files, with their names and digests, and what was chosen by words."""
        texts = {}
        for kind in ("db", "query"):
            named = self.setting.db if kind == "db" else self.setting.query
            text = await run_in_threadpool(named.read, kind == "query") if named else ""
            texts[kind] = {"name": named.name if named else None, "text": text, "digest": digest(text)}
            self.on_disk[kind] = digest(text)
        return {**texts, "chosen": self.setting.chosen, "engine": self.setting.engine.name}

    async def save(self, body: dict[str, Any]) -> Shown:
        """Writes one of the named files."""
        kind = str(of(body, "which", str))
        text, known = str(of(body, "text", str)), str(of(body, "digest", str))
        written = await run_in_threadpool(self.setting.file(kind).save, text, known, bool(body.get("forced", False)))
        self.on_disk[kind] = written
        return {"digest": written}

    async def stop(self, body: dict[str, Any]) -> Shown:
        """Ends what goes on in a lane of a tab, where it was asked before."""
        tab, lane = short(body, "tab"), short(body, "lane")
        if self.desk.takes(tab, lane, number_in(body, "number", 0, MOST_NUMBER, 0)):
            self.desk.stop(tab, lane)
        return {}

    async def share(self, body: dict[str, Any]) -> Response:
        """The page as one file that needs no server."""
        asking = self.asking(sent(body, KINDS))
        return Response(await shared(asking), media_type="text/html")

    def asking(self, request: Sent) -> Asking:
        texts = self.desk.texts(request.tab, request.texts)
        files = {}
        for kind, named in (("db", self.setting.db), ("query", self.setting.query)):
            content = texts.get(kind, b"").decode()
            is_there = named is not None and (kind == "db" or self.on_disk.get(kind) == digest(content))
            files[kind] = named.given if named is not None and is_there else None
        return Asking(self.setting.engine, request, texts, files, self.setting.hour)

    async def view(self, name: str, body: dict[str, Any]) -> Shown:
        """One of the page's parts; a later request for it takes the place of an earlier one."""
        request = sent(body, KINDS)
        if not self.desk.takes(request.tab, request.lane, request.number("number", 0, MOST_NUMBER, 0)):
            raise Superseded
        return await self.desk.alone(request.tab, request.lane, VIEWS[name](self.asking(request)))


Call = Callable[[dict[str, Any]], Awaitable[Shown | Response]]


def answering(call: Call) -> Callable[[Request], Awaitable[Response]]:
    """A call as a handler: what is refused has its status and its reason."""

    async def handle(request: Request) -> Response:
        try:
            body = json.loads((await request.body()).decode())
            found = await call(body if isinstance(body, dict) else {})
            return found if isinstance(found, Response) else JSONResponse(found)
        except (UnicodeError, ValueError, RecursionError):
            return JSONResponse({"refused": "the body isn't JSON in UTF-8"}, 400)
        except Unfit as unfit:
            return JSONResponse({"refused": str(unfit)}, 400)
        except ClientDisconnect:
            return JSONResponse({"refused": "the body is too long, or ended early"}, 413)
        except Missing as missing:
            return JSONResponse({"missing": missing.kinds}, 409)
        except Superseded:
            return JSONResponse({"superseded": True}, 409)
        except Changed:
            return JSONResponse({"changed": True}, 409)
        except Failed as failed:
            return JSONResponse({"fault": failed.fault.as_json()})
        except Refused as refused:
            return JSONResponse(refused_json(refused))

    return handle


def application(setting: Setting) -> Starlette:
    """The page and its calls, without the guard before them."""
    server = Server(setting)
    calls: dict[str, Call] = {"open": server.open, "save": server.save, "stop": server.stop, "share": server.share}
    routes = [Route(f"/api/{name}", answering(call), methods=["POST"]) for name, call in calls.items()]
    for name in VIEWS:
        routes.append(Route(f"/api/{name}", answering(view_of(server, name)), methods=["POST"]))
    found, first = assets(), main_page()

    async def page(_: Request) -> Response:
        return Response(first, media_type="text/html")

    async def asset(request: Request) -> Response:
        content = found.get(request.path_params["name"])
        if content is None:
            return JSONResponse({"refused": "there is no such page"}, 404)
        return Response(content.data, media_type=content.kind)

    routes += [Route("/", page), Route("/site/{name}", asset)]
    return Starlette(routes=routes)


def view_of(server: Server, name: str) -> Call:
    async def call(body: dict[str, Any]) -> Shown:
        return await server.view(name, body)

    return call
