"""Who may speak to the server: a page of its own, by the link that was printed."""

import hmac
import re
from collections.abc import Awaitable, Callable

from starlette.responses import JSONResponse
from starlette.types import ASGIApp, Message, Receive, Scope, Send

# Two databases, the least that a page sends at once, with each letter escaped.
MOST_BODY = 72_000_000
CHUNK = re.compile(rb"[0-9]{1,12}")
HEADERS = {
    "Content-Security-Policy": "default-src 'none'; script-src 'self'; style-src 'self'; connect-src 'self'; "
    "img-src 'self' data:; base-uri 'none'; form-action 'none'; frame-ancestors 'none'",
    "X-Content-Type-Options": "nosniff",
    "X-Frame-Options": "DENY",
    "Referrer-Policy": "no-referrer",
    "Cross-Origin-Opener-Policy": "same-origin",
    "Cross-Origin-Resource-Policy": "same-origin",
    "Cache-Control": "no-store",
}


class Guard:
    """Refuses requests for another host, from another origin, without the token, and with too long a body."""

    def __init__(self, app: ASGIApp, token: str, port: int) -> None:
        self.app = app
        self.token = token.encode()
        self.hosts = {f"127.0.0.1:{port}".encode(), f"localhost:{port}".encode()}

    async def __call__(self, scope: Scope, receive: Receive, send: Send) -> None:
        if scope["type"] != "http":
            return
        fault = self.fault_of(scope)
        if fault is not None:
            status, reason = fault
            response = JSONResponse({"refused": reason}, status, HEADERS | {"Connection": "close"})
            await response(scope, receive, send)
            return
        inner = {**scope, "path": scope["path"][len(self.token) + 1 :] or "/", "root_path": "", "raw_path": b""}
        await self.app(inner, counted(receive), with_headers(send))

    def fault_of(self, scope: Scope) -> tuple[int, str] | None:
        """The status and the reason where a request is refused before it is read."""
        headers = dict(scope["headers"])
        host = headers.get(b"host", b"")
        if host not in self.hosts:
            return 403, "the host is another one"
        origin = headers.get(b"origin")
        if origin != b"http://" + host and (origin is not None or scope["method"] == "POST"):
            return 403, "the origin is another one"
        if headers.get(b"sec-fetch-site", b"same-origin") not in (b"same-origin", b"none"):
            return 403, "the request comes from another page"
        raw = scope.get("raw_path") or scope["path"].encode()
        front, _, rest = raw.removeprefix(b"/").partition(b"/")
        if not hmac.compare_digest(front, self.token) or not (rest or raw.endswith(b"/")):
            return 403, "the link is another one: start 'fizhedul page' again, and open the link that it prints"
        if b"%" in rest or b".." in rest:
            return 404, "there is no such page"
        if scope["method"] not in ("GET", "HEAD", "POST"):
            return 405, "only GET and POST are answered"
        return fault_of_body(headers) if scope["method"] == "POST" else None


def fault_of_body(headers: dict[bytes, bytes]) -> tuple[int, str] | None:
    if headers.get(b"content-type", b"").partition(b";")[0] != b"application/json":
        return 415, "a body is JSON"
    length = headers.get(b"content-length", b"")
    if CHUNK.fullmatch(length) is None:
        return 411, "a body tells its length"
    return (413, f"a body has at most {MOST_BODY} bytes") if int(length) > MOST_BODY else None


def counted(receive: Receive) -> Callable[[], Awaitable[Message]]:
    """The body as it comes, ended where it is longer than it may be, whatever it told."""
    taken = 0

    async def limited() -> Message:
        nonlocal taken
        message = await receive()
        taken += len(message.get("body", b""))
        return {"type": "http.disconnect"} if taken > MOST_BODY else message

    return limited


def with_headers(send: Send) -> Callable[[Message], Awaitable[None]]:
    """Each answer with the headers that keep other pages out."""

    async def sent(message: Message) -> None:
        if message["type"] == "http.response.start":
            message["headers"] = [*message["headers"], *((k.lower().encode(), v.encode()) for k, v in HEADERS.items())]
        await send(message)

    return sent
