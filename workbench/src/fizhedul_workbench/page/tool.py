"""The tool `page`."""

import asyncio
import os
import secrets
import socket
import sys
import webbrowser
from collections.abc import Sequence
from datetime import date

import uvicorn

from ..civil import dated, is_chosen, read_window
from ..days import MINUTES, day_number
from ..engine.asked import Engine
from ..engine.chosen import library_path, needed_library
from ..engine.libraries import LibraryEngine
from ..engine.programs import ProgramEngine
from ..words import FAILED_WRITE, Refused, choice, is_guarded, keyed, usage, whole
from .files import named
from .guard import Guard
from .server import Setting, application

KEYS = ["db", "query", "from", "to", "cap", "plan", "tense", "wide", "civil", "dates", "ranges", "hour"]
KEYS += ["engine", "port", "open"]
LOCAL = "127.0.0.1"


def page_tool(words: Sequence[str]) -> None:
    """Serves the page until it is interrupted."""
    found = keyed(words, KEYS, ["db"])
    port = whole(found, "port", 0, 0, 65535)
    is_opened = choice(found, "open", "yes", ["yes", "no"]) == "yes"
    chosen, hour = chosen_by(found)
    db = named(found["db"])
    db.read(False)
    query = named(found["query"]) if "query" in found else None
    if query is not None:
        query.read(True)
    engine = engine_of(choice(found, "engine", "program", ["program", "library"]) if "engine" in found else None)
    setting = Setting(engine, db, query, chosen, hour)
    try:
        asyncio.run(serve(setting, listening(port), is_opened and sys.stdout.isatty()))
    except KeyboardInterrupt:
        # It came before the server was there.
        pass


def engine_of(wanted: str | None) -> Engine:
    """The engine of this name; without one the library where it is there, else the program."""
    if wanted == "program":
        return ProgramEngine()
    library = needed_library() if wanted == "library" else library_path()
    if library is None:
        return ProgramEngine()
    return LibraryEngine(library)


def chosen_by(found: dict[str, str]) -> tuple[dict[str, object], int]:
    """What the words set, as the page takes it, and the steps of time in an hour."""
    is_civil = is_chosen(found, "civil")
    hour = whole(found, "hour", 60, 1, 3_600_000)
    if is_civil and hour != 60:
        raise usage("with civil=yes an hour has 60 steps of time")
    begin = MINUTES * day_number(date.today()) if is_civil else 0
    first, last = read_window(found, begin, begin + 24 * hour - 1, is_civil)
    chosen: dict[str, object] = {
        "from": dated(first) if is_civil else str(first),
        "to": dated(last) if is_civil else str(last),
        "cap": whole(found, "cap", 1_000_000, 1, 1_000_000_000),
        "civil": is_civil,
        "tense": is_chosen(found, "tense"),
        "wide": is_chosen(found, "wide"),
        "written": not is_guarded(found),
        "dates": is_chosen(found, "dates"),
        "bars": is_chosen(found, "ranges"),
    }
    return chosen, hour


def listening(port: int) -> socket.socket:
    """A socket that this machine alone reaches."""
    found = socket.socket(socket.AF_INET, socket.SOCK_STREAM)
    found.setsockopt(socket.SOL_SOCKET, socket.SO_REUSEADDR, 1)
    try:
        found.bind((LOCAL, port))
        # A browser that follows the link at once waits until the server takes its connection.
        found.listen(128)
    except OSError as fault:
        found.close()
        raise Refused(f"port {port}: {fault.strerror}", FAILED_WRITE) from fault
    return found


async def serve(setting: Setting, sock: socket.socket, is_opened: bool) -> None:
    """Prints the link, and answers until an interrupt or the end of the terminal."""
    port = sock.getsockname()[1]
    token = secrets.token_urlsafe(24)
    link = f"http://{LOCAL}:{port}/{token}/"
    app = Guard(application(setting), token, port)
    config = uvicorn.Config(
        app,
        log_level="critical",
        access_log=False,
        server_header=False,
        lifespan="off",
        ws="none",
        loop="asyncio",
        http="h11",
    )
    server = Quiet(config)
    print("fizhedul: the page is at this link, on this machine alone; Ctrl-C ends it", file=sys.stderr, flush=True)
    print(link, flush=True)
    if is_opened and ("DISPLAY" in os.environ or "WAYLAND_DISPLAY" in os.environ):
        webbrowser.open(link)
    try:
        await setting.engine.ready()
        await server.serve([sock])
    finally:
        await setting.engine.close()


class Quiet(uvicorn.Server):  # type: ignore[misc]
    """A server that ends at once, also while a tab keeps a connection open."""

    def handle_exit(self, sig: int, frame: object) -> None:
        self.should_exit = self.force_exit = True
