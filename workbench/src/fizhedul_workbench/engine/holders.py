"""A process that holds the library, as those see it who ask it."""

import asyncio
import json
import os
import sys
from collections.abc import Mapping
from contextlib import suppress
from dataclasses import dataclass, field
from pathlib import Path

from .programs import KILLED, end_group, tuned
from .texts import digest
from .worker import MOST_KEPT

SOURCES = Path(__file__).resolve().parents[2]
LIMIT = 1 << 24
LARGE = 1_000_000
# The commands of which the library keeps something for the next question.
KEEPING = ("ask", "decide", "list", "count", "ranges")
# The keys of a list that say which page it is; all others say which answers there are.
OF_PAGE = ("from=", "to=", "limit=", "after=", "form=")


@dataclass(frozen=True)
class Call:
    """Words, the files that they name, and which of them is a database that is to be kept, if any."""

    words: list[str]
    files: Mapping[str, bytes]
    database: str | None = None

    @property
    def command(self) -> str:
        return self.words[0] if self.words else ""

    @property
    def kept(self) -> str | None:
        """The name of the database that is kept for the next question, if any."""
        is_keeping = self.command in KEEPING and self.database in self.files
        return self.database if is_keeping else None

    @property
    def is_large(self) -> bool:
        """Whether it takes long to read its database."""
        return self.kept is not None and len(self.files[self.kept]) > LARGE

    @property
    def listing(self) -> tuple[str, ...]:
        """What the pages of one query have in common; nothing for other commands."""
        if self.command != "list":
            return ()
        same = [word for word in self.words if not word.startswith(OF_PAGE)]
        return (*same, *(digest(content) for content in self.files.values()))


@dataclass(frozen=True)
class Answer:
    """A status and a text."""

    status: int
    text: bytes


@dataclass
class Holder:
    """A process, the databases that it was asked about last, and the query of which it was asked a page."""

    process: asyncio.subprocess.Process
    databases: list[str] = field(default_factory=list)
    listing: tuple[str, ...] = ()

    def fitness(self, call: Call) -> tuple[bool, bool]:
        """How much of what a question needs is kept here."""
        name = call.kept
        has_database = name is not None and digest(call.files[name]) in self.databases
        return bool(call.listing) and call.listing == self.listing, has_database

    async def answer(self, call: Call) -> Answer:
        """What the process answers. Raises EOFError or ConnectionError where it has ended."""
        name = call.kept
        files = {each: content for each, content in call.files.items() if each != name}
        if name is None:
            return some(await self.told(call.words, files))
        content, key = call.files[name], digest(call.files[name])
        known = {"name": name, "digest": key}
        is_kept = key in self.databases
        found = await self.told(call.words, files, {**known, "length": None}) if is_kept else None
        if found is None:
            found = await self.told(call.words, files, {**known, "length": len(content)}, content)
        self.databases = [key, *(each for each in self.databases if each != key)][:MOST_KEPT]
        self.listing = call.listing or self.listing
        return some(found)

    async def told(
        self,
        words: list[str],
        files: Mapping[str, bytes],
        database: Mapping[str, object] | None = None,
        content: bytes = b"",
    ) -> Answer | None:
        """The answer to a question as it is sent; None where its database is not kept."""
        into, out_of = self.process.stdin, self.process.stdout
        if into is None or out_of is None:
            raise EOFError
        lengths = {name: len(each) for name, each in files.items()}
        header = json.dumps({"words": words, "files": lengths, "database": database})
        into.writelines([header.encode() + b"\n", *files.values(), content])
        await into.drain()
        found = json.loads(await out_of.readline() or b"null")
        if found is None:
            raise EOFError
        return None if "missing" in found else Answer(found["status"], await out_of.readexactly(found["length"]))

    async def end(self) -> int:
        """Ends the process; the status that it has then."""
        end_group(self.process.pid)
        status = await self.process.wait()
        if self.process.stdin is not None:
            self.process.stdin.close()
            # What was not written any more is no fault.
            with suppress(ConnectionError):
                await self.process.stdin.wait_closed()
        return status or KILLED


def some(found: Answer | None) -> Answer:
    if found is None:
        raise EOFError
    return found


async def held(library: str, more: str = "") -> Holder:
    """A new process that holds a library, with further folders of Python's modules."""
    pipe, null = asyncio.subprocess.PIPE, asyncio.subprocess.DEVNULL
    path = os.pathsep.join(filter(None, [more, str(SOURCES), os.environ.get("PYTHONPATH", "")]))
    named = {"FIZHEDUL_LIBRARY": library} if library else {}
    process = await asyncio.create_subprocess_exec(
        sys.executable,
        "-m",
        "fizhedul_workbench.engine.worker",
        stdin=pipe,
        stdout=pipe,
        stderr=null,
        process_group=0,
        limit=LIMIT,
        env={**os.environ, **named, **tuned(), "PYTHONPATH": path},
    )
    return Holder(process)
