"""The shared library as an engine, in processes that stay: a database is read once, and kept for the next question."""

import asyncio
import time
from collections.abc import Coroutine, Sequence
from contextlib import AsyncExitStack
from typing import Any

from .asked import ENDINGS, Asked, Told
from .holders import Answer, Call, Holder, held
from .texts import Files, Texts

# More questions than this at a time wait for one another.
MOST_HOLDERS = 4
# How many processes are there before they are asked.
READY = 2
# So many of them at a time ask about a large database, which each of them reads.
MOST_LARGE = 2
# How long work that was given up may go on: most of it ends sooner than another process begins, or reads.
PATIENCE = 0.3
PATIENCE_LARGE = 2.0


class Ended(Exception):
    """A process ended before it had answered, with this status."""

    def __init__(self, status: int) -> None:
        super().__init__(status)
        self.status = status


class Holders:
    """Processes that hold a library, each of which answers one question at a time. One that ends is told, and the next
    question has another."""

    def __init__(self, library: str, most: int, patience: float, more: str = "") -> None:
        self.library, self.more = library, more
        self.patience = patience
        self.turns, self.turns_of_large = asyncio.Semaphore(most), asyncio.Semaphore(MOST_LARGE)
        self.free: list[Holder] = []
        self.all: dict[int, Holder] = {}
        self.beginning: set[asyncio.Future[Holder]] = set()
        self.aside: set[asyncio.Future[Any]] = set()
        self.is_closed = False

    async def answer(self, call: Call) -> Answer:
        """Asks the process that has most of what is needed, or a new one. Where it is given up, its work ends soon."""
        work = asyncio.ensure_future(self.worked(call, await self.turn_of(call)))
        try:
            return await asyncio.shield(work)
        except asyncio.CancelledError:
            if self.patience:
                self.do_aside(ended_after(work, PATIENCE_LARGE if call.is_large else self.patience))
            else:
                await ended_after(work, 0)
            raise

    async def worked(self, call: Call, turn: AsyncExitStack) -> Answer:
        """The answer of one process, which is free again after it, or has ended; the turn is over then."""
        try:
            return await self.told(call)
        finally:
            await turn.aclose()

    async def turn_of(self, call: Call) -> AsyncExitStack:
        """A turn, once it is there."""
        turn = AsyncExitStack()
        try:
            if call.is_large:
                await turn.enter_async_context(self.turns_of_large)
            await turn.enter_async_context(self.turns)
        except asyncio.CancelledError:
            await turn.aclose()
            raise
        return turn

    async def told(self, call: Call) -> Answer:
        holder: Holder | None = None
        try:
            holder = self.taken(call) or await self.begun()
            found = await holder.answer(call)
            self.free.append(holder)
            return found
        except (EOFError, ConnectionError, ValueError):
            raise Ended(await self.end(holder) if holder else 1) from None
        except asyncio.CancelledError:
            if holder:
                await self.end(holder)
            raise

    def taken(self, call: Call) -> Holder | None:
        """The process that is free and fits a question best, which is then free no longer."""
        # One that has something of another query or database is spared where there is one that has nothing.
        best = max(self.free, key=lambda each: (*each.fitness(call), not each.databases), default=None)
        if best is not None:
            self.free.remove(best)
        return best

    async def begun(self) -> Holder:
        """A new process. To give up one that is beginning may wait for ever in Python's library, so it begins all the
        same, and is there for the next question."""
        beginning = asyncio.ensure_future(held(self.library, self.more))
        self.beginning.add(beginning)
        beginning.add_done_callback(self.has_begun)
        try:
            return await asyncio.shield(beginning)
        except asyncio.CancelledError:
            beginning.add_done_callback(self.is_spare)
            raise

    def has_begun(self, beginning: "asyncio.Future[Holder]") -> None:
        self.beginning.discard(beginning)
        if not beginning.cancelled() and beginning.exception() is None:
            self.all[beginning.result().process.pid] = beginning.result()

    def is_spare(self, beginning: "asyncio.Future[Holder]") -> None:
        if not beginning.cancelled() and beginning.exception() is None:
            self.free.append(beginning.result())

    async def ready(self) -> None:
        """Begins processes before they are needed."""
        while len(self.all) < READY and not self.is_closed:
            self.free.append(await self.begun())

    async def end(self, holder: Holder) -> int:
        """Ends a process, and begins another in its place where some are to be ready."""
        self.all.pop(holder.process.pid, None)
        status = await holder.end()
        if self.patience and not self.is_closed:
            self.do_aside(self.ready())
        return status

    def do_aside(self, work: Coroutine[Any, Any, None]) -> None:
        """Does something beside what goes on."""
        task = asyncio.ensure_future(work)
        self.aside.add(task)
        task.add_done_callback(self.aside.discard)

    async def close(self) -> None:
        """Ends all processes, also those that are beginning."""
        self.is_closed = True
        for task in list(self.aside):
            task.cancel()
        await asyncio.gather(*self.beginning, return_exceptions=True)
        for holder in list(self.all.values()):
            self.all.pop(holder.process.pid, None)
            await holder.end()


async def ended_after(work: "asyncio.Future[Answer]", seconds: float) -> None:
    """Lets work go on for some time, and then ends it."""
    await asyncio.wait({work}, timeout=seconds)
    work.cancel()
    await asyncio.gather(work, return_exceptions=True)


class LibraryEngine:
    """The library, asked about texts. Of a database that is asked again what was read of it is kept."""

    name = "library"

    def __init__(self, library: str = "", more: str = "") -> None:
        self.texts = Texts()
        self.holders = Holders(library, MOST_HOLDERS, PATIENCE, more)

    async def ready(self) -> None:
        await self.holders.ready()

    async def run(self, asked: Asked) -> Told:
        """Asks one of the processes."""
        names = {key: f"text{ENDINGS[key]}" for key in asked.texts}
        files = {names[key]: content for key, content in asked.texts.items()}
        call = Call(asked.words(names), files, None if asked.is_once else names.get("db"))
        begun = time.monotonic()
        try:
            found = await self.holders.answer(call)
        except Ended as ended:
            return Told(ended.status, "", time.monotonic() - begun)
        # A refusal and a finding are explained from files.
        is_told = bool(found.status) or asked.command == "lint"
        shown = {key: self.texts.file(key, each) for key, each in asked.texts.items()} if is_told else {}
        return Told(found.status, found.text.decode(errors="replace"), time.monotonic() - begun, shown)

    async def close(self) -> None:
        """Ends all processes, and takes the private folder away."""
        await self.holders.close()
        self.texts.close()


class LibraryByWords:
    """The library, asked by words whose files are files: one process, which reads a file again where it has changed."""

    name = "library"

    def __init__(self, library: str = "") -> None:
        self.runner = asyncio.Runner()
        self.files = Files()
        self.holders = Holders(library, 1, 0)

    def run(self, words: Sequence[str]) -> tuple[int, bytes]:
        """The status and the text; an interrupt ends the work, and is passed on."""
        named = dict(word.split("=", 1) for word in words[1:] if "=" in word)
        paths = {key: path for key, path in named.items() if key in ENDINGS}
        read = {path: self.files.content(path) for path in paths.values()}
        files = {path: content for path, content in read.items() if content is not None}
        try:
            found = self.runner.run(self.holders.answer(Call(list(words), files, paths.get("db"))))
        except Ended as ended:
            return ended.status, b""
        return found.status, found.text

    def close(self) -> None:
        """Ends the process."""
        self.runner.run(self.holders.close())
        self.runner.close()
