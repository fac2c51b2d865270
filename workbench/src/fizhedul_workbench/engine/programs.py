"""The proved program as an engine: a process for each question."""

import asyncio
import os
import signal
import subprocess
import time
from collections.abc import Sequence

from ..words import MISSING, Refused
from .asked import Asked, Told
from .chosen import built_program, program_path
from .texts import Texts

KILLED = -signal.SIGKILL
# Refusals are explained by the tools themselves, and a window is warned of once.
QUIET = {"FIZHEDUL_EXPLAIN": "never", "FIZHEDUL_WARN": "never"}


class ProgramEngine:
    """The program, a process a call."""

    name = "program"

    def __init__(self) -> None:
        self.texts = Texts()
        self.running: set[int] = set()

    async def ready(self) -> None:
        """A process is begun with each question."""

    async def run(self, asked: Asked) -> Told:
        """Runs the program to its end; where the call is cancelled, the program is ended."""
        files = {key: self.texts.file(key, content) for key, content in asked.texts.items()}
        begun = time.monotonic()
        process = await started([built_program() or program_path(), *asked.words(files)])
        self.running.add(process.pid)
        try:
            written, _ = await process.communicate()
        except asyncio.CancelledError:
            end_group(process.pid)
            await process.wait()
            raise
        finally:
            self.running.discard(process.pid)
        status = process.returncode if process.returncode is not None else KILLED
        return Told(status, written.decode(errors="replace"), time.monotonic() - begun, files)

    async def close(self) -> None:
        """Ends what is under way, and takes the private folder away."""
        for process in self.running:
            end_group(process)
        self.texts.close()


async def started(words: list[str]) -> asyncio.subprocess.Process:
    """A process in a group of its own."""
    null, pipe = asyncio.subprocess.DEVNULL, asyncio.subprocess.PIPE
    try:
        return await asyncio.create_subprocess_exec(
            *words, stdin=null, stdout=pipe, process_group=0, limit=1 << 24, env={**os.environ, **QUIET, **tuned()}
        )
    except OSError as fault:
        raise Refused(f"{words[0]}: {fault.strerror}", MISSING) from fault


def tuned() -> dict[str, str]:
    """Memory is taken as under the launcher: small pieces are joined at once, large ones have pages of their own."""
    memory = "glibc.malloc.mxfast=0:glibc.malloc.mmap_threshold=131072"
    return {"GLIBC_TUNABLES": os.environ.get("GLIBC_TUNABLES", memory)}


def end_group(process: int) -> None:
    """Ends a process and what it started; one that has ended already is left alone."""
    try:
        os.killpg(process, signal.SIGKILL)
    except ProcessLookupError:
        pass


class ProgramByWords:
    """The program, or the launcher, which builds it first where that is needed."""

    name = "program"

    def run(self, words: Sequence[str]) -> tuple[int, bytes]:
        """Runs it to its end; an interrupt ends it too, and is passed on."""
        try:
            process = subprocess.Popen(
                [program_path(), *words],
                stdin=subprocess.DEVNULL,
                stdout=subprocess.PIPE,
                # In a group of its own, so that an interrupt ends all that it started.
                process_group=0,
                # A word may name an open file of this process, as query=/dev/fd/11.
                close_fds=False,
                env={**os.environ, **QUIET},
            )
        except OSError as fault:
            raise Refused(f"{program_path()}: {fault.strerror}", MISSING) from fault
        try:
            written, _ = process.communicate()
        except KeyboardInterrupt:
            os.killpg(process.pid, signal.SIGKILL)
            process.communicate()
            raise
        return process.returncode, written

    def close(self) -> None:
        """There is nothing that stays."""
