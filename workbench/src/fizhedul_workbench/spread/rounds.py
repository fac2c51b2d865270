"""Runs parts until each is done, refused for a cause, or has failed as often as it may."""

import signal
import time
from collections.abc import Iterator, Sequence
from contextlib import contextmanager
from dataclasses import dataclass, field
from typing import Any

from ..words import FAILED_WRITE
from .engine import Engine
from .progress import Progress
from .store import Cause, Done, Failed, Folder, Outcome

PAUSE = 0.1


@dataclass
class Run:
    """A part on its way: its number from 1, what it is of, its key, how it ended and how often it was tried."""

    number: int
    what: str
    key: str
    outcome: Outcome | None = None
    failures: list[str] = field(default_factory=list)
    was_there: bool = False

    @property
    def is_settled(self) -> bool:
        return isinstance(self.outcome, Done | Cause)


@dataclass(frozen=True)
class Rules:
    """How parts are run: at most so many at a time, and so often each."""

    most: int
    tries: int


def interrupt(_number: int, _frame: Any) -> None:
    raise KeyboardInterrupt


@contextmanager
def calm() -> Iterator[None]:
    """A time in which no signal interrupts: what runs elsewhere is ended."""
    numbers = (signal.SIGINT, signal.SIGTERM, signal.SIGHUP)
    before = [signal.signal(number, signal.SIG_IGN) for number in numbers]
    try:
        yield
    finally:
        for number, handler in zip(numbers, before):
            signal.signal(number, handler)


def look(folder: Folder, runs: Sequence[Run], progress: Progress) -> None:
    """Sees which parts are settled. One that seems to have failed may only not have arrived whole yet."""
    for run in runs:
        if run.outcome is None:
            found = folder.outcome(run.key)
            if isinstance(found, Done | Cause):
                run.outcome = found
                progress.part_is_done()


def is_refused(runs: Sequence[Run]) -> bool:
    return any(isinstance(run.outcome, Cause) for run in runs)


def silence(engine: Engine, key: str) -> Failed:
    """Why a part has told nothing: the disk is full, or what the engine knows of it."""
    why = engine.folder.fault_of_disk()
    return Failed(engine.told(key)) if why is None else Failed(why, FAILED_WRITE)


def run_round(engine: Engine, runs: Sequence[Run], most: int, progress: Progress) -> None:
    """Runs each of these parts once."""
    for run in runs:
        engine.folder.forget(run.key)
        run.outcome = None
    try:
        engine.start([run.key for run in runs], most)
        while engine.is_at_work():
            look(engine.folder, runs, progress)
            if all(run.is_settled for run in runs) or is_refused(runs):
                return
            time.sleep(PAUSE)
        look(engine.folder, runs, progress)
        for run in runs:
            run.outcome = run.outcome or engine.folder.outcome(run.key) or silence(engine, run.key)
            if isinstance(run.outcome, Failed):
                run.failures.append(run.outcome.why)
                progress.part_has_failed(run.number, run.outcome.why)
                engine.folder.forget(run.key)
    finally:
        with calm():
            engine.stop()


def find_done(folder: Folder, runs: Sequence[Run], progress: Progress) -> None:
    """Sees which parts an earlier call has done."""
    for run in runs:
        found = folder.outcome(run.key)
        if isinstance(found, Done):
            run.outcome, run.was_there = found, True
            progress.done += 1


def run_all(engine: Engine, runs: Sequence[Run], rules: Rules, progress: Progress) -> None:
    """Runs parts, and again those that failed, with half as many at a time each time. A refusal of one ends all."""
    most = rules.most
    for _ in range(rules.tries):
        left = [run for run in runs if not run.is_settled]
        if not left or is_refused(runs):
            return
        run_round(engine, left, most, progress)
        most = max(1, most // 2)
