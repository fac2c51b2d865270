"""The cells of a plan's steps, found through the engine."""

from dataclasses import replace

from ..cells import Cells, Tried, search, step_named
from ..engine.asked import Engine
from .asking import Failed, Matter, told_by


async def cells_of(engine: Engine, matter: Matter) -> Cells:
    """The cells of the steps of a matter's plan."""
    searching = search(matter.cap)
    cap = next(searching)
    try:
        while True:
            cap = searching.send(await tried(engine, replace(matter, cap=cap)))
    except StopIteration as ended:
        found: Cells = ended.value
        return found


async def tried(engine: Engine, matter: Matter) -> Tried:
    """What comes of a matter under its cap."""
    try:
        told = await told_by(engine, matter.asking("decide"))
    except Failed as failed:
        step = step_named(failed.fault.line)
        if step is None:
            raise
        return Tried(step, failed.seconds)
    return Tried(None, told.seconds)
