"""How the least answer moves with the edits of a database."""

from dataclasses import replace

from ..civil import dated
from ..engine.asked import Asked, Engine
from ..lrp import written_text
from ..program import Answer
from .asking import Matter, least_of, told_by
from .rows import Edit, edits_between

MOST_EDITS = 100


async def moves_of(engine: Engine, old: bytes, matter: Matter) -> dict[str, object]:
    """The least answer of the query over the old database, and then after each edit that leads to the present one.

    The engine watches the edits; with civil times, temporal operators or the wide language, or where there are too many
    edits, the query is decided before and after all of them.
    """
    edits = edits_between(old.decode(), matter.db.decode())
    before = replace(matter, db=old)
    is_plain = not (matter.is_tense or matter.is_civil or matter.is_wide)
    can_watch = edits is not None and len(edits) <= MOST_EDITS and is_plain
    if edits is not None and can_watch:
        lines = await watched(engine, before, edits)
        return {"by": "watch", "edits": [str(each) for each in edits], "least": lines}
    found = [line_of(await least_of(engine, each), matter.is_civil) for each in (before, matter)]
    shown = [] if edits is None else [str(each) for each in edits[:MOST_EDITS]]
    return {"by": "decide", "edits": shown, "least": found}


async def watched(engine: Engine, before: Matter, edits: list[Edit]) -> list[str]:
    """The lines of `watch`."""
    text = "\n".join(str(each) for each in edits)
    texts = {"db": before.db, "query": before.query, "edits": text.encode()}
    told = await told_by(engine, Asked("watch", texts, {**before.keys("watch"), "kept": "auto"}))
    return told.text.splitlines()


def line_of(answer: Answer | None, is_civil: bool) -> str:
    """An answer as `watch` writes it; civil times are dates."""
    if answer is None:
        return "none"
    return ", ".join(value_of(value, is_civil) for value in answer) or "()"


def value_of(value: int | str, is_civil: bool) -> str:
    if isinstance(value, str):
        return written_text(value)
    return dated(value) if is_civil else str(value)
