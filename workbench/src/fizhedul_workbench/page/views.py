"""What the page shows of a question: answers, picture, plan, reasons and moves, each asked of the engine."""

from dataclasses import dataclass, replace

from ..civil import dated
from ..draw.look import Look
from ..draw.marks import Picture, laid_out
from ..draw.ranges import in_one_lane
from ..draw.svg import gutter, summary, svg_of
from ..engine.asked import Engine
from ..program import Answer, Page, Question
from ..words import Refused
from . import cells, moves, noted, why
from .asking import Failed, Matter, count_in, least_of, page_in, plan_of, ranges_in, schema_of, shell_words
from .request import Sent, time_of

MOST_MARKS = 2_000
MOST_LANES = 200
Shown = dict[str, object]


@dataclass(frozen=True)
class Asking:
    """A request with the texts that it speaks of, the engine, and the names of the files that have these texts."""

    engine: Engine
    sent: Sent
    texts: dict[str, bytes]
    files: dict[str, str | None]
    hour: int = 60

    @property
    def matter(self) -> Matter:
        return self.sent.matter(self.texts)

    @property
    def ends(self) -> tuple[int, int]:
        return self.sent.window(self.matter.is_civil)

    @property
    def limit(self) -> int:
        return self.sent.number("limit", 1, MOST_MARKS, 500)

    def has_bars(self, matter: Matter) -> bool:
        """Whether answers without a gap between them are one bar, which was chosen, and can be with one time alone."""
        return self.sent.flag("bars") and [sort for _, sort in matter.columns()] == ["time"]


def strings(answers: list[Answer]) -> list[list[str]]:
    """Tuples as texts, which a browser keeps as they are."""
    return [[str(value) for value in answer] for answer in answers]


async def look(asking: Asking) -> Shown:
    """The window: its answers, their picture, and where there is none the answer nearest to 0."""
    found = await picture(asking, asking.matter, known_lanes(asking.sent))
    if "pinned" not in asking.texts:
        return await shown_of(asking, found, found.gutter)
    try:
        other = await picture(asking, replace(asking.matter, query=asking.texts["pinned"]), [])
    except Failed as failed:
        return {**await shown_of(asking, found, found.gutter), "pinned": {"fault": failed.fault.as_json()}}
    wide = max(found.gutter, other.gutter)
    return {**await shown_of(asking, found, wide), "pinned": await shown_of(asking, other, wide)}


def known_lanes(sent: Sent) -> list[list[str]]:
    """The lanes that a picture had before, which stay where a window has no mark in them."""
    lanes = sent.body.get("lanes")
    given = lanes if isinstance(lanes, list) else []
    return [[str(text) for text in lane] for lane in given[:MOST_LANES] if isinstance(lane, list)]


@dataclass(frozen=True)
class Found:
    """A page of a window's answers, or of its ranges, laid out, and how it is to look."""

    matter: Matter
    command: str
    page: Page
    drawn: Picture
    look: Look

    @property
    def gutter(self) -> int:
        """The room that the names of its lanes take."""
        return gutter(self.drawn, self.look)


async def picture(asking: Asking, matter: Matter, lanes: list[list[str]]) -> Found:
    """The first answers of the window, laid out as a picture."""
    with_dates = matter.is_civil or asking.sent.flag("dates")
    look = Look("svg", asking.limit, asking.hour, with_dates, width=asking.sent.number("width", 240, 8000, 1200))
    if asking.has_bars(matter):
        page, drawn = await bars(asking, matter, asking.limit)
        return Found(matter, "ranges", page, drawn, look)
    page = await page_in(asking.engine, matter, asking.ends, asking.limit)
    texts = sum(sort != "time" for _, sort in matter.columns())
    shown = [lane for lane in lanes if len(lane) == texts]
    drawn = laid_out(question_of(asking, matter), matter.query.decode(), page.answers, page.more is not None, shown)
    return Found(matter, "list", page, drawn, look)


async def bars(asking: Asking, matter: Matter, limit: int) -> tuple[Page, Picture]:
    """The first ranges of the window, with their picture."""
    page = await ranges_page(asking, matter, asking.ends, limit)
    number = await count_in(asking.engine, matter, asking.ends)
    question = question_of(asking, matter)
    is_cut = page.more is not None
    return page, in_one_lane(question, matter.query.decode(), number or "0", page.answers, is_cut)


async def ranges_page(asking: Asking, matter: Matter, ends: tuple[int, int], limit: int) -> Page:
    """Ranges as a page: the next one begins at a time."""
    found = await ranges_in(asking.engine, matter, ends, limit)
    return Page(found.ranges, str(found.after()) if found.is_cut else None)


def question_of(asking: Asking, matter: Matter) -> Question:
    """The window as pictures take it."""
    return Question("", "", *asking.ends, None, matter.is_civil)


async def shown_of(asking: Asking, found: Found, wide: int) -> Shown:
    """What the page shows of a window; `wide` is the room for the names of lanes."""
    matter, page = found.matter, found.page
    words = matter.asking(found.command, **matter.ends(*asking.ends), limit=str(asking.limit), form="json")
    return {
        "head": matter.columns(),
        "columns": found.drawn.columns,
        "answers": strings(page.answers),
        "more": page.more,
        "svg": svg_of(found.drawn, replace(found.look, least_gutter=wide), ""),
        "lanes": lanes_of(page.answers, found.drawn.columns),
        "summary": summary(found.drawn),
        "words": shell_words(words, asking.files),
        "nearest": None if page.answers else await nearest(asking, matter),
    }


def lanes_of(answers: list[Answer], columns: list[tuple[str, str]]) -> list[list[str]]:
    keys = {tuple(str(value) for value, (_, sort) in zip(answer, columns) if sort != "time") for answer in answers}
    return [list(key) for key in sorted(keys)][:MOST_LANES]


async def nearest(asking: Asking, matter: Matter) -> Shown | None:
    """The answer nearest to 0 of all, with its times as they are shown; None where there is none at all."""
    found = await least_of(asking.engine, matter)
    if found is None:
        return None
    columns = matter.columns()
    shown = [dated(value) if matter.is_civil and isinstance(value, int) else str(value) for value in found]
    times = [value for value, (_, sort) in zip(shown, columns) if sort == "time"]
    return {"answer": shown, "times": times}


async def following(asking: Asking) -> Shown:
    """The next page of the table."""
    after = asking.sent.text("after")
    if asking.has_bars(asking.matter):
        page = await ranges_page(asking, asking.matter, (time_of(after), asking.ends[1]), asking.limit)
    else:
        page = await page_in(asking.engine, asking.matter, asking.ends, asking.limit, after)
    return {"answers": strings(page.answers), "more": page.more}


async def plan(asking: Asking) -> Shown:
    steps = await plan_of(asking.engine, asking.matter)
    return {"steps": steps, "words": shell_words(asking.matter.asking("explain"), asking.files)}


async def schema(asking: Asking) -> Shown:
    """What the database has, with the words that check it."""
    found = await schema_of(asking.engine, asking.matter)
    return {**found, "words": shell_words(asking.matter.asking("check"), asking.files)}


async def measured(asking: Asking) -> Shown:
    """The cells of the steps, and what is told of each of them, from the first one on."""
    steps = await plan_of(asking.engine, asking.matter)
    found = await cells.cells_of(asking.engine, asking.matter)
    told = [found.told(number) for number in range(1, len(steps) + 1)]
    return {"cells": found.counts, "whole": found.over is None, "told": told, "all": found.told_of_all()}


async def counted(asking: Asking) -> Shown:
    """How many answers the window has; null where the engine doesn't count such a query."""
    return {"count": await count_in(asking.engine, asking.matter, asking.ends)}


async def reasons(asking: Asking) -> Shown:
    matter = asking.matter
    near = asking.sent.number("near", 0, 2**53, 1440)
    shown = await why.why(asking.engine, matter, asking.sent.answer(matter.columns()), near)
    if isinstance(shown.get("query"), str):
        first, last = asking.ends
        words = matter.about(str(shown["query"])).asking("list", **matter.ends(first, last))
        shown["words"] = shell_words(words, {"db": asking.files.get("db")})
    return shown


async def notes(asking: Asking) -> Shown:
    return await noted.notes_of(asking.engine, asking.matter)


async def movement(asking: Asking) -> Shown:
    """How the least answer moves from the text that was opened or saved to the present one."""
    return await moves.moves_of(asking.engine, asking.texts["base"], asking.matter)


VIEWS = {
    "look": look,
    "next": following,
    "plan": plan,
    "schema": schema,
    "cells": measured,
    "count": counted,
    "why": reasons,
    "moves": movement,
    "notes": notes,
}


def fault_json(reason: str) -> Shown:
    return {"fault": {"line": reason, "which": "engine", "place": None, "means": [], "is_cap": False}}


def refused_json(refused: Refused) -> Shown:
    return fault_json(f"refused: {refused.reason}")
