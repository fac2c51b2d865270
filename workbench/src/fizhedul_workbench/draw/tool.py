"""The tool `draw`."""

import re
import sys
from collections.abc import Sequence

from ..cells import cells_of
from ..civil import is_chosen, read_window
from ..lrp import put_file
from ..program import Question
from ..warned import warn_of
from ..words import choice, is_guarded, keyed, usage, whole
from .look import Look, form_of
from .marks import picture_of
from .page import asset, page_of
from .plan import page_of_plan, svg_of_plan
from .ranges import ranges_picture
from .svg import svg_of

KEYS = ["db", "query", "from", "to"]
WINDOW_KEYS = ["marks", "hour", "grid", "cap", "ranges"]
SIZE = re.compile(r'viewBox="0 0 (\d+) (\d+)"')
MOST_MARKS = 1_000_000


def drawing(question: Question, look: Look) -> bytes:
    """The drawing of a window: a page, a picture, or an image of the picture."""
    if look.is_plan:
        return drawing_of_plan(question, look)
    picture = ranges_picture(question, look.most) if look.has_ranges else picture_of(question, look.most)
    if look.form == "html":
        return page_of(picture, look).encode()
    svg = svg_of(picture, look, asset("picture.css"))
    if look.form == "svg":
        return b'<?xml version="1.0" encoding="UTF-8"?>\n' + svg.encode()
    from .browser import image_of

    size = SIZE.search(svg)
    width, height = (int(size.group(1)), int(size.group(2))) if size else (1200, 800)
    return image_of(svg, width, height)


def drawing_of_plan(question: Question, look: Look) -> bytes:
    """The drawing of the query's plan."""
    svg, across, down = svg_of_plan(question, cells_of(question) if look.has_cells else None)
    if look.form == "html":
        return page_of_plan(question, svg).encode()
    if look.form == "svg":
        return b'<?xml version="1.0" encoding="UTF-8"?>\n' + svg.encode()
    from .browser import image_of

    return image_of(svg, across, down)


def draw_tool(words: Sequence[str]) -> None:
    """Draws a window of a query's answers, or the query's plan, to a file or to standard output."""
    is_plan = "tree=yes" in words
    own = [*KEYS[:2], "cells", "cap"] if is_plan else [*KEYS, *WINDOW_KEYS]
    found = keyed(
        words, [*own, "format", "out", "civil", "tense", "wide", "plan", "tree"], KEYS[:2] if is_plan else KEYS
    )
    choice(found, "tree", "no", ["yes", "no"])
    is_civil = is_chosen(found, "civil")
    form = choice(found, "format", "html", ["html", "svg", "png"]) if "format" in found else None
    look = Look(
        form_of(found.get("out"), form),
        whole(found, "marks", 10_000, 1, MOST_MARKS),
        whole(found, "hour", 60, 1, 3_600_000),
        choice(found, "grid", "dates" if is_civil else "numbers", ["numbers", "dates"]) == "dates",
        is_chosen(found, "ranges"),
        is_plan,
        is_chosen(found, "cells"),
    )
    if is_civil and look.hour != 60:
        raise usage("with civil=yes an hour has 60 steps of time")
    first, last = read_window(found, 0, 0, is_civil)
    cap = whole(found, "cap", 1_000_000, 1, 1_000_000_000)
    keys = is_civil, is_chosen(found, "tense"), False, is_guarded(found), is_chosen(found, "wide")
    question = Question(found["db"], found["query"], first, last, cap, *keys)
    content = drawing(question, look)
    if "out" in found:
        put_file(found["out"], content)
    else:
        sys.stdout.buffer.write(content)
        sys.stdout.buffer.flush()
    warn_of(question)
