"""The page around the picture: query and period above, a table of the answers below."""

import json
from importlib.resources import files

from ..lexer import marked_up
from .grid import DAYS_OF_MONTH, MONTHS, MOST_LINES, steps
from .look import Look
from .marks import Picture
from .svg import BAD, safe, summary, svg_of


def asset(name: str) -> str:
    return files(__package__).joinpath(name).read_text(encoding="utf-8")


def table_of(picture: Picture) -> str:
    """The answers as a table; row `rN` belongs to mark `mN`."""
    heads = "".join(f'<th scope="col">{safe(name)}: {safe(sort)}</th>' for name, sort in picture.columns)
    rows = []
    for mark in picture.marks:
        cells = "".join(
            f"<td>{value}</td>" if sort == "time" else f'<td class="text">{safe(str(value))}</td>'
            for value, (_, sort) in zip(mark.answer, picture.columns)
        )
        rows.append(f'<tr id="r{mark.number}">{cells}</tr>')
    body = "\n".join(rows)
    return (
        f"<table><caption>The answers in order</caption><thead><tr>{heads}</tr></thead>"
        f"<tbody>\n{body}\n</tbody></table>"
    )


def facts(picture: Picture, look: Look) -> str:
    """What the script has to know; numbers that may be large are texts."""
    found = {
        "first": str(picture.question.first),
        "span": picture.span,
        "hour": look.hour,
        "dates": look.with_dates,
        "lines": MOST_LINES[look.with_dates],
        "months": MONTHS,
        "month": DAYS_OF_MONTH * 24 * look.hour,
        "steps": [step for step in steps(look.hour, look.with_dates) if step < 2**53],
    }
    return json.dumps(found)


BUTTONS = [
    ("in", "Zoom in", "+"),
    ("out", "Zoom out", "\N{MINUS SIGN}"),
    ("left", "Earlier", "\N{LEFTWARDS ARROW}"),
    ("right", "Later", "\N{RIGHTWARDS ARROW}"),
    ("whole", "The whole window", "Whole window"),
]


def page_of(picture: Picture, look: Look, more: str = "") -> str:
    """One page without anything from elsewhere; `more` is markup that comes after the table."""
    buttons = "".join(
        f'<button type="button" data-act="{act}" aria-label="{name}" title="{name}">{sign}</button>'
        for act, name, sign in BUTTONS
    )
    return f"""<!DOCTYPE html>
<html lang="en">
<head>
<meta charset="utf-8">
<meta name="viewport" content="width=device-width, initial-scale=1">
<meta http-equiv="Content-Security-Policy" content="default-src 'none'; style-src 'unsafe-inline'; \
script-src 'unsafe-inline'; img-src data:">
<link rel="icon" href="data:,">
<title>Fizhedul: {safe(" ".join(picture.query.split())[:120])}</title>
<style>
{asset("picture.css")}
{asset("page.css")}
</style>
</head>
<body>
<header>
<pre class="query">{marked_up(picture.query.strip().translate(BAD))}</pre>
<p>{safe(summary(picture))} The query's period is {picture.period}.</p>
<div class="tools" role="toolbar" aria-label="The picture">{buttons}
<span class="hint">Wheel or + and \N{MINUS SIGN} zoom, drag or arrow keys move, \
n and p go from mark to mark.</span></div>
</header>
<main>
<div id="frame" tabindex="0" role="application" aria-label="Timeline: arrow keys move, plus and minus zoom, \
n and p go from mark to mark">
{svg_of(picture, look, "")}</div>
<p id="told" role="status" aria-live="polite">\N{NO-BREAK SPACE}</p>
<div id="answers" tabindex="0" role="region" aria-label="The answers in order">{table_of(picture)}</div>
{more}</main>
<script id="facts" type="application/json">{facts(picture, look)}</script>
<script>
{asset("page.js")}
</script>
</body>
</html>
"""
