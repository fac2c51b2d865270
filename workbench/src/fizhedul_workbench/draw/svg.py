"""The picture itself, as SVG."""

from html import escape
from xml.sax.saxutils import quoteattr

from ..civil import dated
from ..lrp import width
from ..program import Answer
from .grid import grid_of, label
from .look import Look
from .marks import Mark, Picture

TOP = 34
LEVEL = 14
PAD = 10
RIGHT = 60
CHUNK = 200
LETTER = 7
MOST_LABEL = 36
# The room that a date or a number of eight digits takes beside a line of the grid.
DATE, NUMBER = 106, 60
BAD = {0xFFFE: 0xFFFD, 0xFFFF: 0xFFFD}


def safe(text: str) -> str:
    """A text inside of markup."""
    return escape(text.translate(BAD), quote=False)


def shown(answer: Answer, columns: list[tuple[str, str]]) -> str:
    """A tuple with the names of its columns."""
    return ", ".join(f"{name} = {value}" for value, (name, _) in zip(answer, columns)) or "()"


def most_letters(look: Look) -> int:
    """How long the name of a lane may be."""
    return min(MOST_LABEL, look.width // 30)


def shortened(lane: str, most: int) -> str:
    """The front of a name that fits beside its lane."""
    end = next(end for end in range(len(lane)) if width(lane[: end + 1]) > most - 1)
    return lane[:end] + "…"


def gutter(picture: Picture, look: Look) -> int:
    """The room on the left for the names of the lanes."""
    longest = max((width(lane) for lane in picture.lanes), default=0)
    return max(look.least_gutter, 24 + LETTER * min(most_letters(look), longest))


def lane_tops(picture: Picture) -> list[int]:
    """The upper edge of each lane, and after them the lower edge of the last."""
    tops = [TOP]
    for levels in picture.levels:
        tops.append(tops[-1] + levels * LEVEL + PAD)
    return tops


def place(picture: Picture, time: int, room: int) -> float:
    """Where a time stands, from 0 to the room."""
    return (time - picture.question.first) * room / picture.span


def mark_shape(picture: Picture, mark: Mark, top: int, room: int) -> str:
    """A tick for one time, a bar from the first to the second for two; further times are ticks after the bar."""
    if not mark.times:
        return ""
    y = top + PAD // 2 + mark.level * LEVEL
    at = [place(picture, time, room) for time in mark.times]
    begin, end = min(at[:2]), max(at[:2])
    title = f"<title>{safe(shown(mark.answer, picture.columns))}</title>"
    names = f'class="mark" id="m{mark.number}" data-at="{begin:.3f}"'
    ticks = "".join(f"M{x:.3f} {y}v{LEVEL - 3}" for x in (at if len(at) == 1 else at[2:]))
    bar = f'x="{begin:.3f}" y="{y + 1}" width="{max(end - begin, 0.001):.3f}" height="{LEVEL - 5}"'
    if len(at) == 1:
        return f'<path {names} d="{ticks}">{title}</path>\n'
    if len(at) == 2:
        return f"<rect {names} {bar}>{title}</rect>\n"
    return f'<g {names}>{title}<rect {bar}/><path d="{ticks}"/></g>\n'


def chunks(picture: Picture, tops: list[int], room: int) -> str:
    """The marks in groups, each with the places where it begins and ends; one out of view need not be drawn."""
    groups = []
    for begin in range(0, len(picture.marks), CHUNK):
        part = picture.marks[begin : begin + CHUNK]
        times = [time for mark in part for time in mark.times] or [picture.question.first]
        edges = [place(picture, time, room) for time in (min(times), max(times))]
        shapes = "".join(mark_shape(picture, mark, tops[mark.lane], room) for mark in part)
        groups.append(f'<g data-begin="{edges[0]:.3f}" data-end="{edges[1]:.3f}">\n{shapes}</g>\n')
    return "".join(groups)


def label_room(first: int, last: int, look: Look) -> int:
    """The room that a label of the grid takes."""
    letters = max(len(str(first)), len(str(last)))
    return DATE if look.with_dates else max(NUMBER, letters * 13 // 2 + 8)


def grid_shapes(picture: Picture, look: Look, left: int, room: int, bottom: int) -> str:
    """The lines of hours and days with their labels."""
    question = picture.question
    shapes = []
    lines = max(1, room // label_room(question.first, question.last, look))
    for time in grid_of(question.first, question.last, look.hour, look.with_dates, lines):
        x = left + place(picture, time, room)
        shapes.append(f'<line x1="{x:.2f}" y1="{TOP - 6}" x2="{x:.2f}" y2="{bottom}"/>')
        shapes.append(f'<text x="{x:.2f}" y="{TOP - 14}">{label(time, look.hour, look.with_dates)}</text>')
    return "".join(shapes)


def lane_shapes(picture: Picture, look: Look, tops: list[int]) -> str:
    """A stripe and a name for each lane."""
    shapes = []
    most = most_letters(look)
    for number, (lane, top, bottom) in enumerate(zip(picture.lanes, tops, tops[1:])):
        name = lane if width(lane) <= most else shortened(lane, most)
        if number % 2 == 0:
            shapes.append(f'<rect class="stripe" x="0" y="{top}" width="{look.width}" height="{bottom - top}"/>')
        middle = (top + bottom) // 2 + 4
        shapes.append(f'<text class="lane" x="10" y="{middle}"><title>{safe(lane)}</title>{safe(name)}</text>')
    return "\n".join(shapes)


def summary(picture: Picture) -> str:
    """One sentence on what the picture shows."""
    if picture.caption:
        return picture.caption
    count = len(picture.marks)
    first, last = (
        dated(end) if picture.question.is_civil else end for end in (picture.question.first, picture.question.last)
    )
    window = f"from {first} to {last}"
    if not count:
        return f"No answer {window}."
    text = f"{count} answer{'s' if count > 1 else ''} {window}, in {len(picture.lanes)} lane"
    text += "s." if len(picture.lanes) > 1 else "."
    return text + (" More are left in the window." if picture.is_cut else " These are all in the window.")


def svg_of(picture: Picture, look: Look, style: str) -> str:
    """The picture; `style` holds the rules of its colours, where it stands alone."""
    left = gutter(picture, look)
    room = look.width - left - RIGHT
    tops = lane_tops(picture)
    bottom = tops[-1]
    marks = chunks(picture, tops, room)
    sheet = f"<style>{style}</style>" if style else ""
    name = quoteattr(summary(picture).translate(BAD))
    return (
        f'<svg id="timeline" class="timeline" xmlns="http://www.w3.org/2000/svg"'
        f' viewBox="0 0 {look.width} {bottom + 10}" role="group" aria-label={name}'
        f' data-left="{left}" data-width="{room}" data-bottom="{bottom}">\n'
        f"{sheet}<title>{safe(summary(picture))}</title><desc>{safe(picture.query.strip())}</desc>\n"
        f'<rect class="ground" width="{look.width}" height="{bottom + 10}"/>\n{lane_shapes(picture, look, tops)}\n'
        f'<clipPath id="inside"><rect x="{left - 4}" y="0" width="{room + 8}" height="{bottom + 10}"/></clipPath>\n'
        f'<g id="grid" class="grid">{grid_shapes(picture, look, left, room, bottom)}</g>\n'
        f'<g clip-path="url(#inside)"><g transform="translate({left} 0)">'
        f'<g id="marks" class="marks">\n{marks}</g></g></g>\n</svg>\n'
    )
