"""The answers of a window as ranges, each a bar."""

from pathlib import Path

from ..civil import dated
from ..program import Answer, Question, all_ranges, answered, period
from ..queries import head_of
from .marks import Mark, Picture, times_of

PAGE = 2_000
ENDS = [("from", "time"), ("to", "time")]


def first_ranges(question: Question, most: int) -> tuple[list[Answer], bool]:
    """The first ranges of the window, and whether more are left."""
    found: list[Answer] = []
    for some in all_ranges(question, min(PAGE, most)):
        found += some.ranges
        if len(found) >= most:
            return found[:most], some.is_cut or len(found) > most
    return found, False


def caption_of(question: Question, number: str, ranges: list[Answer], is_cut: bool) -> str:
    """How many answers the window has, in how many ranges."""
    first, last = (dated(end) if question.is_civil else end for end in (question.first, question.last))
    if not ranges:
        return f"No answer from {first} to {last}."
    answers = f"{number} answer{'' if number == '1' else 's'} from {first} to {last}"
    if is_cut:
        return f"{answers}; the first {len(ranges)} ranges of them."
    return f"{answers}, in {len(ranges)} range{'s' if len(ranges) > 1 else ''}."


def ranges_picture(question: Question, most: int) -> Picture:
    """Asks the program for the ranges, which stand in one lane, and for the number of answers."""
    ranges, is_cut = first_ranges(question, most)
    query = Path(question.query).read_text(encoding="utf-8")
    number = answered(question.windowed("count")).strip()
    return in_one_lane(question, query, number, ranges, is_cut, period(question))


def in_one_lane(
    question: Question, query: str, number: str, ranges: list[Answer], is_cut: bool, period: int = 0
) -> Picture:
    """The picture of these ranges, which have so many answers in all."""
    marks = [Mark(number, each, times_of(each, [True, True]), 0, 0) for number, each in enumerate(ranges)]
    return Picture(
        question=question,
        query=query,
        period=period,
        columns=ENDS,
        lanes=[name for name, _ in head_of(query)] if ranges else [],
        levels=[1] if ranges else [],
        marks=marks,
        is_cut=is_cut,
        caption=caption_of(question, number, ranges, is_cut),
    )
