"""The answers of a window as marks in lanes."""

from collections.abc import Iterable, Sequence
from dataclasses import dataclass
from pathlib import Path

from ..civil import minute_of
from ..program import Answer, Question, page, period
from ..queries import head_of

PAGE = 2_000
MOST_LEVELS = 6


@dataclass(frozen=True)
class Mark:
    """One answer: its place among the answers, its times in head order, its lane, and its level in the lane."""

    number: int
    answer: Answer
    times: list[int]
    lane: int
    level: int


@dataclass(frozen=True)
class Picture:
    """A window of a query's answers: a lane for each combination of texts, and the marks in order; `caption` says what
    is shown where it isn't each answer."""

    question: Question
    query: str
    period: int
    columns: list[tuple[str, str]]
    lanes: list[str]
    levels: list[int]
    marks: list[Mark]
    is_cut: bool
    caption: str = ""

    @property
    def span(self) -> int:
        """The length of the window, at least 1."""
        return max(1, self.question.last - self.question.first)


def answers_of(question: Question, most: int) -> tuple[list[Answer], bool]:
    """The first answers of the window, read page by page, and whether more are left."""
    found: list[Answer] = []
    after: str | None = None
    while True:
        part = page(question, min(PAGE, most - len(found)), after)
        found += part.answers
        after = part.more
        if after is None or len(found) >= most:
            return found, after is not None


def label_of(texts: list[str], columns: list[tuple[str, str]]) -> str:
    """What stands beside a lane: its texts, or the times' names where there is no text."""
    if texts:
        return ", ".join(texts)
    return ", ".join(name for name, sort in columns if sort == "time")


def level_of(ends: list[int], begin: int, end: int) -> int:
    """The first level of a lane that is free at this time; where all are taken, the last one."""
    for level, taken in enumerate(ends):
        if taken < begin:
            ends[level] = end
            return level
    if len(ends) < MOST_LEVELS:
        ends.append(end)
    return len(ends) - 1


def times_of(answer: Answer, is_time: list[bool]) -> list[int]:
    """The times of an answer as numbers, also where they are shown as dates."""
    values = [value for value, time in zip(answer, is_time) if time]
    numbers = [minute_of(value) if isinstance(value, str) else value for value in values]
    return [number for number in numbers if number is not None]


def picture_of(question: Question, most: int) -> Picture:
    """Asks the program for the answers, and puts each into its lane."""
    answers, is_cut = answers_of(question, most)
    query = Path(question.query).read_text(encoding="utf-8")
    return laid_out(question, query, answers, is_cut, period=period(question))


def laid_out(
    question: Question,
    query: str,
    answers: list[Answer],
    is_cut: bool,
    lanes: Iterable[Sequence[str]] = (),
    period: int = 0,
) -> Picture:
    """The picture of these answers; `lanes` are the texts of lanes that are there even without a mark."""
    columns = head_of(query)
    is_time = [sort == "time" for _, sort in columns]
    keys = [tuple(str(v) for v, time in zip(answer, is_time) if not time) for answer in answers]
    order = {key: place for place, key in enumerate(sorted({*keys, *(tuple(lane) for lane in lanes)}))}
    ends: list[list[int]] = [[] for _ in order]
    marks = []
    for number, (answer, key) in enumerate(zip(answers, keys)):
        times = times_of(answer, is_time)
        lane = order[key]
        level = level_of(ends[lane], min(times), max(times)) if times else 0
        marks.append(Mark(number, answer, times, lane, level))
    return Picture(
        question=question,
        query=query,
        period=period,
        columns=columns,
        lanes=[label_of(list(key), columns) for key in order],
        levels=[max(1, len(taken)) for taken in ends],
        marks=marks,
        is_cut=is_cut,
    )
