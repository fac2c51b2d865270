"""Comma-separated values as a relation, and a window of answers as comma-separated values."""

import csv
import io
import os
import re
from collections.abc import Iterator
from typing import Any

from civil import PIECE, fault_of_match, plain_value

from ..civil import minute_of
from ..lrp import LIMIT, MOST_COLUMNS, Point, Relation, Row, Value, fault_of_text, is_name
from ..program import Question, all_ranges, pages
from ..queries import head_of
from ..words import FAILED_READ, Refused, refused_at
from .imported import Imported
from .tables import decoded, lines_of

BOUNDS = "where"
NUMBER = re.compile(r"-?\d+", re.ASCII)
POINT = re.compile(r"(-?\d+)\s*\+\s*(\d+)\s*n", re.ASCII)
BOUND = re.compile(r"(\w+)\s*(<=|>=|=)\s*(?:(-?\d+)|(\w+)(?:\s*([+-])\s*(\d+))?)", re.ASCII)
PAGE = 100_000


def read_columns(file: str, line: int, names: list[str]) -> list[tuple[str, str]]:
    """The columns of the first line, each written NAME: SORT."""
    columns: list[tuple[str, str]] = []
    for text in names:
        name, colon, sort = (part.strip() for part in text.partition(":"))
        if not colon or not is_name(name) or not (is_name(sort) or sort in ("time", "data")):
            raise refused_at(file, line, f"{text[:40]!r} is no column NAME: SORT, as 'dep: time'")
        if name in (known for known, _ in columns):
            raise refused_at(file, line, f"the column {name!r} stands twice")
        columns.append((name, sort))
    for kind in (True, False):
        if sum((sort == "time") == kind for _, sort in columns) > MOST_COLUMNS:
            raise refused_at(
                file,
                line,
                f"there are more than {MOST_COLUMNS} {'time' if kind else 'data'} columns",
            )
    return columns


def in_range(file: str, line: int, text: str) -> int:
    number = int(text) if len(text) < 30 else LIMIT + 1
    if abs(number) > LIMIT:
        raise refused_at(file, line, f"the number {text[:40]} is above {LIMIT} in magnitude")
    return number


def read_value(file: str, line: int, column: tuple[str, str], text: str) -> Value:
    """The value of a column: a text, an instant or a point, each time also as a date or as a civil value."""
    name, sort = column
    if sort != "time":
        fault = fault_of_text(text)
        if fault is not None:
            raise refused_at(file, line, f"the {name} {text[:40]!r} {fault}")
        return text
    plain = plain_of(file, line, name, text.strip())
    if NUMBER.fullmatch(plain):
        return in_range(file, line, plain)
    minute = minute_of(plain)
    if minute is not None:
        return minute
    point = POINT.fullmatch(plain)
    if point is None:
        raise refused_at(file, line, f"the {name} {text[:40]!r} is no number, no date and no point c+kn")
    offset, period = (in_range(file, line, part) for part in point.groups())
    if period == 0:
        raise refused_at(file, line, f"the {name} {text[:40]!r} has the period 0")
    return Point(offset, period)


def plain_of(file: str, line: int, name: str, text: str) -> str:
    """A civil value as its point; another text as it is."""
    civil = PIECE.fullmatch(text)
    if civil is None or not civil["civil"]:
        return text
    fault = fault_of_match(civil)
    if fault:
        raise refused_at(file, line, f"the {name} {text[:60]!r}: {fault}")
    return str(plain_value(civil))


def read_bounds(file: str, line: int, columns: list[tuple[str, str]], text: str) -> tuple[str, ...]:
    """The bounds of a row, with commas between them."""
    times = [name for name, sort in columns if sort == "time"]
    bounds = []
    for word in text.split(",") if text.strip() else []:
        parts = BOUND.fullmatch(word.strip())
        if parts is None:
            raise refused_at(file, line, f"{word.strip()[:40]!r} is no bound")
        left, sign, number, right, plus, by = parts.groups()
        for name in (left, right):
            if name is not None and name not in times:
                raise refused_at(file, line, f"there is no time column {name[:40]!r}")
        side = number if right is None else right
        for digits in (number, by):
            if digits is not None:
                in_range(file, line, digits)
        bounds.append(f"{left} {sign} {side}" + (f" {plus} {by}" if by else ""))
    return tuple(bounds)


def read_csv(path: str, name: str | None) -> Imported:
    """The relation of a file, named by the file where no name is given."""
    try:
        with open(path, "rb") as file:
            text = decoded(path, file.read())
    except OSError as fault:
        raise Refused(f"{path}: {fault.strerror}", FAILED_READ) from fault
    relation = name or os.path.splitext(os.path.basename(path))[0]
    if not is_name(relation):
        raise Refused(f"{relation[:40]!r} is no name of a relation; give one by name=..")
    lines = lines_of(path, text)
    nothing: tuple[int, list[str]] = (1, [])
    line, names = next(lines, nothing)
    has_bounds = bool(names) and names[-1].strip() == BOUNDS
    columns = read_columns(path, line, names[:-1] if has_bounds else names)
    rows = []
    for line, fields in lines:
        if len(fields) != len(names):
            raise refused_at(path, line, f"there are {len(fields)} fields, and {len(names)} columns")
        values = tuple(read_value(path, line, *each) for each in zip(columns, fields))
        rows.append(Row(values, read_bounds(path, line, columns, fields[-1]) if has_bounds else ()))
    return Imported([], [], [Relation(relation, columns, rows)])


def writer_of(piece: io.StringIO, kind: str) -> Any:
    """What writes lines of a kind; no text has a tab in it, so that between tabs no quotes are needed."""
    if kind == "tsv":
        return csv.writer(piece, delimiter="\t", quoting=csv.QUOTE_NONE, quotechar=None, lineterminator="\n")
    return csv.writer(piece, lineterminator="\n")


def pieces_of(question: Question, kind: str) -> Iterator[str]:
    """The answers of a window as lines of values, after a line of columns, page by page."""
    head: list[tuple[str, str]] | None = None
    for page in pages(question, PAGE):
        piece = io.StringIO(newline="")
        writer = writer_of(piece, kind)
        if head is None:
            with open(question.query, encoding="utf-8") as file:
                head = head_of(file.read())
            writer.writerow(f"{name}: {sort}" for name, sort in head)
        writer.writerows(page.answers)
        yield piece.getvalue()


def pieces_of_ranges(question: Question, kind: str) -> Iterator[str]:
    """The ranges of a window as lines of their first and last times, after a line of columns, some at a time."""
    front: list[list[str]] = [["from: time", "to: time"]]
    for some in all_ranges(question, PAGE):
        piece = io.StringIO(newline="")
        writer_of(piece, kind).writerows([*front, *some.ranges])
        front = []
        yield piece.getvalue()
