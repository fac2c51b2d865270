"""The rows of relations, as the engine writes them and as Python holds them."""

import re
from collections.abc import Iterator
from dataclasses import dataclass

TOKEN = re.compile(r'"(?:[^"\\]|\\.)*"|-?\d+|[A-Za-z_]\w*|<=|>=|[=+(),;{}:-]|n', re.ASCII)


@dataclass(frozen=True)
class Point:
    """The integers `offset + period * n` for all integers n; with the period None, the offset alone."""

    offset: int
    period: int | None = None

    def __contains__(self, time: object) -> bool:
        """Whether an integer is one of them."""
        if not isinstance(time, int):
            return False
        return time == self.offset if self.period is None else (time - self.offset) % self.period == 0

    def __str__(self) -> str:
        return str(self.offset) if self.period is None else f"{self.offset}+{self.period}n"


@dataclass(frozen=True)
class Row:
    """A row of infinitely many tuples: a point for each time, a text for each data column, in the columns' order, and
    the bounds that the times keep, as they are written.

    >>> import fizhedul
    >>> db = fizhedul.Database("relation trip(d: time, a: time) { (5+60n, 30+60n) where a = d + 25; }")
    >>> row = db.query("{ d: time, a: time | trip(d, a) }").ask()[0]
    >>> row.values, row.bounds
    ((Point(offset=5, period=60), Point(offset=30, period=60)), ('d <= a - 25', 'a <= d + 25'))
    """

    values: tuple[Point | str, ...]
    bounds: tuple[str, ...] = ()

    def __str__(self) -> str:
        values = ", ".join(str(value) if isinstance(value, Point) else quoted(value) for value in self.values)
        return f"({values})" + (f" where {', '.join(self.bounds)}" if self.bounds else "")


def quoted(text: str) -> str:
    """A text as it stands in a database.

    >>> print(quoted('a "b"'))
    "a \\"b\\""
    """
    return '"' + text.replace("\\", "\\\\").replace('"', '\\"') + '"'


def unquoted(token: str) -> str:
    """The text of a token in quotes."""
    return re.sub(r"\\(.)", r"\1", token[1:-1])


def rows_of(text: str) -> list[Row]:
    """The rows of a relation that the engine wrote; none for the line `Empty`."""
    return [row_of(line.strip().removesuffix(";")) for line in text.splitlines() if line.startswith("  ")]


def row_of(line: str) -> Row:
    """The row of a line `(VALUE, ..) where BOUND, ..`."""
    inside, rest = split_values(line)
    bounds = tuple(rest.removeprefix(" where ").split(", ")) if rest else ()
    return Row(tuple(values_of(inside)), bounds)


def split_values(line: str) -> tuple[str, str]:
    """What stands between the parentheses at a line's front, and what comes after them."""
    end = 1
    for found in TOKEN.finditer(line):
        if found.group() == ")":
            end = found.start()
            break
    return line[1:end], line[end + 1 :]


def values_of(inside: str) -> Iterator[Point | str]:
    """The values of a row."""
    for found in re.finditer(r'("(?:[^"\\]|\\.)*")|(-?\d+)(?:\+(\d+)n)?', inside):
        if found[1] is not None:
            yield unquoted(found[1])
        else:
            yield Point(int(found[2]), int(found[3]) if found[3] else None)
