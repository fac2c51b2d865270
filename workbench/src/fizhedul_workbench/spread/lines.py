"""The lines of answers, as `list` and `decide` write them, and their orders."""

import json
import re
from dataclasses import dataclass

from ..civil import minute_of
from ..queries import pieces

PLAIN_VALUE = re.compile(r'"((?:[^"\\]|\\.)*)"|[^",()]+')
ESCAPE = re.compile(r"\\(.)")

# Times by the order of an answer's columns, and its texts as bytes.
Order = tuple[tuple[int, ...], tuple[bytes, ...]]


@dataclass(frozen=True)
class Head:
    """The columns of an answer, names with their sorts."""

    columns: tuple[tuple[str, str], ...]

    @property
    def times(self) -> list[str]:
        return [name for name, sort in self.columns if sort == "time"]


def head_of(text: str) -> Head:
    """The head of a query; where the text is none, some head, since the program then refuses it."""
    found = pieces(text)
    if "{" not in found or "|" not in found:
        return Head(())
    inside = found[found.index("{") + 1 : found.index("|")]
    return Head(tuple((inside[place], inside[place + 2]) for place in range(0, len(inside) - 2, 4)))


@dataclass(frozen=True)
class Form:
    """How lines are written: for a head, plain or in JSON, with times as numbers or as dates."""

    head: Head
    is_json: bool = False
    is_civil: bool = False

    @property
    def end(self) -> str:
        """The last line of a page after which no answer of the window is left."""
        return '{"more":null}\n' if self.is_json else "end\n"

    def values(self, line: str) -> list[str]:
        """The values of a line, in the order of the head."""
        if self.is_json:
            return [str(value) for value in json.loads(line)]
        found = PLAIN_VALUE.finditer(line.strip())
        return [
            value[0].strip() if value[1] is None else ESCAPE.sub(r"\1", value[1]) for value in found if value[0] != " "
        ]

    def time(self, value: str) -> int:
        minute = minute_of(value) if self.is_civil else None
        return int(value) if minute is None else minute

    def order(self, line: str) -> Order:
        """By this key the lines of a page ascend."""
        pairs = list(zip(self.head.columns, self.values(line), strict=True))
        times = tuple(self.time(value) for (_, sort), value in pairs if sort == "time")
        return times, tuple(value.encode() for (_, sort), value in pairs if sort != "time")

    def first_time(self, line: str) -> int:
        return self.order(line)[0][0]


def rank(time: int) -> tuple[int, bool]:
    """By this key times come in the order 0, 1, -1, 2, -2 and so on."""
    return abs(time), time < 0


def least_first(order: Order) -> tuple[tuple[tuple[int, bool], ...], tuple[bytes, ...]]:
    """By this key the least answer comes first."""
    times, texts = order
    return tuple(rank(time) for time in times), texts
