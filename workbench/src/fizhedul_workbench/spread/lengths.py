"""How long answers are: what the rows of a whole answer, as `ask` writes it, say about their times."""

import re
from collections.abc import Iterable

from .lines import Head
from .windows import Reach

TEXT = re.compile(r'"(?:[^"\\]|\\.)*"')
BOUND = re.compile(r"(\w+) (<=|>=) (?:(-?\d+)|(\w+)(?: ([+-]) (\d+))?)")
ZERO = ""

# The greatest value of the first name's time less the second one's; ZERO stands for the number 0.
Bounds = dict[tuple[str, str], int]


def bounds_of(row: str) -> Bounds:
    """The bounds of a row."""
    found: Bounds = {}
    for left, sign, number, right, plus, offset in BOUND.findall(TEXT.sub('""', row).partition(" where ")[2]):
        distance = int(number) if number else int(f"{plus}{offset or 0}")
        if sign == "<=":
            found[left, right] = distance
        else:
            found[right, left] = -distance
    return found


def greatest_distance(bounds: Bounds, later: str, earlier: str) -> int | None:
    """How far one time may lie after another, or None where the row does not bound it."""
    known = [bounds[later, earlier]] if (later, earlier) in bounds else []
    if (later, ZERO) in bounds and (ZERO, earlier) in bounds:
        known.append(bounds[later, ZERO] + bounds[ZERO, earlier])
    return min(known, default=None)


def reach_of(rows: Iterable[str], head: Head) -> Reach | None:
    """How far before and after its first time an answer of these rows may lie, or None where there is no bound."""
    first, *others = head.times
    before = after = 0
    for row in rows:
        if not row.startswith("  ("):
            continue
        bounds = bounds_of(row)
        for other in others:
            back, ahead = greatest_distance(bounds, first, other), greatest_distance(bounds, other, first)
            if back is None or ahead is None:
                return None
            before, after = max(before, back), max(after, ahead)
    return Reach(before, after)
