"""Windows of time: how one is cut, and how much more of it a part has to see."""

from dataclasses import dataclass


@dataclass(frozen=True)
class Window:
    """The times from `first` to `last`, both included."""

    first: int
    last: int

    def holds(self, time: int) -> bool:
        return self.first <= time <= self.last


@dataclass(frozen=True)
class Reach:
    """How far before and after its first time the other times of an answer may lie."""

    before: int
    after: int

    def covers(self, other: "Reach") -> bool:
        return other.before <= self.before and other.after <= self.after


def cut(whole: Window, parts: int) -> list[Window]:
    """Windows that touch and are together the whole one, nearly of one size; no more of them than it has times."""
    size = whole.last - whole.first + 1
    count = min(parts, size)
    if count < 2:
        return [whole]
    edges = [whole.first + size * number // count for number in range(count + 1)]
    return [Window(first, following - 1) for first, following in zip(edges, edges[1:])]


def seen(part: Window, reach: Reach, whole: Window) -> Window:
    """The window in which each answer lies whole that lies in the whole one and has its first time in the part."""
    return Window(max(whole.first, part.first - reach.before), min(whole.last, part.last + reach.after))
