"""How many cells the steps of a plan fill, found by asking under lower caps."""

import re
import time
from collections.abc import Generator
from dataclasses import dataclass, field, replace

from .program import Question, refused_by, run_program

OVER = re.compile(r"refused: more than \d+ cells at step (\d+)")
MOST = 1_000_000
SECONDS = 20.0


@dataclass(frozen=True)
class Tried:
    """What came of a cap: the first step that fills more cells, or None, and the seconds that it took."""

    step: int | None
    seconds: float


@dataclass
class Cells:
    """The cells of each step that fills more than all before it; the most that each such step is known to pass, and the
    seconds from the query's beginning to where it was given up; those of the whole query, where it was done; and the
    step at which the search was given up."""

    counts: dict[int, int] = field(default_factory=dict)
    passed: dict[int, int] = field(default_factory=dict)
    up_to: dict[int, float] = field(default_factory=dict)
    seconds: float | None = None
    over: int | None = None

    def told(self, step: int) -> str:
        """What is known of a step; nothing after the one at which the search was given up."""
        if step in self.counts:
            return f"{cells(self.counts[step])}, after {milliseconds(self.up_to[step])}"
        if self.over is not None and step >= self.over:
            return f"more than {cells(self.passed[step])}" if step == self.over else ""
        return "at most " + cells(max((count for each, count in self.counts.items() if each < step), default=1))

    def told_of_all(self) -> str:
        """What is known of the whole query."""
        if self.seconds is None or self.over is not None:
            return "measured as far as the time or the cap allowed"
        return f"the whole query took {milliseconds(self.seconds)}"


def cells(count: int) -> str:
    return f"{count} cell{'' if count == 1 else 's'}"


def milliseconds(seconds: float) -> str:
    return f"{max(1, round(1000 * seconds))} ms"


Search = Generator[int, Tried, Cells]


def search(most: int, seconds: float = SECONDS) -> Search:
    """Gives the caps to be tried, one after another, and takes what came of each; the cells in the end.

    The program names the first step over a cap, so the number of a step is the least cap that it stays under.
    """
    found = Cells()
    end = time.monotonic() + seconds
    cap = 1
    while (step := (yield from step_over(found, cap))) is not None:
        count = None if cap >= most else (yield from least_cap(found, step, cap + 1, most, end))
        if count is None:
            found.over = step
            return found
        found.counts[step] = cap = count
    return found


def step_over(found: Cells, cap: int) -> Generator[int, Tried, int | None]:
    """The first step that fills more cells than this, or None."""
    tried = yield cap
    if tried.step is None:
        found.seconds = tried.seconds
    else:
        found.passed[tried.step] = max(cap, found.passed.get(tried.step, 0))
        found.up_to[tried.step] = tried.seconds
    return tried.step


def least_cap(found: Cells, step: int, low: int, most: int, end: float) -> Generator[int, Tried, int | None]:
    """The least cap from `low` on under which this step is made, or None where there is none or no time is left."""
    high = low
    while (yield from step_over(found, high)) == step:
        if high >= most or time.monotonic() > end:
            return None
        low, high = high + 1, min(2 * high, most)
    while low < high:
        middle = (low + high) // 2
        if time.monotonic() > end:
            return None
        if (yield from step_over(found, middle)) == step:
            low = middle + 1
        else:
            high = middle
    return high


def step_named(refusal: str) -> int | None:
    """The step that a refusal's line names for its cells, or None where it says something else."""
    found = OVER.fullmatch(refusal)
    return int(found.group(1)) if found else None


def cells_of(question: Question) -> Cells:
    """The cells of the steps of a question's plan."""
    searching = search(question.cap or MOST)
    cap = next(searching)
    try:
        while True:
            cap = searching.send(tried(replace(question, cap=cap)))
    except StopIteration as ended:
        found: Cells = ended.value
        return found


def tried(question: Question) -> Tried:
    """What comes of a question under its cap."""
    begun = time.monotonic()
    output = run_program(question.words("decide"))
    seconds = time.monotonic() - begun
    if not output.status:
        return Tried(None, seconds)
    step = step_named(output.text.strip())
    if step is None:
        raise refused_by(output)
    return Tried(step, seconds)
