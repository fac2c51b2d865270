"""Sets of days as few runs of days."""

from collections.abc import Iterable
from dataclasses import dataclass
from datetime import date

MINUTES = 1440
WEEK = 7
EPOCH = date(1970, 1, 1).toordinal()


def day_number(day: date) -> int:
    """Days since 1970-01-01."""
    return day.toordinal() - EPOCH


@dataclass(frozen=True)
class Run:
    """The days `first`, `first + step` and so on up to `last`."""

    first: int
    last: int
    step: int

    def days(self) -> range:
        return range(self.first, self.last + 1, self.step)


def longest_runs(days: set[int], step: int) -> list[Run]:
    """The runs of this step in a set of days that cannot be made longer."""
    runs = []
    for first in sorted(day for day in days if day - step not in days):
        last = first
        while last + step in days:
            last += step
        runs.append(Run(first, last, step))
    return runs


def covering_runs(days: Iterable[int]) -> list[Run]:
    """Runs of days or of weeks whose union is exactly the set; at each turn the run that adds most is taken."""
    left = set(days)
    runs = longest_runs(left, WEEK) + longest_runs(left, 1)
    adds = {run: len(run.days()) for run in runs}
    taken = []
    while left:
        best = max(adds, key=lambda run: (adds[run], run.step, -run.first))
        now = sum(1 for day in best.days() if day in left)
        if now < adds[best]:
            adds[best] = now
            continue
        taken.append(best)
        left.difference_update(best.days())
        del adds[best]
    return sorted(taken, key=lambda run: (run.first, run.step))
