"""The steps of a plan."""

import re
from dataclasses import dataclass

LINE = re.compile(r"(\d+) (.*) \[period (\d+), reach (\d+)\]")


@dataclass(frozen=True)
class Step:
    """A step of a plan: its number from 1, what it does, the period that its rows have, and its reach, which is how far
    from zero their bounds may be.

    >>> import fizhedul
    >>> db = fizhedul.Database("relation bus(t: time) { (5+60n); }")
    >>> step = db.query("{ t: time | bus(t) }").explain()[0]
    >>> step.number, step.text, step.period
    (1, 'scan bus(t)', 60)
    """

    number: int
    text: str
    period: int
    reach: int


def steps_of(text: str) -> list[Step]:
    """The steps of a plan that the engine wrote."""
    found = (LINE.fullmatch(line) for line in text.splitlines())
    return [Step(int(line[1]), line[2], int(line[3]), int(line[4])) for line in found if line]
