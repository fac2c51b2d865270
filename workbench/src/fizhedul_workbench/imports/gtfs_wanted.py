"""What of a feed is asked for, and how its times are counted."""

import re
from dataclasses import dataclass, field

from ..words import refused_at
from .tables import Record

TIME = re.compile(r"(\d{1,3}):([0-5]\d):([0-5]\d)", re.ASCII)
DAY_SECONDS = 86_400


@dataclass
class Clock:
    """The seconds of a step of time, whether what is left of a step may be dropped, and how often it was."""

    seconds: int = 60
    rounds_down: bool = False
    rounded: int = 0

    @property
    def day(self) -> int:
        """The steps of a day."""
        return DAY_SECONDS // self.seconds

    @property
    def name(self) -> str:
        return "Minutes" if self.seconds == 60 else "Seconds"

    def step_of(self, record: Record, column: str) -> int:
        """The step of a time HH:MM:SS, from the start of the service day."""
        return self.step(record, seconds_of(record, column), f"the {column} {record.need(column)}")

    def step(self, record: Record, second: int, what: str) -> int:
        """The step of a second; one that isn't whole is refused, or rounded down where that is asked for."""
        step, rest = divmod(second, self.seconds)
        if rest and not self.rounds_down:
            choices = "unit=second counts seconds, and round=down takes the minute"
            raise refused_at(record.file, record.line, f"{what} is no whole minute; {choices}")
        self.rounded += rest > 0
        return step

    def shown(self, step: int) -> str:
        """A step as a time of the service day."""
        second = step * self.seconds
        clock = f"{second // 3600:02}:{second // 60 % 60:02}"
        return clock if self.seconds == 60 else f"{clock}:{second % 60:02}"


@dataclass(frozen=True)
class Wanted:
    """What of a feed is asked for; without names, all lines, all services, all relations."""

    lines: frozenset[str] = frozenset()
    services: frozenset[str] = frozenset()
    relations: frozenset[str] = frozenset()
    skipped: frozenset[str] = frozenset()
    local: bool = False
    headway_is_exact: bool = False
    clock: Clock = field(default_factory=Clock)


def seconds_of(record: Record, column: str) -> int:
    """The seconds of a time HH:MM:SS."""
    text = record.need(column)
    found = TIME.fullmatch(text)
    if found is None:
        raise refused_at(record.file, record.line, f"the {column} {text[:40]!r} is no time")
    hours, minutes, seconds = (int(part) for part in found.groups())
    return 3600 * hours + 60 * minutes + seconds
