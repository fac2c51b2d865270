"""Times as dates: minutes since 1970-01-01 00:00, in the years 1 to 9999."""

import re
from collections.abc import Mapping
from datetime import datetime, timedelta

from .lrp import LIMIT
from .words import choice, usage, whole

EPOCH = datetime(1970, 1, 1)
MINUTE = timedelta(minutes=1)
FIRST = (datetime.min - EPOCH) // MINUTE
LAST = (datetime.max - EPOCH) // MINUTE
DATE = re.compile(r"\d{4}-\d\d-\d\d[T ]\d\d:\d\d", re.ASCII)


def has_date(minute: int) -> bool:
    return FIRST <= minute <= LAST


def dated(minute: int) -> str:
    """A time as its date, or as the number that it is where it has none."""
    return (EPOCH + minute * MINUTE).isoformat(" ", "minutes") if has_date(minute) else str(minute)


def window_end(minute: int) -> str:
    """A time that has a date, as the program takes the ends of a window."""
    return dated(minute).replace(" ", "T")


def minute_of(text: str) -> int | None:
    """The time of a date, as a page or a window has it, or None where the text is none."""
    if DATE.fullmatch(text) is None:
        return None
    try:
        return (datetime.fromisoformat(text) - EPOCH) // MINUTE
    except ValueError:
        return None


def read_window(found: Mapping[str, str], first: int, last: int, is_civil: bool) -> tuple[int, int]:
    """The window that the keys `from` and `to` give; where one is missing, the end that is given here."""
    if not is_civil:
        return whole(found, "from", first, -LIMIT, LIMIT), whole(found, "to", last, -LIMIT, LIMIT)
    ends = []
    for key, default in (("from", first), ("to", last)):
        minute = minute_of(found[key]) if key in found else default
        if minute is None:
            raise usage(f"{key}={found[key]} is no date as 2024-02-26T08:15")
        ends.append(minute)
    return ends[0], ends[1]


def is_chosen(found: Mapping[str, str], key: str) -> bool:
    """Whether a key that is `yes` or `no` is `yes`."""
    return choice(found, key, "no", ["yes", "no"]) == "yes"
