"""The grid of a timeline: hours and days, as numbers or as dates."""

from datetime import datetime, timedelta

EPOCH = datetime(1970, 1, 1)
MICROSECONDS = 3_600_000_000
# Days of two weeks have a line each.
MOST_LINES = {False: 14, True: 8}
# The distances in months that are tried where weeks are too short.
MONTHS = [1, 3, 6, 12, 24, 60, 120, 300, 600, 1200, 6000]
DAYS_OF_MONTH = 28


def steps(hour: int, with_dates: bool) -> list[int]:
    """The distances between lines that are tried: parts of an hour, hours, days, weeks, and tens of weeks.

    Numbers, of which more find room, go from days to weeks.
    """
    parts = [hour // part for part in (60, 12, 4, 2) if hour % part == 0]
    hours = [hour * count for count in (1, 2, 4, 6, 12, 24, *([48, 96] if with_dates else []), 168)]
    found = sorted({1, *parts, *hours})
    while found[-1] < 2**64:
        found.append(found[-1] * (4 if len(found) % 2 else 5))
    return found


def step_for(span: int, hour: int, with_dates: bool, most: int = 14) -> int:
    """The least distance that gives few lines, at most `most`; dates need more room than numbers."""
    count = min(most, MOST_LINES[with_dates])
    return next(step for step in steps(hour, with_dates) if span <= step * count)


def lines(first: int, last: int, step: int) -> list[int]:
    """The multiples of a step in a window."""
    begin = -(-first // step) * step
    return list(range(begin, last + 1, step))


def month_lines(first: int, last: int, hour: int, most: int = 14) -> list[int]:
    """The beginnings of months or years in a window, few of them; none where dates do not reach."""
    day = 24 * hour
    try:
        start = EPOCH + timedelta(days=first // day)
        EPOCH + timedelta(days=last // day + 1)
    except OverflowError:
        return []
    wanted = (last - first) / (DAYS_OF_MONTH * day * min(most, MOST_LINES[True]))
    step = next((months for months in MONTHS if wanted <= months), MONTHS[-1])
    month = (12 * start.year + start.month - 1) // step * step
    found: list[int] = []
    while month // 12 <= 9999:
        if month >= 12:
            time = (datetime(month // 12, month % 12 + 1, 1) - EPOCH).days * day
            if time > last:
                break
            found += [time] if time >= first else []
        month += step
    return found


def grid_of(first: int, last: int, hour: int, with_dates: bool, most: int = 14) -> list[int]:
    """The times at which a window has lines, where there is room for `most` of them."""
    step = step_for(max(1, last - first), hour, with_dates, most)
    found = month_lines(first, last, hour, most) if with_dates and step > 168 * hour else []
    return found or lines(first, last, step)


def label(time: int, hour: int, with_dates: bool) -> str:
    """A time as a number, or as the date of so many hours after 1970-01-01 00:00."""
    if not with_dates:
        return str(time)
    try:
        moment = EPOCH + timedelta(microseconds=time * MICROSECONDS // hour)
    except OverflowError:
        return str(time)
    return moment.isoformat(" ", "minutes").removesuffix(" 00:00")
