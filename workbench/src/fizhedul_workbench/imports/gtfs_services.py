"""The days of each service of a feed."""

from datetime import date

from ..days import WEEK, day_number
from ..words import refused_at
from .gtfs_feed import Feed
from .tables import Record

DAYS = ["monday", "tuesday", "wednesday", "thursday", "friday", "saturday", "sunday"]


def day_of(record: Record, column: str) -> int:
    """The day of a date YYYYMMDD, counted from 1970-01-01."""
    text = record.need(column)
    try:
        if len(text) != 8 or not (text.isascii() and text.isdigit()):
            raise ValueError
        return day_number(date(int(text[:4]), int(text[4:6]), int(text[6:])))
    except ValueError as fault:
        raise refused_at(record.file, record.line, f"the {column} {text[:40]!r} is no date") from fault


def weekly_days(record: Record) -> set[int]:
    """The days of one line of calendar.txt."""
    first, last = day_of(record, "start_date"), day_of(record, "end_date")
    if first > last:
        raise refused_at(record.file, record.line, "the end_date is before the start_date")
    days: set[int] = set()
    for place, column in enumerate(DAYS):
        if record.one_of(column, ["0", "1"]) == "1":
            # 1970-01-01, day 0, was a Thursday, whose place is 3.
            begin = first + (place - 3 - first) % WEEK
            days.update(range(begin, last + 1, WEEK))
    return days


def service_days(feed: Feed) -> dict[str, set[int]]:
    """The days of each service: those of its week between its dates, without the removed and with the added ones."""
    services: dict[str, set[int]] = {}
    for record in feed.table("calendar.txt").records:
        service = record.text("service_id")
        if service in services:
            raise refused_at(record.file, record.line, f"the service {service!r} stands twice")
        services[service] = weekly_days(record)
    seen: set[tuple[str, int]] = set()
    for record in feed.table("calendar_dates.txt").records:
        service, day = record.text("service_id"), day_of(record, "date")
        if (service, day) in seen:
            raise refused_at(record.file, record.line, f"the service {service!r} has this date twice")
        seen.add((service, day))
        days = services.setdefault(service, set())
        if record.one_of("exception_type", ["1", "2"]) == "1":
            days.add(day)
        else:
            days.discard(day)
    return services
