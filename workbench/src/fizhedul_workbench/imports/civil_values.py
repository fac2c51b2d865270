"""Values as civil ones, where that says exactly the same."""

from ..civil import dated, has_date
from ..days import EPOCH, MINUTES, WEEK
from ..lrp import Value, written_value

DAYS = ("mon", "tue", "wed", "thu", "fri", "sat", "sun")


def written_civil(value: Value) -> str:
    """A time of every day, of a day of the week or of a date as a civil value; every other value as it is."""
    if isinstance(value, int):
        return f"on {dated(value)}" if has_date(value) else str(value)
    if isinstance(value, str) or value.period not in (MINUTES, WEEK * MINUTES):
        return written_value(value)
    day, minute = divmod(value.offset % value.period, MINUTES)
    clock = f"{minute // 60:02}:{minute % 60:02}"
    # The ordinals of dates count from a Monday, which is day 1.
    return f"daily {clock}" if value.period == MINUTES else f"weekly {DAYS[(EPOCH + day - 1) % WEEK]} {clock}"
