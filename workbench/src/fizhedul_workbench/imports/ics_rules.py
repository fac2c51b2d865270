"""Recurrence rules (RFC 5545, section 3.3.10) as arithmetic progressions of minutes."""

import math
import re
from dataclasses import dataclass
from datetime import datetime, timedelta

from dateutil import rrule

from .ics_lines import Moment, Property, minute_of_text

EPOCH = datetime(1970, 1, 1)
LAST = (datetime(9999, 12, 31, 23, 59) - EPOCH) // timedelta(minutes=1)
# The Gregorian calendar repeats after 400 years, which are 146,097 days and a whole number of weeks.
YEARS = 400
CYCLE = 146_097 * 1440
MOST_STARTS = 100_000
UNITS = {"MINUTELY": 1, "HOURLY": 60, "DAILY": 1440, "WEEKLY": 10_080}
WEEKDAYS = ["MO", "TU", "WE", "TH", "FR", "SA", "SU"]
WEEKDAY = re.compile(r"([+-]?\d{1,2})?(MO|TU|WE|TH|FR|SA|SU)", re.ASCII)
# Of each part that lists numbers: dateutil's name, the greatest magnitude, whether it counts from the end too and
# begins at 1, and the frequencies with which it may stand.
BELOW_DAY = ["MINUTELY", "HOURLY"]
PARTS = {
    "BYSETPOS": ("bysetpos", 366, True, [*BELOW_DAY, "DAILY", "WEEKLY", "MONTHLY", "YEARLY"]),
    "BYMINUTE": ("byminute", 59, False, [*BELOW_DAY, "DAILY", "WEEKLY", "MONTHLY", "YEARLY"]),
    "BYHOUR": ("byhour", 23, False, [*BELOW_DAY, "DAILY", "WEEKLY", "MONTHLY", "YEARLY"]),
    "BYMONTHDAY": ("bymonthday", 31, True, [*BELOW_DAY, "DAILY", "MONTHLY", "YEARLY"]),
    "BYYEARDAY": ("byyearday", 366, True, [*BELOW_DAY, "YEARLY"]),
    "BYWEEKNO": ("byweekno", 53, True, ["YEARLY"]),
    "BYMONTH": ("bymonth", 12, True, [*BELOW_DAY, "DAILY", "WEEKLY", "MONTHLY", "YEARLY"]),
}


@dataclass(frozen=True)
class Progression:
    """The minutes `first`, `first + period` and so on, up to `last` where there is one; period 0 is one minute."""

    first: int
    period: int
    last: int | None

    def without(self, left_out: set[int]) -> list["Progression"]:
        """The progressions that are left where these minutes are taken out."""
        if self.period == 0:
            return [] if self.first in left_out else [self]
        inside = sorted(
            minute
            for minute in left_out
            if minute >= self.first
            and (minute - self.first) % self.period == 0
            and (self.last is None or minute <= self.last)
        )
        rest, begin = [], self.first
        for minute in inside:
            if begin < minute:
                rest.append(Progression(begin, self.period, minute - self.period))
            begin = minute + self.period
        if self.last is None or begin <= self.last:
            rest.append(Progression(begin, self.period, self.last))
        return rest

    def within(self, begin: int | None, end: int | None) -> "Progression | None":
        """What of it lies in a window, as one minute where that is all; none where nothing does."""
        first, last = self.first, self.last if self.period else self.first
        if begin is not None and first < begin:
            if self.period == 0:
                return None
            first += -(-(begin - first) // self.period) * self.period
        if end is not None and (last is None or end < last):
            last = end
        if last is None or first + self.period <= last and self.period:
            return Progression(first, self.period, last)
        return Progression(first, 0, None) if first <= last else None


@dataclass(frozen=True)
class Rule:
    """A rule's parts, checked: its frequency, interval, ends, and what dateutil is told of it."""

    frequency: str
    interval: int
    count: int | None
    until: Moment | None
    parts: dict[str, object]

    def period(self) -> int:
        """Minutes after which the rule's starts repeat, from its first start on."""
        if self.frequency in ("MONTHLY", "YEARLY"):
            units = YEARS * (12 if self.frequency == "MONTHLY" else 1)
            return CYCLE * (math.lcm(self.interval, units) // units)
        filters = [self.interval * UNITS[self.frequency]]
        if self.frequency == "MINUTELY" and "byminute" in self.parts:
            filters.append(60)
        if self.frequency in BELOW_DAY and "byhour" in self.parts:
            filters.append(1440)
        if self.frequency != "WEEKLY" and "byweekday" in self.parts:
            filters.append(10_080)
        if any(part in self.parts for part in ("bymonth", "bymonthday", "byyearday")):
            filters.append(CYCLE)
        return math.lcm(*filters)


def numbers(each: Property, part: str, text: str, most: int, is_signed: bool) -> list[int]:
    """The numbers of a part: from 0 on, or from 1 on and back from -1."""
    found = []
    for word in text.split(","):
        if not re.fullmatch(r"[+-]?\d{1,3}" if is_signed else r"\d{1,2}", word, re.ASCII):
            raise each.fault(f"{part}={text[:40]} is no list of numbers")
        number = int(word)
        if abs(number) > most or (is_signed and number == 0) or (part == "BYMONTH" and number < 0):
            raise each.fault(f"{part} has no {number}")
        found.append(number)
    return found


def weekdays(each: Property, text: str, frequency: str) -> list[object]:
    """The weekdays of BYDAY; a number before one counts them within a month or a year."""
    found: list[object] = []
    for word in text.split(","):
        parts = WEEKDAY.fullmatch(word)
        if parts is None:
            raise each.fault(f"BYDAY={text[:40]} is no list of weekdays")
        day = rrule.weekday(WEEKDAYS.index(parts.group(2)))
        if parts.group(1) is not None:
            number = int(parts.group(1))
            if number == 0 or abs(number) > 53 or frequency not in ("MONTHLY", "YEARLY"):
                raise each.fault(f"BYDAY has no {word} with {frequency}")
            day = day(number)
        found.append(day)
    return found


def words_of(each: Property) -> dict[str, str]:
    words: dict[str, str] = {}
    for word in each.value.upper().rstrip(";").split(";"):
        key, equals, value = word.partition("=")
        if not equals or not value or key in words:
            raise each.fault(f"{word[:40]!r} is no part of a rule, or stands twice")
        words[key] = value
    return words


def positive(each: Property, words: dict[str, str], key: str) -> int | None:
    text = words.pop(key, None)
    if text is None:
        return None
    if not (text.isascii() and text.isdigit() and len(text) < 10 and int(text) > 0):
        raise each.fault(f"{key}={text[:40]} is no number from 1 on")
    return int(text)


def until_of(each: Property, text: str | None) -> Moment | None:
    if text is None:
        return None
    try:
        minute, is_date = minute_of_text(text.removesuffix("Z"))
    except ValueError as fault:
        raise each.fault(f"UNTIL={text[:40]}: {fault}") from fault
    return Moment(minute, "UTC" if text.endswith("Z") else None, is_date)


def refuse_doubtful(each: Property, frequency: str, interval: int, parts: dict[str, object]) -> None:
    """Refuses what the standard forbids in combination, or where readers of calendars differ."""
    numbered = any(getattr(day, "n", None) for day in _listed(parts.get("byweekday")))
    if "byweekno" in parts and ("byweekday" not in parts or numbered):
        raise each.fault("BYWEEKNO asks for weekdays without numbers in BYDAY; readers differ on what else it means")
    if "byweekno" in parts and (interval > 1 or "bysetpos" in parts):
        raise each.fault("BYWEEKNO with INTERVAL or BYSETPOS: readers differ on the year of a week")
    if "bysetpos" in parts and len(parts.keys() - {"bysetpos", "wkst"}) == 0:
        raise each.fault("BYSETPOS asks for another part that begins with BY")
    if numbered and frequency == "YEARLY" and ("byyearday" in parts or "bymonthday" in parts):
        raise each.fault("BYDAY with numbers beside BYMONTHDAY or BYYEARDAY: readers differ on what it means")


def _listed(value: object) -> list[object]:
    return value if isinstance(value, list) else []


def read_rule(each: Property, is_date: bool) -> Rule:
    """The rule of a property RRULE, or its refusal."""
    words = words_of(each)
    frequency = words.pop("FREQ", "")
    if frequency == "SECONDLY":
        raise each.fault("FREQ=SECONDLY: times here are whole minutes")
    if frequency not in UNITS and frequency not in ("MONTHLY", "YEARLY"):
        raise each.fault(f"FREQ={frequency[:40]} is no frequency")
    if is_date and (frequency in BELOW_DAY or "BYHOUR" in words or "BYMINUTE" in words):
        raise each.fault("hours or minutes in the rule of a date")
    if words.pop("BYSECOND", "0") not in ("0", "00"):
        raise each.fault("BYSECOND: times here are whole minutes")
    interval = positive(each, words, "INTERVAL") or 1
    count = positive(each, words, "COUNT")
    until = until_of(each, words.pop("UNTIL", None))
    if count is not None and until is not None:
        raise each.fault("COUNT and UNTIL stand together")
    parts: dict[str, object] = {}
    for part, text in words.items():
        if part == "WKST" and text in WEEKDAYS:
            parts["wkst"] = rrule.weekday(WEEKDAYS.index(text))
        elif part == "BYDAY":
            parts["byweekday"] = weekdays(each, text, frequency)
        elif part in PARTS:
            name, most, is_signed, frequencies = PARTS[part]
            if frequency not in frequencies:
                raise each.fault(f"{part} has no meaning with FREQ={frequency}")
            parts[name] = numbers(each, part, text, most, is_signed)
        else:
            raise each.fault(f"{part[:40]}={text[:40]} is no part of a rule")
    refuse_doubtful(each, frequency, interval, parts)
    return Rule(frequency, interval, count, until, parts)


def starts_before(each: Property, rule: Rule, first: int, end: int, most: int | None) -> list[int]:
    """The starts from the first one up to a minute, or up to a count, as dateutil expands the rule."""
    begin = EPOCH + timedelta(minutes=first)
    try:
        expanded = rrule.rrule(getattr(rrule, rule.frequency), begin, rule.interval, **rule.parts)
    except ValueError as fault:
        raise each.fault(f"the rule has no start: {fault}") from fault
    starts: list[int] = []
    for moment in expanded:
        minute = (moment - EPOCH) // timedelta(minutes=1)
        if minute > end or (most is not None and len(starts) == most):
            break
        starts.append(minute)
        if len(starts) > MOST_STARTS:
            raise each.fault(f"the rule has more than {MOST_STARTS} starts before it repeats")
    if not starts or starts[0] != first:
        raise each.fault("DTSTART is no start of the rule, and the standard leaves open what that means")
    return starts


def progressions(each: Property, rule: Rule, first: int, until: int | None) -> list[Progression]:
    """All starts of the rule from its first one on; `until` is the last minute allowed, in the event's own zone."""
    period = rule.period()
    end = first + period - 1
    if until is not None and until < first:
        raise each.fault("UNTIL is before DTSTART")
    closing = end if until is None else min(end, until)
    if closing > LAST and rule.count is None:
        raise each.fault(f"the rule repeats after {period} minutes, which passes the year 9999")
    starts = starts_before(each, rule, first, min(closing, LAST), rule.count)
    if rule.count is not None and len(starts) == rule.count or (until is not None and until <= end):
        return [Progression(start, 0, None) for start in starts]
    if end > LAST:
        raise each.fault(f"the rule repeats after {period} minutes, which passes the year 9999")
    last = until
    if rule.count is not None:
        rounds, place = divmod(rule.count - 1, len(starts))
        last = starts[place] + period * rounds
    found = []
    for start in starts:
        final = None if last is None else start + (last - start) // period * period
        found.append(Progression(start, period, final))
    return found
