"""Civil times, as far as refusals are explained by them: dates, and what is wrong with a civil value."""

import re
from datetime import date, datetime, timedelta

DAYS = ("mon", "tue", "wed", "thu", "fri", "sat", "sun")
LIMIT = 2**62
EPOCH = datetime(1970, 1, 1)
MINUTE = timedelta(minutes=1)
WINDOW_END = re.compile(r"([0-9]{4}-[0-9]{2}-[0-9]{2})T([0-9]{2}):([0-9]{2})")
# A text, a comment, a name with what stands after it like a civil value, or another token.
PIECE = re.compile(
    r'"(?:[^"\\\x00-\x1f\x7f]|\\["\\])*"|#[^\n]*|'
    r"(?P<civil>(?:daily|weekly (?P<day>[a-z]+)|on (?P<date>[0-9]{4}-[0-9]{2}-[0-9]{2})"
    r"|every (?P<number>[1-9][0-9]{0,18}) (?P<unit>minutes|hours|days|weeks) from (?P<start>[0-9]{4}-[0-9]{2}-[0-9]{2})) "
    r"(?P<hour>[0-9]{2}):(?P<minute>[0-9]{2})(?![0-9]))|[A-Za-z_][A-Za-z0-9_]*|[0-9]+|.", re.ASCII | re.DOTALL)
UNITS = {"minutes": 1, "hours": 60, "days": 1440, "weeks": 10080}
# What looks like the front of a civil value.
FRONT = re.compile(r"(?:daily|on|every)[ \t]+[0-9]|weekly[ \t]+(?:[A-Za-z]+[ \t]*)?[0-9]", re.ASCII)
FORMS = ("A civil value is 'daily HH:MM', 'weekly DAY HH:MM' or 'on YYYY-MM-DD HH:MM', with one blank where one is"
         " shown.")
WIDE_FORMS = FORMS.replace(" or 'on YYYY-MM-DD HH:MM'", ", 'on YYYY-MM-DD HH:MM' or 'every N UNIT from YYYY-MM-DD HH:MM'")


def is_window_end(text: str) -> bool:
    """Whether a text is a date and a time of day as the ends of a window are given."""
    found = WINDOW_END.fullmatch(text)
    return found is not None and fault_of_numbers(found[1], int(found[2]), int(found[3])) == ""


def fault_of_numbers(day: str | None, hour: int, minute: int) -> str:
    """What is wrong with a date, if there is one, and a time of day; empty where nothing is."""
    if hour > 23 or minute > 59:
        return "Hours are 00 to 23, and minutes 00 to 59."
    try:
        date.fromisoformat(day or "1970-01-01")
    except ValueError:
        return f"There is no day {day}."
    return ""


def fault_of_match(match: re.Match[str]) -> str:
    """What is wrong with something in the form of a civil value; empty where nothing is."""
    if match["day"] and match["day"] not in DAYS:
        return f"'{match['day']}' is no day of the week: they are {', '.join(DAYS)}."
    if match["number"] and int(match["number"]) * UNITS[match["unit"]] > LIMIT:
        return f"A period is at most {LIMIT} minutes."
    return fault_of_numbers(match["date"] or match["start"], int(match["hour"]), int(match["minute"]))


def plain_value(match: re.Match[str]) -> str:
    """The plain value of a civil one: a point, or the number of a minute since 1970-01-01 00:00."""
    minute = 60 * int(match["hour"]) + int(match["minute"])
    if match["date"]:
        return str((datetime.fromisoformat(match["date"]) - EPOCH) // MINUTE + minute)
    if match["number"]:
        period = int(match["number"]) * UNITS[match["unit"]]
        return f"{((datetime.fromisoformat(match['start']) - EPOCH) // MINUTE + minute) % period}+{period}n"
    if match["day"]:
        return f"{1440 * ((DAYS.index(match['day']) - EPOCH.weekday()) % 7) + minute}+10080n"
    return f"{minute}+1440n"


def plain_text(text: str, has_paces: bool = False) -> str:
    """A text with each civil value as its plain one, and blanks after it, so that every place stays; 'every ..' is such a
    value in databases that are read with wide=yes."""

    def plain(match: re.Match[str]) -> str:
        whole = match.group()
        is_value = match["civil"] and (has_paces or not match["number"]) and not fault_of_match(match)
        return plain_value(match).ljust(len(whole)) if is_value else whole

    return PIECE.sub(plain, text)


def fault_of_civil(text: str, place: int, is_civil: bool, is_wide: bool = False, takes_wide: bool = True) -> str:
    """What is wrong with the civil value of a database at or around a place; empty where none stands there. Whether the
    language is wide, and may be, says which values there are."""
    found = value_around(text, place)
    if found is None:
        return ""
    is_pace = found.group().startswith("every")
    if not is_civil or is_pace and not is_wide:
        keys = "wide=yes and civil=yes" if is_pace and not is_civil else "wide=yes" if is_pace else "civil=yes"
        where = "where a query is asked with" if is_pace and not takes_wide else "with"
        return f"Civil values, as '{'every 3 days from 2026-01-05 08:15' if is_pace else 'daily 08:15'}', are read {where} {keys}."
    if not found["civil"]:
        return WIDE_FORMS if is_wide else FORMS
    return fault_of_match(found) or f"'{found.group()}' is read as {plain_value(found)}, which can't stand here."


def fault_of_date(text: str, place: int, is_civil: bool) -> str:
    """The same for a value in a query that is read with wide=yes."""
    found = value_around(text, place)
    if found is None:
        return ""
    if not is_civil:
        return "Dates, as 'on 2026-12-24 08:15', and 'daily' and 'weekly' values are read with civil=yes."
    if not found["civil"]:
        return FORMS
    fault = fault_of_match(found)
    if found["number"] and not fault:
        return f"Values with 'every' stand in databases alone; here '{plain_value(found)}' says the same."
    return fault or f"'{found.group()}' is read as {plain_value(found)}, which can't stand here."


def value_around(text: str, place: int) -> re.Match[str] | None:
    """What is a civil value, or looks like the front of one, at or around a place, perhaps with no more than its first
    word; none where no such thing stands there."""
    for match in PIECE.finditer(text):
        if match.start() > place:
            break
        front = FRONT.match(text, match.start()) if re.match("daily|weekly|on|every", match.group()) else None
        if match.end() > place and (match["civil"] or front):
            return match
    return None
