"""Civil times read by Python's calendar, and the group that tries them.

With `civil=yes` a database may say `daily HH:MM`, `weekly DAY HH:MM` and `on YYYY-MM-DD HH:MM`; times are minutes since
1970-01-01 00:00, windows are given and pages written by dates.
"""

import datetime
import re

from language import DATABASE_KINDS, Fault, Lexer

EPOCH = datetime.datetime(1970, 1, 1)
MINUTE = datetime.timedelta(minutes=1)
FIRST = (datetime.datetime.min - EPOCH) // MINUTE
LAST = (datetime.datetime.max - EPOCH) // MINUTE
DAYS = ("mon", "tue", "wed", "thu", "fri", "sat", "sun")
VALUE = re.compile(
    rb"(?:daily|weekly (?P<day>%s)|on (?P<date>[0-9]{4}-[0-9]{2}-[0-9]{2})) (?P<hour>[0-9]{2}):(?P<minute>[0-9]{2})"
    % "|".join(DAYS).encode()
)
WINDOW_END = re.compile(r"[0-9]{4}-[0-9]{2}-[0-9]{2}T[0-9]{2}:[0-9]{2}")


def moment(number):
    return EPOCH + number * MINUTE


def shown(number):
    """A time as a page has it."""
    return moment(number).isoformat(" ", "minutes")


def shown_or_number(number):
    """A time as `decide` has it by its date; outside the years 1 to 9999 it stands as its minutes."""
    return shown(number) if FIRST <= number <= LAST else str(number)


def as_end(number):
    """A time as the end of a window."""
    return moment(number).isoformat("T", "minutes")


def minute_of(text):
    """The time of an end of a window, or none where the text is no date."""
    if not WINDOW_END.fullmatch(text):
        return None
    try:
        return (datetime.datetime.fromisoformat(text) - EPOCH) // MINUTE
    except ValueError:
        return None


def plain_value(match):
    """The plain value of what is spelled like a civil one, or none where its numbers are no date or no time of day."""
    hour, minute = int(match["hour"]), int(match["minute"])
    try:
        time = datetime.time(hour, minute)
        date = datetime.date.fromisoformat(match["date"].decode()) if match["date"] else EPOCH.date()
    except ValueError:
        return None
    number = (datetime.datetime.combine(date, time) - EPOCH) // MINUTE
    if match["date"]:
        return b"%d" % number
    if match["day"] is None:
        return b"%d+1440n" % number
    days = next(it for it in range(7) if DAYS[moment(1440 * it).weekday()] == match["day"].decode())
    return b"%d+10080n" % (number + 1440 * days)


def token_bounds(data):
    """Where the names of a text begin, and where its tokens end, up to the first character that begins none."""
    lexer = Lexer(data, DATABASE_KINDS)
    names, ends = [], set()
    while lexer.token.kind not in ("end", "bad"):
        if lexer.token.kind == "name":
            names.append(lexer.start + lexer.token.place[1] - 1)
        ends.add(lexer.at)
        lexer.token = lexer.next()
    return names, ends


def plain_text(data):
    """The text with each civil value as its plain one, and blanks after it, so that every place stays."""
    try:
        names, ends = token_bounds(data)
    except Fault:
        return data
    found, done = [], 0
    for start in names:
        match = VALUE.match(data, start)
        plain = plain_value(match) if match and match.end() in ends else None
        if plain is not None:
            found += [data[done:start], plain.ljust(match.end() - start)]
            done = match.end()
    return b"".join(found) + data[done:]


def spelled(number, chance):
    """A time as an instant of a database: by its date, or now and then as the number."""
    return "on " + shown(number) if FIRST <= number <= LAST and chance.random() < 0.8 else str(number)
