"""What the commands of the shell set: the window, limits, and how queries and databases are read."""

from datetime import date

from ..civil import has_date, minute_of
from ..days import MINUTES, WEEK, day_number
from ..lrp import LIMIT
from ..warned import warn_of_window
from .session import FIRST_WEEK, Session, read_names, say, show_page


def this_week() -> tuple[int, int]:
    """The first and the last minute of the week, from Monday on, that has this day."""
    today = date.today()
    monday = MINUTES * (day_number(today) - today.weekday())
    return monday, monday + WEEK * MINUTES - 1


def set_window(session: Session, rest: str) -> None:
    try:
        first, last = (end_of(session, word) for word in rest.split())
    except ValueError:
        dates = "two dates, as in .window 2024-02-26T00:00 2024-02-26T23:59"
        say("a window is " + (dates if session.is_civil else "two whole numbers, as in .window 0 1439"))
        return
    session.first, session.last, session.more = first, last, None
    if first > last:
        warn_of_window(*rest.split())
    if session.query:
        show_page(session)


def end_of(session: Session, word: str) -> int:
    """An end of a window: a number, or with civil times a date."""
    end = minute_of(word) if session.is_civil else int(word)
    if end is None or abs(end) > LIMIT:
        raise ValueError
    return end


def set_civil(session: Session, rest: str) -> None:
    """Civil times, or numbers: how the database is read, and how times are shown."""
    if rest not in ("on", "off"):
        say(f"civil times are {'on' if session.is_civil else 'off'}; .civil on and .civil off change that")
    elif rest == "on" and (session.first, session.last) == FIRST_WEEK:
        session.first, session.last = this_week()
        set_civil(session, rest)
    elif rest == "on" and not (has_date(session.first) and has_date(session.last)):
        say("the window is not within the years 1 to 9999; .window A B gives another one")
    else:
        session.is_civil, session.more = rest == "on", None
        if read_names(session) and session.query:
            show_page(session)


def set_tense(session: Session, rest: str) -> None:
    """Whether queries may have temporal operators."""
    if rest in ("on", "off"):
        session.is_tense, session.more = rest == "on", None
    else:
        now = "on" if session.is_tense else "off"
        say(f"temporal operators are {now}; .tense on and .tense off change that")


def set_canon(session: Session, rest: str) -> None:
    """Whether whole answers are written in their one form."""
    if rest in ("on", "off"):
        session.is_canon = rest == "on"
    else:
        now = "on" if session.is_canon else "off"
        say(f"canonical answers are {now}; .canon on and .canon off change that")


def set_plan(session: Session, rest: str) -> None:
    """Whether queries are planned under guards, or as they are written."""
    if rest in ("guarded", "written"):
        session.is_guarded, session.more = rest == "guarded", None
    else:
        now = "under guards" if session.is_guarded else "as they are written"
        say(f"queries are planned {now}; .plan guarded and .plan written change that")


def set_cap(session: Session, rest: str) -> None:
    if rest.isascii() and rest.isdigit() and 1 <= int(rest) <= 1_000_000_000:
        session.cap = int(rest)
    else:
        say("a cap is a number from 1 to 1000000000")


def set_limit(session: Session, rest: str) -> None:
    if rest.isascii() and rest.isdigit() and 1 <= int(rest) <= 1_000_000:
        session.limit = int(rest)
    else:
        say("a limit is a number from 1 to 1000000")
