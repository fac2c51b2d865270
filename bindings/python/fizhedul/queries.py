"""Queries over a database."""

import json
import re
from collections.abc import Iterator
from datetime import datetime, timedelta
from typing import TYPE_CHECKING, Literal

from .pictures import svg_of_window
from .steps import Step, steps_of
from .written import Row, rows_of

if TYPE_CHECKING:
    from pandas import DataFrame

    from .databases import Database

# A time is an integer, or with civil times a date and a time of day.
Time = int | datetime
Value = Time | str
# In the class below 'list' is a method.
Columns = list[tuple[str, str]]
Rows = list[Row]
Steps = list[Step]
Words = list[str]
Values = list[int | str]
PAGE = 1000
EPOCH = datetime(1970, 1, 1)
DAY = 1440
HEAD = re.compile(r"\{([^|]*)\|")
TEXT_OR_COMMENT = re.compile(r'"(?:[^"\\\n]|\\.)*"|#[^\n]*')
COLUMN = re.compile(r"(\w+)\s*:\s*(\w+)", re.ASCII)
MOST_MARKS = 500


class Query:
    """A query over a database, as `Database.query` makes it. What is kept of it, its database keeps.

    Times are integers. Over a civil database they are minutes since 1970 that stand as `datetime`s without a zone, in
    answers as in the ends of windows. Each call raises Refused where the database or the query has a fault, where a
    limit is passed, and where memory is refused.
    """

    def __init__(
        self,
        database: "Database",
        text: str,
        *,
        plan: Literal["guarded", "written"] = "guarded",
        tense: bool = False,
        wide: bool = False,
        cap: int | None = None,
    ) -> None:
        self.database = database
        self.text = text
        self.plan = plan
        self.tense = tense
        self.wide = wide
        self.cap = cap

    def __repr__(self) -> str:
        return f"<fizhedul.Query {self.text!r}>"

    @property
    def columns(self) -> Columns:
        """The name and the sort of each column of the head, in order; the sort is 'time' or one of data.

        >>> import fizhedul
        >>> fizhedul.Database("").query("{ t: time, l: data | bus(t, l) }").columns
        [('t', 'time'), ('l', 'data')]
        """
        head = HEAD.search(TEXT_OR_COMMENT.sub("", self.text))
        return [(found[1], found[2]) for found in COLUMN.finditer(head[1])] if head else []

    def decide(self) -> tuple[Value, ...] | None:
        """The least answer, or None where there is none. Answers are ordered by the magnitudes of their times first.

        >>> import fizhedul
        >>> db = fizhedul.Database("relation bus(t: time) { (5+60n); }")
        >>> db.query("{ t: time | (bus(t) and t >= 100) }").decide()
        (125,)
        >>> db.query("{ t: time | (bus(t) and not bus(t)) }").decide() is None
        True
        """
        told, _, line = self.asked("decide").partition("\n")
        return None if told == "Empty" else self.values_of(plain_values(line.strip()))

    def list(self, first: Time, last: Time, *, limit: int = PAGE) -> Iterator[tuple[Value, ...]]:
        """The answers whose times all lie in the window from `first` to `last`, both with it, in order, page by page.

        `limit` is how many answers a page has, from 1 to 1,000,000: a page is asked for when the one before is used up.

        >>> import fizhedul
        >>> db = fizhedul.Database("relation bus(t: time) { (5+60n); }")
        >>> list(db.query("{ t: time | bus(t) }").list(0, 200, limit=2))
        [(5,), (65,), (125,), (185,)]
        """
        after: str | None = None
        while True:
            keys = [*self.window(first, last), f"limit={limit}", "form=json"]
            lines = self.asked("list", *keys, *([] if after is None else [f"after={after}"])).splitlines()
            for line in lines[:-1]:
                yield self.values_of(json.loads(line))
            after = json.loads(lines[-1])["more"]
            if after is None:
                return

    def ask(self, *, canon: bool = False) -> Rows:
        """All answers, as rows of points with their bounds.

        With `canon` the rows depend on the answers alone; the head has exactly one time column then.

        >>> import fizhedul
        >>> db = fizhedul.Database("relation bus(t: time) { (5+120n); (65+120n); }")
        >>> [str(row) for row in db.query("{ t: time | bus(t) }").ask(canon=True)]
        ['(5+60n)']
        """
        return rows_of(self.asked("ask", *(["canon=yes"] if canon else [])))

    def count(self, first: Time, last: Time) -> int:
        """How many answers have all their times in the window from `first` to `last`, both with it.

        The head has at most one time column. The number comes from the rows, so a wide window takes no longer.

        >>> import fizhedul
        >>> db = fizhedul.Database("relation bus(t: time) { (5+60n); }")
        >>> db.query("{ t: time | bus(t) }").count(0, 525599)
        8760
        """
        return int(self.asked("count", *self.window(first, last)))

    def ranges(self, first: Time, last: Time, *, limit: int = PAGE) -> Iterator[tuple[Time, Time]]:
        """The answers of a window as ranges: pairs of times between which all are answers, each as long as can be.

        The head is one time column. `limit` is how many ranges are asked for at a time, from 1 to 1,000,000.

        >>> import fizhedul
        >>> db = fizhedul.Database("relation bus(t: time) { (5+60n); }")
        >>> list(db.query("{ t: time | not bus(t) }").ranges(0, 130, limit=3))
        [(0, 4), (6, 64), (66, 124), (126, 130)]
        """
        begin = minutes(first)
        while True:
            lines = self.asked("ranges", *self.window(begin, last), f"limit={limit}", "form=json").splitlines()
            for line in lines[:-1]:
                low, high = (dated(end) if self.database.civil else end for end in json.loads(line))
                yield low, high
                begin = minutes(high) + 1
            if not json.loads(lines[-1])["more"]:
                return

    def explain(self) -> Steps:
        """The steps of the plan, with their periods and reaches.

        >>> import fizhedul
        >>> db = fizhedul.Database("relation bus(t: time) { (5+60n); }")
        >>> [step.text for step in db.query("{ t: time | bus(t) }").explain()]
        ['scan bus(t)', 'head 1']
        """
        return steps_of(self.asked("explain"))

    def to_frame(self, first: Time, last: Time) -> "DataFrame":
        """The answers of a window as a pandas DataFrame, with a column for each of the head's: times as integers, or
        over a civil database as dates, and data as texts. Raises ImportError where pandas isn't installed."""
        from pandas import DataFrame

        return DataFrame(list(self.list(first, last)), columns=[name for name, _ in self.columns])

    def svg(self, first: Time, last: Time, *, most: int = MOST_MARKS) -> str:
        """The picture of a window, as the workbench draws it, with at most `most` marks.

        Raises ImportError where the workbench, `fizhedul_workbench`, can't be imported.
        """
        return svg_of_window(self, minutes(first), minutes(last), most)

    def _repr_html_(self) -> str:
        """The query as a notebook shows it: with the picture of its first day, where the workbench is there."""
        from html import escape

        least = self.decide()
        times = [minutes(value) for value in least or () if not isinstance(value, str)]
        text = f"<pre>{escape(self.text.strip())}</pre>"
        if not times:
            return text + f"<pre>{escape('no answer' if least is None else ', '.join(map(str, least)))}</pre>"
        first = times[0] // DAY * DAY
        try:
            return text + svg_of_window(self, first, first + DAY - 1, MOST_MARKS)
        except ImportError:
            return text + f"<pre>{escape(', '.join(map(str, least or ())))}, ..</pre>"

    def asked(self, command: str, *keys: str) -> str:
        """What the engine writes for this query: the text of a command with further keys. Raises Refused."""
        plan = ["plan=guarded"] if self.plan == "guarded" else []
        tense = ["tense=yes"] if self.tense else []
        wide = ["wide=yes"] if self.wide else []
        cap = [f"cap={self.cap}"] if self.cap is not None and command != "explain" else []
        return self.database.asked([command, *keys, *cap, *plan, *tense, *wide], self.text)

    def window(self, first: Time, last: Time) -> Words:
        """The keys of a window."""
        return [f"from={self.end_of(first)}", f"to={self.end_of(last)}"]

    def end_of(self, time: Time) -> str:
        """An end of a window as the engine is given it."""
        if isinstance(time, datetime):
            return time.isoformat("T", "minutes") if self.database.civil else str(minutes(time))
        return (EPOCH + timedelta(minutes=time)).isoformat("T", "minutes") if self.database.civil else str(time)

    def values_of(self, values: Values) -> tuple[Value, ...]:
        """An answer as it is handed out: over a civil database with dates in place of their texts."""
        if not self.database.civil:
            return tuple(values)
        sorts = [sort for _, sort in self.columns]
        return tuple(dated(value) if sort == "time" else value for value, sort in zip(values, sorts))


def minutes(time: Time) -> int:
    """A time as an integer: a date as the minutes since 1970.

    >>> minutes(datetime(1970, 1, 2)), minutes(7)
    (1440, 7)
    """
    return (time - EPOCH) // timedelta(minutes=1) if isinstance(time, datetime) else time


def dated(value: int | str) -> Time:
    """A time over a civil database as a date, where it is one of the years that `datetime` knows; else as an integer.

    >>> dated("2026-12-24 20:05"), dated(1440), dated(10**15)
    (datetime.datetime(2026, 12, 24, 20, 5), datetime.datetime(1970, 1, 2, 0, 0), 1000000000000000)
    """
    if isinstance(value, str):
        return datetime.fromisoformat(value)
    try:
        return EPOCH + timedelta(minutes=value)
    except OverflowError:
        return value


def plain_values(line: str) -> Values:
    """The values of an answer's plain line.

    >>> plain_values('5, "a, \\\\"b\\\\"", 2026-12-24 20:05')
    [5, 'a, "b"', '2026-12-24 20:05']
    """
    found = re.finditer(r'"((?:[^"\\]|\\.)*)"|([^",\s][^,]*)', line)
    return [
        int(each[2]) if each[2] and re.fullmatch(r"-?\d+", each[2]) else each[2] or re.sub(r"\\(.)", r"\1", each[1])
        for each in found
    ]
