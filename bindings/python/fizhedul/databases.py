"""Databases."""

import builtins
import os
from collections.abc import Iterable, Sequence
from typing import TYPE_CHECKING, Literal

from . import engine
from .queries import Query
from .refusals import answered
from .written import Point, Row, quoted

if TYPE_CHECKING:
    from pandas import DataFrame

NAME = "database"


class Database:
    """Relations, as the text of a database says them.

    `text` is the text, or its bytes. With `civil`, times in it may be dates, and all windows and answers have dates.
    Nothing is read before the first question; a fault of the text is then Refused, as `check` tells at once. What was
    read is kept for the next question, and the answers of a query that is listed page by page for the next page.

    >>> Database("relation bus(t: time) { (5+60n); }").check()
    'relation bus(t: time) {\\n  (5+60n);\\n}\\n'
    """

    def __init__(self, text: str | bytes, *, civil: bool = False) -> None:
        self.text = text.encode() if isinstance(text, str) else bytes(text)
        self.civil = civil
        self.kept: engine.Kept | None = None

    @classmethod
    def from_rows(
        cls,
        name: str,
        columns: Sequence[tuple[str, str]],
        rows: Iterable[Row | Sequence[Point | int | str]],
    ) -> "Database":
        """A database of one relation of this name.

        `columns` has pairs of a name and a sort, which is 'time' or one of data. A row is a Row, or a value for each
        column: a Point or an integer for a time, a text for data. Raises Refused where they are no relation.

        >>> db = Database.from_rows("bus", [("t", "time"), ("line", "data")], [(Point(5, 60), "A"), (7, "B")])
        >>> list(db.query("{ t: time, l: data | bus(t, l) }").list(0, 70))
        [(5, 'A'), (7, 'B'), (65, 'A')]
        """
        head = ", ".join(f"{column}: {sort}" for column, sort in columns)
        lines = "".join(f"  {written(row)};\n" for row in rows)
        made = cls(f"relation {name}({head}) {{\n{lines}}}\n")
        made.check()
        return made

    @classmethod
    def from_frame(cls, name: str, frame: "DataFrame", times: Sequence[str]) -> "Database":
        """A database of one relation of this name, with a row for each of the frame's.

        `times` names the columns of times, which are integers; all others are data, as texts.
        """
        columns = [(str(column), "time" if column in times else "data") for column in frame.columns]
        rows = [values_of(row, columns) for row in frame.itertuples(index=False)]
        return cls.from_rows(name, columns, rows)

    def check(self) -> str:
        """The relations as the engine writes them. Raises Refused at the first fault."""
        return self.asked(["check"])

    def query(
        self,
        text: str,
        *,
        plan: Literal["guarded", "written"] = "guarded",
        tense: bool = False,
        wide: bool = False,
        cap: int | None = None,
    ) -> Query:
        """A query over these relations, by its text.

        `plan` says whether what stands after `not` is made under guards, or as it is written; `tense` that temporal
        operators may stand in the text; `wide` that it is in the wide language, with definitions before the query;
        `cap` how many cells a step may have before the question is refused.

        >>> Database("relation bus(t: time) { (5+60n); }").query("{ t: time | bus(t) }").decide()
        (5,)
        >>> text = "define late(t: time) as bus(t) and t != 5; { t: time | late(t) and t > 0 }"
        >>> Database("relation bus(t: time) { (5+60n); }").query(text, wide=True).decide()
        (65,)
        """
        return Query(self, text, plan=plan, tense=tense, wide=wide, cap=cap)

    def asked(self, words: Sequence[str], query: str | None = None) -> str:
        """What the engine writes for a command and its keys but those of files and of dates. Raises Refused."""
        files = {} if query is None else {"query": query.encode()}
        named = [f"db={NAME}", *(f"{name}={name}" for name in files)]
        civil = ["civil=yes"] if self.civil else []
        if self.kept is None:
            self.kept = engine.Kept({NAME: self.text})
        return answered(self.kept.run([words[0], *named, *words[1:], *civil], files), {NAME: self.text, **files})


def open(path: str | os.PathLike[str], *, civil: bool = False) -> Database:
    """The database of a file. Raises OSError where the file can't be read.

    >>> import tempfile, pathlib
    >>> folder = tempfile.TemporaryDirectory()
    >>> path = pathlib.Path(folder.name, "bus.lrp")
    >>> _ = path.write_text("relation bus(t: time) { (5+60n); }")
    >>> open(path).query("{ t: time | bus(t) }").decide()
    (5,)
    >>> folder.cleanup()
    """
    with builtins.open(path, "rb") as file:
        return Database(file.read(), civil=civil)


def values_of(row: Iterable[object], columns: Sequence[tuple[str, str]]) -> list[Point | int | str]:
    """A row of a frame as one of a relation: integers for times, texts for data."""
    return [int(str(value)) if sort == "time" else str(value) for value, (_, sort) in zip(row, columns)]


def written(row: Row | Sequence[Point | int | str]) -> str:
    """A row as it stands in a database."""
    if isinstance(row, Row):
        return str(row)
    return "(" + ", ".join(quoted(value) if isinstance(value, str) else str(value) for value in row) + ")"
