"""Tables of comma-separated values with a line of column names, and the line of each record."""

import csv
import io
from collections.abc import Iterable, Iterator
from dataclasses import dataclass, field

from ..lrp import fault_of_text
from ..words import refused_at

MOST_FIELD = 1_000_000
BYTE_ORDER_MARK = "\N{ZERO WIDTH NO-BREAK SPACE}"


@dataclass
class Record:
    """One record: its file, its line, and its values by column."""

    file: str
    line: int
    values: dict[str, str]

    def get(self, column: str) -> str:
        """The value of a column, or the empty text where the file has no such column."""
        return self.values.get(column, "")

    def need(self, column: str) -> str:
        """The value of a column that may not be empty."""
        value = self.get(column)
        if not value:
            raise refused_at(self.file, self.line, f"there is no {column}")
        return value

    def text(self, column: str) -> str:
        """The value of a column as a data text."""
        value = self.need(column)
        fault = fault_of_text(value)
        if fault is not None:
            raise refused_at(self.file, self.line, f"the {column} {value[:40]!r} {fault}")
        return value

    def number(self, column: str) -> int:
        """The value of a column as a whole number from 0 on."""
        value = self.need(column)
        if not (value.isascii() and value.isdigit() and len(value) < 19):
            raise refused_at(self.file, self.line, f"the {column} {value[:40]!r} is no whole number")
        return int(value)

    def one_of(self, column: str, choices: Iterable[str]) -> str:
        """The value of a column, one of a few."""
        allowed = list(choices)
        value = self.get(column)
        if value not in allowed:
            raise refused_at(self.file, self.line, f"the {column} {value[:40]!r} is none of {allowed}")
        return value


@dataclass
class Table:
    """A file of records."""

    file: str
    columns: list[str]
    records: list[Record]
    filled: set[str] = field(default_factory=set)


def decoded(file: str, content: bytes) -> str:
    """The text of a file in UTF-8; a byte order mark before it is passed over."""
    try:
        return content.decode().removeprefix(BYTE_ORDER_MARK)
    except UnicodeDecodeError as fault:
        line = content.count(b"\n", 0, fault.start) + 1
        raise refused_at(file, line, "the bytes are no UTF-8") from fault


def lines_of(file: str, text: str) -> Iterator[tuple[int, list[str]]]:
    """The fields of each line that isn't empty, with the line at which they begin."""
    csv.field_size_limit(MOST_FIELD)
    reader = csv.reader(io.StringIO(text, newline=""), strict=True)
    begin = 1
    while True:
        try:
            fields = next(reader, None)
        except csv.Error as fault:
            raise refused_at(file, begin, f"the fields cannot be told apart: {fault}") from fault
        if fields is None:
            return
        if fields:
            yield begin, fields
        begin = reader.line_num + 1


def read_table(file: str, content: bytes, required: Iterable[str]) -> Table:
    """The table of a file whose first line names its columns."""
    lines = lines_of(file, decoded(file, content))
    line, names = next(lines, (1, []))
    columns = [name.strip() for name in names]
    for place, name in enumerate(columns):
        if name in columns[:place]:
            raise refused_at(file, line, f"the column {name!r} stands twice")
    for name in required:
        if name not in columns:
            raise refused_at(file, line, f"there is no column {name!r}")
    table = Table(file, columns, [])
    for line, fields in lines:
        if len(fields) != len(columns):
            raise refused_at(file, line, f"there are {len(fields)} fields, and {len(columns)} columns")
        values = {name: value.strip() for name, value in zip(columns, fields)}
        table.filled.update(name for name, value in values.items() if value)
        table.records.append(Record(file, line, values))
    return table
