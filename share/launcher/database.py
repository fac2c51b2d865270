"""The relations and rows of a database by their places in its text."""

import re
from functools import lru_cache
from typing import NamedTuple

GAP = r"(?:\s|#[^\n]*)*"
TEXT = r'"(?:[^"\\\n]|\\.)*"'
HEAD = re.compile(rf"{GAP}relation\b{GAP}([A-Za-z_]\w*){GAP}\(([^)]*)\){GAP}\{{", re.ASCII)
ROW = re.compile(rf'{GAP}(\((?:{TEXT}|#[^\n]*|[^()"#])*\))((?:#[^\n]*|[^;#"{{}}()])*;)', re.ASCII)
END = re.compile(rf"{GAP}\}}")
COMMENT_OR_TEXT = re.compile(rf"({TEXT})|(?:#[^\n]*|\s)+")
COLUMN = re.compile(r"([A-Za-z_]\w*)\s*:\s*([A-Za-z_]\w*)", re.ASCII)
VALUE = re.compile(rf"{TEXT}|[^,]+")


class Row(NamedTuple):
    """A row: where it begins, where its values are closed, where it ends, its line from 0, and its text on one line."""

    begin: int
    closed: int
    end: int
    line: int
    text: str

    def values(self) -> list[str]:
        """The values as they are written."""
        return [value.strip() for value in VALUE.findall(self.text[1:end_of_values(self.text)])]

    def bounds(self) -> str:
        """What stands after the values."""
        return self.text[end_of_values(self.text) + 1:].rstrip("; ")


class Relation(NamedTuple):
    """A relation: its columns as they are written, and its rows in order."""

    name: str
    columns: str
    rows: list[Row]

    def named_columns(self) -> list[tuple[str, str]]:
        """The columns with their sorts."""
        return COLUMN.findall(re.sub(r"#[^\n]*", "", self.columns))


def tidy(text: str) -> str:
    """A row on one line, without comments."""
    return COMMENT_OR_TEXT.sub(lambda found: found.group(1) or " ", text).strip()


def end_of_values(row: str) -> int:
    """Where the parenthesis stands that closes a row's values."""
    return re.sub(TEXT, lambda found: "x" * len(found.group()), row).index(")")


def text_of_value(value: str) -> str | None:
    """The text that a value is, or none where it is a time."""
    return re.sub(r"\\(.)", r"\1", value[1:-1]) if value.startswith('"') else None


@lru_cache(maxsize=8)
def relations_of(text: str) -> tuple[Relation, ...]:
    """The relations of a database that the program has accepted, up to the first place that is none."""
    found = []
    place, line, counted = 0, 0, 0
    while head := HEAD.match(text, place):
        relation = Relation(head.group(1), head.group(2), [])
        place = head.end()
        while row := ROW.match(text, place):
            begin, place = row.start(1), row.end()
            line, counted = line + text.count("\n", counted, begin), begin
            relation.rows.append(Row(begin, row.end(1) - 1, place, line, tidy(text[begin:place])))
        found.append(relation)
        end = END.match(text, place)
        if end is None:
            break
        place = end.end()
    return tuple(found)
