"""Databases as they are written: points, rows, relations, and files that are written whole or not at all."""

import os
import re
import tempfile
from collections.abc import Callable, Iterable, Sequence
from dataclasses import dataclass
from unicodedata import combining, east_asian_width

from .words import FAILED_WRITE, Refused

LIMIT = 2**62
MOST_BYTES = 16_777_216
MOST_TEXT_BYTES = 255
MOST_COLUMNS = 8
RESERVED = frozenset(
    [
        "relation",
        "where",
        "time",
        "data",
        "n",
        "exists",
        "forall",
        "not",
        "and",
        "or",
        "implies",
        "in",
    ]
)
NAME = re.compile(r"[A-Za-z_][A-Za-z0-9_]*")


@dataclass(frozen=True)
class Point:
    """All `offset + period * n` for integers n."""

    offset: int
    period: int


Value = int | Point | str


@dataclass(frozen=True)
class Row:
    """A generalised tuple: its values, and its bounds as they are written."""

    values: tuple[Value, ...]
    bounds: tuple[str, ...] = ()


@dataclass(frozen=True)
class Relation:
    """A relation; its columns are names with their sorts."""

    name: str
    columns: Sequence[tuple[str, str]]
    rows: Sequence[Row]


def is_name(text: str) -> bool:
    return NAME.fullmatch(text) is not None and text not in RESERVED


def fault_of_text(text: str) -> str | None:
    """Why a text is no data text, or None where it is one."""
    try:
        length = len(text.encode())
    except UnicodeEncodeError:
        return "is no UTF-8"
    if length > MOST_TEXT_BYTES:
        return f"has {length} bytes, more than {MOST_TEXT_BYTES}"
    if any(letter < " " or letter == "\x7f" for letter in text):
        return "has a control character"
    return None


def written_text(text: str) -> str:
    escaped = text.replace("\\", "\\\\").replace('"', '\\"')
    return f'"{escaped}"'


def written_value(value: Value) -> str:
    if isinstance(value, str):
        return written_text(value)
    if isinstance(value, Point):
        return f"{value.offset % value.period}+{value.period}n"
    return str(value)


def written_row(row: Row, written: Callable[[Value], str] = written_value) -> str:
    values = ", ".join(written(value) for value in row.values)
    bounds = " where " + ", ".join(row.bounds) if row.bounds else ""
    return f"  ({values}){bounds};\n"


def distance(later: str, earlier: str, minutes: int) -> str:
    """The bound that one column lies so many steps after another."""
    if minutes == 0:
        return f"{later} = {earlier}"
    sign = "+" if minutes > 0 else "-"
    return f"{later} = {earlier} {sign} {abs(minutes)}"


def written_relation(relation: Relation, written: Callable[[Value], str]) -> str:
    columns = ", ".join(f"{name}: {sort}" for name, sort in relation.columns)
    rows = "".join(written_row(row, written) for row in relation.rows)
    return f"relation {relation.name}({columns}) {{\n{rows}}}\n"


def written_database(
    remarks: Iterable[str], relations: Iterable[Relation], written: Callable[[Value], str] = written_value
) -> str:
    """A database's text, with remarks as comments before its relations; its values may have a spelling of their own."""
    lines = "".join(f"# {shown(remark)}\n" for remark in remarks)
    return lines + "\n".join(written_relation(relation, written) for relation in relations)


def shown(text: str) -> str:
    """A text of somebody else's on one line, without control characters."""
    return "".join(letter if letter.isprintable() else "\N{REPLACEMENT CHARACTER}" for letter in text)


def width(text: str) -> int:
    """The columns that a text takes in letters of one width."""
    return sum(0 if combining(letter) else 1 + (east_asian_width(letter) in "WF") for letter in text)


def put_file(path: str, content: bytes) -> None:
    """Writes a file whole or leaves what was there: a new file in the same folder takes the name at the end."""
    folder = os.path.dirname(os.path.abspath(path))
    try:
        handle, temporary = tempfile.mkstemp(prefix=".fizhedul-", dir=folder)
    except OSError as fault:
        raise Refused(f"{path}: {fault.strerror}", FAILED_WRITE) from fault
    try:
        with os.fdopen(handle, "wb") as file:
            file.write(content)
        mask = os.umask(0)
        os.umask(mask)
        os.chmod(temporary, 0o666 & ~mask)
        os.replace(temporary, path)
    except OSError as fault:
        os.unlink(temporary)
        raise Refused(f"{path}: {fault.strerror}", FAILED_WRITE) from fault
    except BaseException:
        os.unlink(temporary)
        raise
