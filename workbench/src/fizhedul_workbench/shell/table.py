"""Answers as a table, and the relations of a database."""

import re
from collections.abc import Sequence

from ..lrp import width
from ..program import Answer

HEAD = re.compile(r"relation (\w+)\((.*)\) \{")
TEXT = re.compile(r'"(?:[^"\\]|\\.)*"')
POINT = re.compile(r"\d+\+(\d+)n")


def padded(text: str, columns: int, to_right: bool) -> str:
    blanks = " " * (columns - width(text))
    return blanks + text if to_right else text + blanks


def table(names: Sequence[str], rows: Sequence[Answer]) -> list[str]:
    """Lines with a column for each name; numbers stand to the right."""
    cells = [[str(value) for value in row] for row in rows]
    numbers = [all(isinstance(row[place], int) for row in rows) for place in range(len(names))]
    widths = [max(width(text) for text in column) for column in zip(names, *cells)]
    lines = []
    for line in (list(names), ["-" * columns for columns in widths], *cells):
        parts = [padded(*each) for each in zip(line, widths, numbers)]
        lines.append("  ".join(parts).rstrip())
    return lines


def relations(written: str) -> list[list[int | str]]:
    """Of each relation that `check` writes: its name, its columns, its number of rows, and its periods."""
    found: list[list[int | str]] = []
    periods: set[int] = set()
    for line in written.splitlines():
        head = HEAD.fullmatch(line)
        if head is not None:
            found.append([head.group(1), head.group(2), 0, ""])
            periods = set()
        elif line.startswith("  ") and found:
            found[-1][2] = int(found[-1][2]) + 1
            periods.update(int(period) for period in POINT.findall(TEXT.sub("", line)))
            found[-1][3] = ", ".join(str(period) for period in sorted(periods))
    return found


def names_in(written: str) -> tuple[list[str], list[str]]:
    """The relations and the sorts of a database, as `check` writes it."""
    names, sorts = [], []
    for line in written.splitlines():
        head = HEAD.fullmatch(line)
        if head is not None:
            names.append(head.group(1))
            sorts += [part.split(": ")[1] for part in head.group(2).split(", ") if part]
    return names, list(dict.fromkeys(sorts))
