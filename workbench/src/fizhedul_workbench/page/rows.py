"""The rows of a database, numbered, and the edits between two databases."""

from collections import Counter
from collections.abc import Iterable
from dataclasses import dataclass

from database import Relation, relations_of


def numbered(text: str, relation: Relation, column: str, sort: str) -> str:
    """The relation alone, with the number of each row, from 1, as a text in a column more."""
    columns = relation.columns.rstrip()
    comma = ", " if relation.named_columns() else ""
    lines = [f"relation {relation.name}({columns}\n{comma}{column}: {sort}) {{\n"]
    for number, row in enumerate(relation.rows, 1):
        values, rest = text[row.begin : row.closed], text[row.closed : row.end]
        lines.append(f'{values}\n{comma}"{number}"{rest}\n')
    return "".join(lines) + "}\n"


@dataclass(frozen=True)
class Edit:
    """A row that is added or taken out."""

    sign: str
    relation: str
    row: str

    def __str__(self) -> str:
        return f"{self.sign} {self.relation} {self.row}"


def edits_between(old: str, new: str) -> list[Edit] | None:
    """The edits that make one database of another, or None where its relations or columns changed."""
    before, after = relations_of(old), relations_of(new)
    if [(each.name, each.named_columns()) for each in before] != [(each.name, each.named_columns()) for each in after]:
        return None
    edits: list[Edit] = []
    for one, other in zip(before, after):
        gone = left_over((row.text for row in one.rows), (row.text for row in other.rows))
        come = left_over((row.text for row in other.rows), (row.text for row in one.rows))
        for place in range(max(len(gone), len(come))):
            edits += [Edit("-", one.name, row) for row in gone[place : place + 1]]
            edits += [Edit("+", one.name, row) for row in come[place : place + 1]]
    return edits


def left_over(rows: Iterable[str], other: Iterable[str]) -> list[str]:
    """The rows that stand oftener here than there, in order."""
    spare = Counter(other)
    found = []
    for row in rows:
        if spare[row]:
            spare[row] -= 1
        else:
            found.append(row)
    return found
