"""What the files say about one finding of `lint`: its place, and what was meant perhaps."""

import re
from collections.abc import Iterator
from difflib import get_close_matches
from math import gcd
from typing import NamedTuple

from civil import plain_text
from database import Relation, Row, relations_of, text_of_value
from details import Said
from grammar import TOKEN
from places import Place, read_lines

POINT = re.compile(r"(-?\d+)(?:\s*\+\s*(\d+)\s*n)?")
BOUND = re.compile(r"([A-Za-z_]\w*)\s*(<=|>=|=)\s*([A-Za-z_]\w*)(?:\s*([+-])\s*(\d+))?", re.ASCII)
MOST_TEXTS = 8


class Texts(NamedTuple):
    """The files of both keys, and their texts, in which civil values are their points; empty where there is none."""

    files: dict[str, str]
    db: str
    query: str


class Finding(NamedTuple):
    """A line of `lint`, the names and numbers in it, and the texts that it speaks of."""

    line: str
    numbers: dict[str, str | None]
    texts: Texts

    @property
    def key(self) -> str:
        """The key of the file that it speaks of."""
        return "query" if self.line.startswith("query") else "db"


class Tied(NamedTuple):
    """A bound that fixes how far one column is after another."""

    later: str
    earlier: str
    distance: int


def read_texts(keys: dict[str, str]) -> Texts:
    """The texts of the files that these keys name, each read once."""
    db, query = (b"\n".join(read_lines(keys.get(key, "")) or []).decode(errors="replace") for key in ("db", "query"))
    return Texts(keys, plain_text(db) if keys.get("civil") == "yes" else db, query)


def place_of(finding: Finding) -> Place | None:
    """The place of a finding in its file."""
    numbers, file = finding.numbers, finding.texts.files.get(finding.key, "")
    if finding.key == "query":
        return Place(file, int(numbers["line"] or 0), int(numbers["column"] or 0))
    found = row_of(finding)
    if found is None:
        return None
    text, row = finding.texts.db, found[1]
    begin = text.rfind("\n", 0, row.begin) + 1
    return Place(file, row.line + 1, len(text[begin:row.begin].encode()) + 1)


def is_told(finding: Finding) -> bool:
    """Whether a finding is worth a warning: none that instants are untied, which have one time each."""
    found = row_of(finding) if "UntiedTimes" in finding.line else None
    return found is None or bool(untied_in(*found))


def row_of(finding: Finding) -> tuple[Relation, Row] | None:
    """The row that a finding names, with its relation."""
    number = int(finding.numbers["row"] or 0)
    for relation in relations_of(finding.texts.db):
        if relation.name == finding.numbers["relation"] and number <= len(relation.rows):
            return relation, relation.rows[number - 1]
    return None


def said_of(finding: Finding) -> Said:
    """What was meant perhaps."""
    tellers = {"database EmptyRow": bound_that_fails, "database UntiedTimes": bound_that_is_missing,
               "query UnknownText": text_that_is_near}
    return next((tell(finding) for front, tell in tellers.items() if finding.line.startswith(front)), Said(""))


def points_of(relation: Relation, row: Row) -> dict[str, tuple[int, int]]:
    """The offsets and periods of a row's times, by their columns; an instant has the period 0."""
    found = {}
    for (name, _), value in zip(relation.named_columns(), row.values()):
        point = POINT.fullmatch(value)
        if point:
            found[name] = int(point[1]), int(point[2] or 0)
    return found


def bounds_of(row: Row) -> Iterator[tuple[str, Tied]]:
    """The signs of a row's bounds between two columns, with how far one is after the other."""
    for left, sign, right, way, number in BOUND.findall(row.bounds()):
        yield sign, Tied(left, right, int(f"{way}{number or 0}"))


def bound_that_fails(finding: Finding) -> Said:
    """A bound that no values of its two columns meet, with the nearest one that some meet."""
    found = row_of(finding)
    if found is None:
        return Said("")
    points = points_of(*found)
    for sign, tied in bounds_of(found[1]):
        if sign != "=" or not {tied.later, tied.earlier} <= set(points):
            continue
        nearest, distances = distances_of(points, tied)
        if nearest != tied.distance:
            return Said(f"'{tied.later}' is {distances} after '{tied.earlier}', and the bound asks for {tied.distance}:"
                        f" did you mean '{written(tied._replace(distance=nearest))}'?", has_remedy=True)
    return Said("")


def distances_of(points: dict[str, tuple[int, int]], tied: Tied) -> tuple[int, str]:
    """How far the later column may be after the earlier one: the nearest to the bound's distance, and all of them."""
    (late, late_period), (early, early_period) = points[tied.later], points[tied.earlier]
    period, least = gcd(late_period, early_period), late - early
    if period == 0:
        return least, str(least)
    rest = (least - tied.distance) % period
    nearest = tied.distance + (rest if 2 * rest <= period else rest - period)
    return nearest, f"{least % period}+{period}n"


def written(tied: Tied) -> str:
    """A bound as a row has it."""
    sign = "-" if tied.distance < 0 else "+"
    return f"{tied.later} = {tied.earlier}" + (f" {sign} {abs(tied.distance)}" if tied.distance else "")


def bound_that_is_missing(finding: Finding) -> Said:
    """Two columns that no bounds tie, and the bound by the values that the row has."""
    found = row_of(finding)
    pairs = untied_in(*found) if found else []
    if found is None or not pairs:
        return Said("")
    points, (one, other) = points_of(*found), pairs[0]
    period = gcd(points[one][1], points[other][1])
    told = f"No bound ties '{one}' and '{other}'"
    if period < 2:
        return Said(f"{told}.")
    missing = written(Tied(other, one, (points[other][0] - points[one][0]) % period))
    return Said(f"{told}: perhaps '{missing}' is missing. Leave the row as it is where every pair is meant.", has_remedy=True)


def untied_in(relation: Relation, row: Row) -> list[tuple[str, str]]:
    """The pairs of columns that no bounds tie, both with more than one time."""
    points = points_of(relation, row)
    groups = {name: name for name in points}
    for _, tied in bounds_of(row):
        if {tied.later, tied.earlier} <= set(points):
            old, new = groups[tied.later], groups[tied.earlier]
            groups = {name: new if group == old else group for name, group in groups.items()}
    moving = [name for name in points if points[name][1] and not is_fixed(name, row.bounds())]
    return [(one, other) for one in moving for other in moving if groups[one] != groups[other]]


def is_fixed(name: str, bounds: str) -> bool:
    """Whether bounds leave a column one time alone."""
    found = re.findall(rf"(?<!\w){name}\s*(<=|>=|=)\s*(-?\d+)(?!\s*\+?\s*\w)", bounds)
    least, most = ({number for sign, number in found if sign in (wanted, "=")} for wanted in (">=", "<="))
    return bool(least & most)


def text_that_is_near(finding: Finding) -> Said:
    """The text of the sort that is nearest, or the sort that has the text, or all texts of the sort."""
    query = finding.texts.query
    place = offset_of(query, int(finding.numbers["line"] or 0), int(finding.numbers["column"] or 0))
    token = TOKEN.match(query, place)
    text = text_of_value(token.group()) if token else None
    relations = relations_of(finding.texts.db)
    sort = sort_at(query, place, {each.name: each.named_columns() for each in relations})
    if text is None or not sort:
        return Said("")
    texts = texts_of(relations)
    close = get_close_matches(text, texts.get(sort, []), 1, 0.6)
    if close:
        return Said(f"Did you mean {quoted(close[0])}?", has_remedy=True)
    others = [other for other, known in texts.items() if text in known]
    if others:
        return Said(f"It is a text of the sort '{others[0]}', and here the sort is '{sort}'.")
    return Said(list_of(sort, list(texts.get(sort, []))))


def list_of(sort: str, texts: list[str]) -> str:
    """The texts of a sort, as far as they are few."""
    if not texts:
        return f"No row has a text of the sort '{sort}'."
    shown = ", ".join(map(quoted, texts[:MOST_TEXTS]))
    return f"The texts of the sort '{sort}' are {shown}" + (" and more." if len(texts) > MOST_TEXTS else ".")


def quoted(text: str) -> str:
    """A text as it is written."""
    escaped = text.replace("\\", "\\\\").replace('"', '\\"')
    return f'"{escaped}"'


def texts_of(relations: tuple[Relation, ...]) -> dict[str, dict[str, None]]:
    """The texts of each sort, each once."""
    found: dict[str, dict[str, None]] = {}
    for relation in relations:
        sorts = [sort for _, sort in relation.named_columns()]
        for row in relation.rows:
            for sort, value in zip(sorts, row.values()):
                text = text_of_value(value)
                if text is not None:
                    found.setdefault(sort, {})[text] = None
    return found


def offset_of(text: str, line: int, column: int) -> int:
    """Where a place is in a text; its column counts bytes."""
    lines = text.split("\n")
    if line > len(lines):
        return len(text)
    front = lines[line - 1].encode()[:column - 1].decode(errors="replace")
    return sum(len(each) + 1 for each in lines[:line - 1]) + len(front)


def sort_at(query: str, place: int, columns: dict[str, list[tuple[str, str]]]) -> str:
    """The sort of the text at a place of a query: that of an atom's column, or of the other side of an '='."""
    tokens = [found for found in TOKEN.finditer(query) if found.lastgroup]
    at = next((number for number, token in enumerate(tokens) if token.start() == place), 0)
    words = [token.group() for token in tokens]
    name, column = atom_around(words, at)
    if name in columns and column < len(columns[name]):
        return columns[name][column][1]
    sides = [words[at - 2]] * (words[at - 1:at] == ["="]) + words[at + 2:at + 3] * (words[at + 1:at + 2] == ["="])
    for side in sides:
        sorts = [words[number + 2] for number in range(at) if words[number:number + 2] == [side, ":"]]
        if sorts:
            return sorts[-1]
    return "data"


def atom_around(words: list[str], at: int) -> tuple[str, int]:
    """The name before the innermost parenthesis that is open at a token, and how many commas stand between."""
    opened: list[tuple[str, int]] = [("", 0)]
    for before, word in zip(["", *words], words[:at]):
        if word == "(":
            opened.append((before, 0))
        elif word == ")" and len(opened) > 1:
            opened.pop()
        elif word == ",":
            opened[-1] = opened[-1][0], opened[-1][1] + 1
    return opened[-1]
