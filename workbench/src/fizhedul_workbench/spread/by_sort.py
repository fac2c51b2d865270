"""Databases cut by the texts of a sort: parts whose rows never meet in a query.

Each atom of the query has the sort's one variable. So what is true of a value of this variable is true by its rows
alone, where all other sorts keep all of their texts; and an answer of the whole database is one of some part.
"""

import re
from collections.abc import Sequence
from dataclasses import dataclass

from ..queries import pieces
from ..words import Refused
from .formulas import Formula
from .lines import ESCAPE

QUERY_REFUSED = 4
HEADER = re.compile(r"relation (\w+)\((.*)\) \{")
VALUE = re.compile(r'"(?:[^"\\]|\\.)*"|[^",)]+')


@dataclass(frozen=True)
class Relation:
    """A relation as `check` writes it: its columns with their sorts, and its rows, a line each with its values."""

    name: str
    columns: Sequence[tuple[str, str]]
    rows: Sequence[tuple[str, Sequence[str]]]

    def place(self, sort: str) -> int:
        """The place of the one column of a sort; below 0 where there is none, or another one of it."""
        places = [place for place, (_, its_sort) in enumerate(self.columns) if its_sort == sort]
        return places[0] if len(places) == 1 else -1


def values_of(row: str) -> list[str]:
    """The values of a row, texts with their quotes."""
    values = []
    place = row.index("(") + 1
    while row[place] != ")":
        found = VALUE.match(row, place)
        assert found is not None
        values.append(found[0])
        place = found.end() + (2 if row[found.end()] == "," else 0)
    return values


def read_checked(text: str) -> list[Relation]:
    """The relations of a database as `check` writes it."""
    relations: list[Relation] = []
    rows: list[tuple[str, Sequence[str]]] = []
    for line in text.split("\n"):
        header = HEADER.fullmatch(line)
        if header is not None:
            columns = [column.split(": ") for column in header[2].split(", ") if column]
            rows = []
            relations.append(Relation(header[1], [(name, sort) for name, sort in columns], rows))
        elif line.startswith("  ("):
            rows.append((line, values_of(line)))
    return relations


def texts_by_sort(relations: Sequence[Relation]) -> dict[str, list[str]]:
    """The texts of each data sort, each once, in order of first sight."""
    found: dict[str, dict[str, None]] = {}
    for relation in relations:
        for place, (_, sort) in enumerate(relation.columns):
            if sort != "time":
                found.setdefault(sort, {}).update((values[place], None) for _, values in relation.rows)
    return {sort: list(texts) for sort, texts in found.items()}


def check_cut(query: str, relations: Sequence[Relation], sort: str, is_tense: bool) -> set[str]:
    """The relations that the query names, where it may be asked part by part; else it is refused, with why not."""
    formula = Formula(query, is_tense)
    known = {relation.name: relation for relation in relations}
    binders = [binder for binder in formula.binders if binder.sort == sort]
    if sort == "time" or len(binders) != 1:
        raise Refused(
            f"by={sort}: the query has {len(binders)} variables of this sort, and one is wanted", QUERY_REFUSED
        )
    variable = binders[0]
    if not variable.is_open:
        raise Refused(f"by={sort}: '{variable.name}' is bound by 'forall', or within 'not' or the like", QUERY_REFUSED)
    for atom in formula.atoms:
        place = known[atom.relation].place(sort)
        if place < 0 or list(atom.terms[place]) != [variable.name]:
            raise Refused(f"by={sort}: '{variable.name}' does not stand in each '{atom.relation}(..)'", QUERY_REFUSED)
    return {atom.relation for atom in formula.atoms}


def grouped(relations: Sequence[Relation], sort: str, texts: Sequence[str], parts: int) -> list[list[str]]:
    """The texts in groups of nearly as many rows each: the text with most rows goes to the group with fewest."""
    rows = dict.fromkeys(texts, 1)
    for relation in relations:
        place = relation.place(sort)
        for _, values in relation.rows if place >= 0 else ():
            rows[values[place]] += 1
    groups: list[list[str]] = [[] for _ in range(max(1, min(parts, len(texts))))]
    sizes = [0] * len(groups)
    for text in sorted(texts, key=lambda text: (-rows[text], text)):
        least = sizes.index(min(sizes))
        groups[least].append(text)
        sizes[least] += rows[text]
    return groups


def written(relation: Relation, rows: Sequence[str]) -> str:
    columns = ", ".join(f"{name}: {sort}" for name, sort in relation.columns)
    return f"relation {relation.name}({columns}) {{\n" + "".join(f"{row}\n" for row in rows) + "}\n"


def all_texts(sorts: dict[str, list[str]], taken: set[str]) -> str:
    """A relation for each sort that holds its texts, by names that are free."""
    made = ""
    for number, (sort, texts) in enumerate(sorts.items()):
        name = f"texts_{number}"
        while name in taken:
            name += "_"
        rows = [f"  ({text});" for text in texts]
        made += written(Relation(name, [("text", sort)], []), rows)
    return made


def cut_database(checked: str, query: str, sort: str, parts: int, is_tense: bool) -> list[str]:
    """The parts of a database, which is given as `check` writes it, by the texts of a sort."""
    relations = read_checked(checked)
    sorts = texts_by_sort(relations)
    if sort not in sorts:
        raise Refused(f"by={sort}: the database has no sort of this name; there are {', '.join(sorted(sorts))}")
    named = check_cut(query, relations, sort, is_tense)
    asked = [relation for relation in relations if relation.name in named]
    # A text of the query is one of the sort in each part, so each part has its rows.
    spelled = {ESCAPE.sub(r"\1", piece) for piece in pieces(query) if piece.startswith('"')}
    everywhere = {text for text in sorts[sort] if ESCAPE.sub(r"\1", text) in spelled}
    made = []
    for group in grouped(asked, sort, sorts[sort], parts):
        mine = everywhere | set(group)
        rows = [[row for row, values in relation.rows if values[relation.place(sort)] in mine] for relation in asked]
        texts = {**sorts, sort: [text for text in sorts[sort] if text in mine]}
        body = "".join(written(relation, some) for relation, some in zip(asked, rows))
        made.append(body + all_texts(texts, {relation.name for relation in relations}))
    return made
