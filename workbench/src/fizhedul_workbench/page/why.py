"""Why a tuple is an answer, or is none: the query asked again with its quantified variables in the head."""

import json
from dataclasses import dataclass

from database import Relation, relations_of

from ..civil import dated, has_date
from ..engine.asked import Engine
from ..lrp import LIMIT, written_text
from ..program import Answer
from .asking import Failed, Matter, fixing, least_of, number_of, page_in
from .formulas import OPERATORS, Leaf, Part, Taken, Variable, in_the_head, joined
from .languages import taken_apart
from .rows import numbered

MOST_WAYS = 3
MOST_ROWS = 20
ROW = "row_of_relation"


@dataclass(frozen=True)
class Asker:
    """The engine, the matter, and the query in parts."""

    engine: Engine
    matter: Matter
    taken: Taken

    @property
    def columns(self) -> list[tuple[str, str]]:
        return [(each.name, each.sort) for each in self.taken.head]

    async def least(self, query: str) -> Answer | None:
        return await least_of(self.engine, self.matter.about(query))


async def why(engine: Engine, matter: Matter, answer: Answer, near: int) -> dict[str, object]:
    """Ways in which a tuple is an answer, with the rows that make it true; or, where it is none, what fails."""
    taken = taken_apart(matter.query.decode(), matter.is_tense, matter.is_wide)
    asker = Asker(engine, matter, taken)
    unknown = unknown_text(asker, answer)
    if unknown is not None:
        return {"holds": False, "unknown": unknown, "parts": []}
    for part in taken.parts:
        head = in_the_head(taken.head, part)
        hidden = [each for each in part.variables if each not in head]
        said = [joined(leaf.pieces) for leaf in part.conjuncts]
        query = taken.written(head, hidden, fixing(asker.columns, answer) + said)
        ways = await ways_of(asker, query, answer, near)
        if ways:
            told = [await way_told(asker, part, [*taken.head, *head], way) for way in ways]
            return {"holds": True, "query": query, "ways": told}
    return {"holds": False, "unknown": None, "parts": [await failing(asker, part, answer) for part in taken.parts]}


def unknown_text(asker: Asker, answer: Answer) -> str | None:
    """A text of the tuple that neither a row nor the query has, so that no answer has it."""
    known = asker.matter.db.decode() + asker.matter.query.decode()
    texts = [str(value) for (_, sort), value in zip(asker.columns, answer) if sort != "time"]
    return next((text for text in texts if written_text(text) not in known), None)


async def ways_of(asker: Asker, query: str, answer: Answer, near: int) -> list[Answer]:
    """The first ways near to the tuple's own times, or else the one nearest to 0."""
    times = [number_of(value) for (_, sort), value in zip(asker.columns, answer) if sort == "time"]
    first, last = min(times, default=0) - near, max(times, default=0) + near
    matter = asker.matter.about(query)
    if -LIMIT <= first and last <= LIMIT and (not matter.is_civil or (has_date(first) and has_date(last))):
        page = await page_in(asker.engine, matter, (first, last), MOST_WAYS)
        if page.answers:
            return page.answers
    found = await least_of(asker.engine, matter)
    return [] if found is None else [found]


async def way_told(asker: Asker, part: Part, head: list[Variable], way: Answer) -> dict[str, object]:
    """What each variable is in a way, and what each conjunct then says, with the rows of the database that hold it."""
    is_civil = asker.matter.is_civil
    values = {each.name: shown_value(value, is_civil) for each, value in zip(head, way)}
    given = {
        each.name: str(number_of(value)) if each.sort == "time" else written_text(str(value))
        for each, value in zip(head, way)
    }
    conjuncts = []
    for leaf in part.conjuncts:
        pieces = put_in(leaf, given)
        told = {"said": joined(leaf.pieces), "here": joined(pieces), "rows": await rows_of(asker, leaf, given)}
        conjuncts.append({**told, "shown": joined(with_dates(pieces)) if is_civil else told["here"]})
    return {"values": values, "conjuncts": conjuncts}


def shown_value(value: int | str, is_civil: bool) -> int | str:
    """A value as it is shown: a civil time by its date."""
    return dated(value) if is_civil and isinstance(value, int) else value


def with_dates(pieces: tuple[str, ...]) -> tuple[str, ...]:
    """The pieces with times as dates; periods, offsets, and the distances of temporal operators stay numbers."""
    if any(piece in OPERATORS for piece in pieces):
        return pieces
    before = ("", *pieces)
    return tuple(
        dated(int(piece)) if is_number(piece) and last not in ("in", "+", "-") else piece
        for last, piece in zip(before, pieces)
    )


def put_in(leaf: Leaf, given: dict[str, str]) -> tuple[str, ...]:
    """The pieces of a leaf with the values in the place of their variables, sums done."""
    pieces = leaf.pieces
    for name, value in given.items():
        pieces = leaf_pieces(pieces, name, value)
    return summed(pieces)


def leaf_pieces(pieces: tuple[str, ...], name: str, value: str) -> tuple[str, ...]:
    return Leaf(pieces).renamed(name, value).pieces


def summed(pieces: tuple[str, ...]) -> tuple[str, ...]:
    """The pieces with an offset added to the number before it."""
    found: list[str] = []
    for piece in pieces:
        after_sign = len(found) > 1 and found[-1] in ("+", "-") and is_number(found[-2]) and piece.isdigit()
        if after_sign and found[-3:-2] != ["in"]:
            sign, number = found.pop(), int(found.pop())
            found.append(str(number + int(piece) if sign == "+" else number - int(piece)))
        else:
            found.append(piece)
    return tuple(found)


def is_number(piece: str) -> bool:
    return piece.removeprefix("-").isdigit()


async def rows_of(asker: Asker, leaf: Leaf, given: dict[str, str]) -> list[dict[str, object]]:
    """The rows of an atom's relation that hold the tuple of its terms; each is an answer over the numbered rows."""
    text = asker.matter.db.decode()
    relation = next((each for each in relations_of(text) if each.name == leaf.relation), None)
    if relation is None or not leaf.relation:
        return []
    terms = [joined(summed(tuple(given.get(piece, piece) for piece in term))) for term in leaf.terms]
    column = fresh_column(relation)
    query = f"{{ {column}: {ROW} | {relation.name}({', '.join([*terms, column])}) }}"
    rows = numbered(text, relation, column, ROW).encode()
    matter = Matter(rows, query.encode(), asker.matter.is_civil, is_wide=asker.matter.is_wide, is_once=True)
    try:
        page = await page_in(asker.engine, matter, (0, 0), MOST_ROWS)
    except Failed:
        # A relation with as many columns as there may be has no room for one more.
        return []
    numbers = sorted(int(str(answer[0])) for answer in page.answers)
    return [row_told(relation, number) for number in numbers]


def row_told(relation: Relation, number: int) -> dict[str, object]:
    row = relation.rows[number - 1]
    return {"relation": relation.name, "row": row.text, "line": row.line, "begin": row.begin, "end": row.end}


def fresh_column(relation: Relation) -> str:
    names = {name for name, _ in relation.named_columns()}
    column = "row"
    while column in names:
        column += "_"
    return column


async def failing(asker: Asker, part: Part, answer: Answer) -> dict[str, object]:
    """The conjuncts of a part for a tuple: how far they hold together, and which fail by themselves."""
    tests = fixing(asker.columns, answer)
    told = []
    together = 0
    for number, leaf in enumerate(part.conjuncts, 1):
        said = joined(leaf.pieces)
        alone = await asker.least(asker.taken.written([], list(part.variables), [*tests, said]))
        front = [joined(each.pieces) for each in part.conjuncts[:number]]
        if (
            together == number - 1
            and await asker.least(asker.taken.written([], list(part.variables), tests + front)) is not None
        ):
            together = number
        told.append({"said": said, "alone": alone is not None})
    return {"conjuncts": told, "together": together}


def answer_of(value: str) -> Answer:
    """A tuple as it is typed: numbers, dates and texts, with commas between them."""
    found: Answer = json.loads(f"[{value}]")
    return found
