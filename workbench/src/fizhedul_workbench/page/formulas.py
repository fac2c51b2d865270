"""Queries taken apart: their conjuncts under open quantifiers, for the rows and the parts that an answer depends on."""

import re
from collections.abc import Iterator
from dataclasses import dataclass, field

from ..lrp import is_name

DATE = r"[0-9]{4}-[0-9]{2}-[0-9]{2}\s+[0-9]{2}:[0-9]{2}|[0-9]{2}:[0-9]{2}"
PIECE = re.compile(rf'(?:\s|#[^\n]*)*("(?:[^"\\]|\\.)*"|[A-Za-z_][A-Za-z0-9_]*|{DATE}|[0-9]+|<=|>=|!=|[^\s])')
OPERATORS = ("once", "always", "since", "until")
ENDS = frozenset(["and", "or", "implies", ")", "}", ","])
MOST_COLUMNS = 8
MOST_PARTS = 16


@dataclass(frozen=True)
class Variable:
    """A variable with its sort."""

    name: str
    sort: str


@dataclass(frozen=True)
class Leaf:
    """A formula that is looked at as a whole: its pieces, and of an atom its relation and the pieces of its terms."""

    pieces: tuple[str, ...]
    relation: str = ""
    terms: tuple[tuple[str, ...], ...] = ()

    def renamed(self, old: str, new: str) -> "Leaf":
        terms = tuple(tuple(renamed(term, old, new)) for term in self.terms)
        return Leaf(tuple(renamed(self.pieces, old, new)), self.relation, terms)


@dataclass(frozen=True)
class Part:
    """One way in which a formula holds: variables of open quantifiers, and conjuncts that hold together."""

    variables: tuple[Variable, ...] = ()
    conjuncts: tuple[Leaf, ...] = ()

    def renamed(self, old: str, new: str) -> "Part":
        variables = tuple(Variable(new, each.sort) if each.name == old else each for each in self.variables)
        return Part(variables, tuple(each.renamed(old, new) for each in self.conjuncts))


@dataclass
class Taken:
    """A query: the definitions before it, the columns of its head, and the parts of which one at least holds for an
    answer."""

    definitions: str = ""
    head: list[Variable] = field(default_factory=list)
    parts: list[Part] = field(default_factory=list)

    def written(self, more: list[Variable], hidden: list[Variable], conjuncts: list[str]) -> str:
        """A query with further columns, and the other variables quantified, after the definitions."""
        return self.definitions + written_query(self.head + more, hidden, conjuncts)


def renamed(pieces: tuple[str, ...], old: str, new: str) -> Iterator[str]:
    """The pieces with a variable's name replaced; before a bracket it is a relation, and after a colon a sort."""
    for place, piece in enumerate(pieces):
        is_relation = pieces[place + 1 : place + 2] == ("(",) and pieces[max(place - 1, 0)] not in OPERATORS
        is_sort = place > 0 and pieces[place - 1] == ":"
        yield new if piece == old and not is_relation and not is_sort else piece


def joined(pieces: tuple[str, ...]) -> str:
    """The pieces as a text that is read as they are."""
    text = ""
    for piece in pieces:
        tight = piece in (",", ")", ":") or text.endswith("(") or text == "" or (piece == "(" and is_relation_end(text))
        text += piece if tight else " " + piece
    return re.sub(r"(\d) \+ (\d+) n\b", r"\1+\2n", text)


def is_relation_end(text: str) -> bool:
    """Whether the last word of a text is a name, so that a bracket after it opens its terms."""
    found = re.search(r"[A-Za-z_][A-Za-z0-9_]*$", text)
    return found is not None and is_name(found.group())


class Reader:
    """Reads a query that the engine has accepted."""

    def __init__(self, text: str, is_tense: bool) -> None:
        self.pieces = tuple(found.group(1) for found in PIECE.finditer(text))
        self.at = 0
        self.is_tense = is_tense

    def take(self) -> str:
        self.at += 1
        return self.pieces[self.at - 1]

    def next(self, ahead: int = 0) -> str:
        place = self.at + ahead
        return self.pieces[place] if place < len(self.pieces) else ""

    def variable(self) -> Variable:
        name, _, sort = self.take(), self.take(), self.take()
        return Variable(name, sort)

    def query(self) -> Taken:
        taken = Taken()
        self.take()
        while self.next() != "|":
            taken.head.append(self.variable())
            if self.next() == ",":
                self.take()
        self.take()
        taken.parts = self.parts()
        return taken

    def parts(self) -> list[Part]:
        """The parts of one formula."""
        begin, word = self.at, self.next()
        if word == "(":
            return self.group()
        if word == "exists":
            self.take()
            bound = self.variable()
            return [with_variable(bound, part) for part in self.parts()]
        self.skip()
        return [Part((), (self.leaf(begin),))]

    def leaf(self, begin: int) -> Leaf:
        pieces = self.pieces[begin : self.at]
        if len(pieces) < 3 or pieces[1] != "(" or not is_name(pieces[0]):
            return Leaf(pieces)
        terms: list[list[str]] = [[]]
        for piece in pieces[2:-1]:
            if piece == ",":
                terms.append([])
            else:
                terms[-1].append(piece)
        return Leaf(pieces, pieces[0], tuple(map(tuple, terms)) if terms != [[]] else ())

    def group(self) -> list[Part]:
        """A list in parentheses: of an `and` each way of each member, of an `or` the ways of all."""
        begin = self.at
        self.take()
        found = [self.parts()]
        words = []
        while self.next() != ")":
            words.append(self.take())
            found.append(self.parts())
        self.take()
        if "implies" in words:
            return [Part((), (Leaf(self.pieces[begin : self.at]),))]
        if "or" in words:
            return [part for parts in found for part in parts][:MOST_PARTS]
        made = [Part()]
        for parts in found:
            made = [together(one, other) for one in made for other in parts][:MOST_PARTS]
        return made

    def skip(self) -> None:
        """Goes past one formula."""
        word = self.take()
        if word == "(":
            self.skip_to_bracket()
        elif word == "not":
            self.skip()
        elif word in ("exists", "forall"):
            self.variable()
            self.skip()
        elif self.is_tense and word in OPERATORS and is_name(self.next()):
            self.at += 2
            self.skip_to_bracket()
            if word in ("once", "always"):
                self.skip()
        elif self.next() == "(" and is_name(word):
            self.take()
            self.skip_to_bracket()
        else:
            while self.next() not in ENDS:
                self.take()

    def skip_to_bracket(self) -> None:
        """Goes past the bracket that closes what is open."""
        depth = 1
        while depth:
            word = self.take()
            depth += (word == "(") - (word == ")")


def with_variable(bound: Variable, part: Part) -> Part:
    return Part((bound, *part.variables), part.conjuncts)


def together(one: Part, other: Part) -> Part:
    """Both parts at once; a variable that both have is two, of which the second gets a name of its own."""
    names = {each.name for each in one.variables}
    for variable in other.variables:
        if variable.name in names:
            other = other.renamed(variable.name, fresh(variable.name, one, other))
    return Part(one.variables + other.variables, one.conjuncts + other.conjuncts)


def fresh(name: str, *parts: Part) -> str:
    """A name that stands in none of these parts."""
    taken = {piece for part in parts for leaf in part.conjuncts for piece in leaf.pieces}
    taken |= {each.name for part in parts for each in part.variables}
    number = 2
    while f"{name}_{number}" in taken:
        number += 1
    return f"{name}_{number}"


def written_list(conjuncts: list[str]) -> str:
    """Conjuncts as one formula; without any, one that always holds."""
    if len(conjuncts) == 1:
        return conjuncts[0]
    return f"({' and '.join(conjuncts)})" if conjuncts else "0 = 0"


def in_the_head(head: list[Variable], part: Part) -> list[Variable]:
    """The variables of a part that there is room for in the head beside its own columns."""
    found: list[Variable] = []
    for variable in part.variables:
        alike = [each for each in (*head, *found) if (each.sort == "time") == (variable.sort == "time")]
        if len(alike) < MOST_COLUMNS:
            found.append(variable)
    return found


def written_query(head: list[Variable], hidden: list[Variable], conjuncts: list[str]) -> str:
    """A query with these columns, and the other variables quantified."""
    columns = ", ".join(f"{each.name}: {each.sort}" for each in head)
    quantifiers = "".join(f"exists {each.name}: {each.sort} " for each in hidden)
    return f"{{ {columns} | {quantifiers}{written_list(conjuncts)} }}"
