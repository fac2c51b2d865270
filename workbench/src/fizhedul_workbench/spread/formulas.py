"""What a query's formula is made of, as far as a cut of the database has to know it."""

from collections.abc import Sequence
from dataclasses import dataclass, replace

from ..lrp import is_name
from ..queries import pieces

ENDS = frozenset(["and", "or", "implies", ")", "}", ","])


@dataclass(frozen=True)
class Atom:
    """A relation with its terms, each as its pieces."""

    relation: str
    terms: Sequence[Sequence[str]]


@dataclass(frozen=True)
class Binder:
    """A variable with its sort; `is_open` where it is one of the head, or an `exists` on a way of `exists`, `and` and
    `or` alone: a value that makes the formula there true makes the whole one true."""

    name: str
    sort: str
    is_open: bool


class Formula:
    """The atoms and binders of a query that the program has read without a fault."""

    def __init__(self, text: str, is_tense: bool) -> None:
        self.left = pieces(text)[::-1]
        self.is_tense = is_tense
        self.atoms: list[Atom] = []
        self.binders: list[Binder] = []
        self.take()
        while (name := self.take()) != "|":
            if name != ",":
                self.take()
                self.binders.append(Binder(name, self.take(), True))
        self.read(True)

    def take(self) -> str:
        return self.left.pop()

    def next(self) -> str:
        return self.left[-1]

    def read(self, is_open: bool) -> None:
        """Reads one formula."""
        word = self.take()
        if word == "(":
            self.read_list(is_open)
        elif word == "not":
            self.read(False)
        elif word in ("exists", "forall"):
            self.read_quantifier(is_open and word == "exists")
        elif self.is_tense and word in ("once", "always", "since", "until") and is_name(self.next()):
            self.read_operator(word)
        elif is_name(word) and self.next() == "(":
            self.read_atom(word)
        else:
            while self.next() not in ENDS:
                self.take()

    def read_list(self, is_open: bool) -> None:
        begin = len(self.binders)
        self.read(is_open)
        while (word := self.take()) != ")":
            if word == "implies":
                is_open = False
                self.binders[begin:] = [replace(binder, is_open=False) for binder in self.binders[begin:]]
            self.read(is_open)

    def read_quantifier(self, is_open: bool) -> None:
        name, _, sort = self.take(), self.take(), self.take()
        self.binders.append(Binder(name, sort, is_open))
        self.read(is_open)

    def read_operator(self, word: str) -> None:
        self.take()
        self.take()
        if word in ("since", "until"):
            self.read(False)
            self.take()
            self.read(False)
            self.take()
        else:
            while self.take() != ")":
                pass
            self.read(False)

    def read_atom(self, relation: str) -> None:
        self.take()
        terms: list[list[str]] = [[]]
        while (piece := self.take()) != ")":
            if piece == ",":
                terms.append([])
            else:
                terms[-1].append(piece)
        self.atoms.append(Atom(relation, terms if terms != [[]] else []))
