"""Queries of either language, taken apart."""

from .formulas import MOST_PARTS, Leaf, Part, Reader, Taken, Variable, joined, together, with_variable


class WideReader(Reader):
    """Reads a query of the wide language: definitions before it, and lists that need no parentheses."""

    def __init__(self, text: str) -> None:
        super().__init__(text, True)

    def query(self) -> Taken:
        while self.next() == "define":
            while self.take() != ";":
                pass
        defined = "".join(f"{joined(each)};\n" for each in cut(self.pieces[: self.at], ";"))
        taken = super().query()
        taken.definitions = defined
        return taken

    def parts(self) -> list[Part]:
        """The parts of a formula, with all that `implies` joins to it."""
        begin = self.at
        found = self.either()
        if self.next() != "implies":
            return found
        while self.next() == "implies":
            self.take()
            self.either()
        return [Part((), (Leaf(self.pieces[begin : self.at]),))]

    def either(self) -> list[Part]:
        found = self.both()
        while self.next() == "or":
            self.take()
            found += self.both()
        return found[:MOST_PARTS]

    def both(self) -> list[Part]:
        found = self.one()
        while self.next() == "and":
            self.take()
            other = self.one()
            found = [together(each, more) for each in found for more in other][:MOST_PARTS]
        return found

    def one(self) -> list[Part]:
        """The parts of a formula that no list goes on after."""
        begin, word = self.at, self.next()
        if word == "(":
            self.take()
            found = self.parts()
            self.take()
            return found
        if word == "exists":
            self.take()
            bound = self.variables()
            found = self.one()
            for variable in reversed(bound):
                found = [with_variable(variable, part) for part in found]
            return found
        self.skip()
        return [Part((), (self.leaf(begin),))]

    def variables(self) -> list[Variable]:
        """The variables of one quantifier, which have one sort."""
        names = [self.take()]
        while self.take() == ",":
            names.append(self.take())
        sort = self.take()
        return [Variable(name, sort) for name in names]

    def skip(self) -> None:
        if self.next() in ("exists", "forall"):
            self.take()
            self.variables()
            self.skip()
        else:
            super().skip()


def cut(pieces: tuple[str, ...], end: str) -> list[tuple[str, ...]]:
    """The pieces up to each end, without it."""
    found: list[tuple[str, ...]] = []
    begin = 0
    for place, piece in enumerate(pieces):
        if piece == end:
            found.append(pieces[begin:place])
            begin = place + 1
    return found


def taken_apart(text: str, is_tense: bool, is_wide: bool = False) -> Taken:
    """The head and the parts of a query that the engine has accepted."""
    return (WideReader(text) if is_wide else Reader(text, is_tense)).query()
