"""What a query says that is written as people write it: lists without parentheses, several names of one quantifier and
`!=`, each with what the language has instead."""

import re
from typing import NamedTuple

from grammar import COMPARISONS, OPERATORS, RESERVED, TOKEN, WORDS, Grammar

LOOSE = re.compile("(?P<unequal>!=|<>)|" + TOKEN.pattern, re.ASCII)
DEEPEST = 64
LONGEST = 100_000


class Instead(NamedTuple):
    """A part of a query, as the letters where it begins and ends; the place in it where the language's grammar stops;
    and what to write instead, in one way or, where a prefix may reach over a list, in two."""

    begin: int
    end: int
    place: int
    text: str
    over_list: str = ""
    prefix: str = ""
    words: tuple[str, ...] = ()


class Part(NamedTuple):
    """A formula, from one token to another: what stands before it as `exists b: time`, with its names, and the rest."""

    first: int
    last: int
    prefix: str
    rest: str
    names: tuple[str, ...] = ()

    @property
    def text(self) -> str:
        """The formula as the language has it."""
        return f"{self.prefix} {self.rest}".lstrip()


class Unread(Exception):
    """The text isn't a query in this wider sense either."""


def instead_at(text: str, place: int, grammar: Grammar) -> Instead | None:
    """What to write instead of the part of a query in which the language's grammar stops at a place, where that can be
    told, which is where the rest of the text can be read too."""
    if len(text) > LONGEST or grammar is Grammar.WIDE:
        return None
    try:
        found = Rewriter(text, grammar is Grammar.TENSE).query()
    except Unread:
        return None
    return next((each for each in found if each.place == place), None)


def tokens_of(text: str) -> list[re.Match[str]]:
    """The tokens of a text, with those for 'not equal'."""
    tokens, at = [], 0
    while at < len(text):
        found = LOOSE.match(text, at)
        if found is None:
            raise Unread
        tokens += [found] if found.lastgroup else []
        at = found.end()
    return tokens


class Rewriter:
    """Reads a query by the wider grammar, and keeps what of it the language's own doesn't have."""

    def __init__(self, text: str, is_tense: bool):
        self.tokens = tokens_of(text)
        self.is_tense = is_tense
        self.next = 0
        self.depth = 0
        self.found: list[Instead] = []

    def word(self) -> str:
        """The next token; empty at the end."""
        return self.tokens[self.next].group() if self.next < len(self.tokens) else ""

    def take(self, *wanted: str) -> str:
        """The next token, which has to be one of these, or of a kind that is one of these."""
        word = self.word()
        kind = "a " + (self.tokens[self.next].lastgroup or "") if word else ""
        if not word or word not in wanted and (kind not in wanted or kind == "a name" and word in RESERVED):
            raise Unread
        self.next += 1
        return word

    def source(self, first: int, last: int) -> str:
        """The tokens from one to another, with one blank where any stand between two."""
        shown = ""
        for before, token in zip([None, *self.tokens[first:last]], self.tokens[first:last + 1]):
            shown += (" " if before and before.end() < token.start() else "") + token.group()
        return shown

    def keep(self, part: Part, place: int, **more: object) -> None:
        """Keeps a part that is to be written otherwise."""
        begin, end = self.tokens[part.first].start(), self.tokens[part.last].end()
        self.found.append(Instead(begin, end, self.tokens[place].start(), part.text, **more))  # type: ignore[arg-type]

    def query(self) -> list[Instead]:
        """{ COLUMNS | FORMULAS }"""
        self.take("{")
        while self.word() != "|":
            self.take("a name")
            self.take(":")
            self.take("time", "data", "a name")
            if self.word() != "|":
                self.take(",")
        self.take("|")
        self.bare()
        self.take("}")
        if self.next < len(self.tokens):
            raise Unread
        return self.found

    def bare(self) -> Part:
        """A formula, or a list that lacks its parentheses."""
        members, words = self.chain()
        if not words:
            return members[0]
        text, over_list = f"({joined(members, words)})", self.over_list(members, words)
        if any(self.names_free(member, name) for member in members[1:] for name in members[0].names):
            text, over_list = over_list, ""
        whole = Part(members[0].first, members[-1].last, "", text)
        self.keep(whole, members[0].last + 1, over_list=over_list, prefix=members[0].prefix, words=tuple(words))
        return whole

    def over_list(self, members: list[Part], words: list[str]) -> str:
        """The list with what stands before its first formula before all of it; empty where nothing stands there."""
        first = members[0]
        if not first.prefix:
            return ""
        return f"{first.prefix} ({joined([first._replace(prefix=''), *members[1:]], words)})"

    def names_free(self, member: Part, name: str) -> bool:
        """Whether a formula names a variable that nothing in it binds."""
        words = [token.group() for token in self.tokens[member.first:member.last + 1]]
        named = [at for at, word in enumerate(words) if word == name and words[at + 1:at + 2] != ["("]]
        return bool(named) and not any(self.is_bound(words, at) for at in named)

    @staticmethod
    def is_bound(words: list[str], at: int) -> bool:
        """Whether a name stands among those of a quantifier."""
        while at > 1 and words[at - 1] == ",":
            at -= 2
        return at > 0 and words[at - 1] in ("exists", "forall")

    def group(self) -> Part:
        """A list in parentheses, perhaps of several words."""
        first = self.next
        self.take("(")
        members, words = self.chain()
        self.take(")")
        whole = Part(first, self.next - 1, "", f"({joined(members, words)})")
        wrong = next((at for at, word in enumerate(words) if at and (word != words[0] or word == "implies")), None)
        if wrong is not None:
            self.keep(whole, members[wrong].last + 1, words=tuple(words))
        return whole

    def chain(self) -> tuple[list[Part], list[str]]:
        """Formulas and the words between them."""
        self.depth += 1
        if self.depth > DEEPEST:
            raise Unread
        members, words = [self.one()], []
        while self.word() in WORDS:
            words.append(self.take(*WORDS))
            members.append(self.one())
        self.depth -= 1
        return members, words

    def one(self) -> Part:
        """One formula: prefixes, and what they take."""
        first, prefixes = self.next, []
        while (prefix := self.prefix()) is not None:
            prefixes.append(prefix)
        rest = self.without_prefix()
        names = tuple(name for _, own, _ in prefixes for name in own)
        whole = Part(first, rest.last, " ".join(text for text, _, _ in prefixes), rest.text, names)
        for text, own, begin in prefixes:
            if len(own) > 1:
                self.keep(Part(begin, begin + 2 * len(own) + 1, "", text), begin + 2)
        return whole

    def prefix(self) -> tuple[str, tuple[str, ...], int] | None:
        """What may stand before a formula as the language has it, the names that it binds, and its first token."""
        first = self.next
        if self.word() == "not":
            return self.take("not"), (), first
        if self.word() in ("exists", "forall"):
            return *self.quantifier(), first
        if self.is_operator("once", "always"):
            self.next += 2
            self.take("(")
            self.integer()
            self.take(",")
            self.integer()
            self.take(")")
            return self.source(first, self.next - 1), (), first
        return None

    def quantifier(self) -> tuple[str, tuple[str, ...]]:
        """`exists a, b: time`, one name after the other."""
        word, names = self.take("exists", "forall"), [self.take("a name")]
        while self.word() == ",":
            self.take(",")
            names.append(self.take("a name"))
        self.take(":")
        sort = self.take("time", "data", "a name")
        return " ".join(f"{word} {name}: {sort}" for name in names), tuple(names)

    def is_operator(self, *words: str) -> bool:
        """Whether a temporal operator of these begins here."""
        after = self.tokens[self.next + 1:self.next + 2]
        is_name = bool(after) and after[0].lastgroup == "name" and after[0].group() not in RESERVED
        return self.is_tense and self.word() in words and is_name

    def without_prefix(self) -> Part:
        """A list in parentheses, `since` or `until`, an atom, or a test."""
        first = self.next
        if self.word() == "(":
            return self.group()
        if self.is_operator(*OPERATORS):
            self.next += 2
            return self.two_formulas(first)
        if self.tokens[self.next + 1:self.next + 2] and self.tokens[self.next + 1].group() == "(":
            self.take("a name")
            self.atom()
        else:
            self.term()
            if self.word() in ("!=", "<>"):
                return self.unequal(first)
            self.test()
        return Part(first, self.next - 1, "", self.source(first, self.next - 1))

    def two_formulas(self, first: int) -> Part:
        """What `since` and `until` take."""
        head = self.source(first, self.next)
        self.take("(")
        left = self.bare()
        self.take(",")
        right = self.bare()
        self.take(")")
        return Part(first, self.next - 1, "", f"{head}{left.text}, {right.text})")

    def unequal(self, first: int) -> Part:
        """A comparison by `!=` or `<>`, at the sign; of `<>` the language has the first letter."""
        sign = self.next
        self.next += 1
        self.term()
        whole = Part(first, self.next - 1, "not", f"{self.source(first, sign - 1)} = {self.source(sign + 1, self.next - 1)}")
        self.keep(whole, sign)
        if self.tokens[sign].group() == "<>":
            self.found[-1] = self.found[-1]._replace(place=self.tokens[sign].start() + 1)
        return whole

    def atom(self) -> None:
        """The terms of an atom."""
        self.take("(")
        while self.word() != ")":
            self.term()
            if self.word() != ")":
                self.take(",")
        self.take(")")

    def term(self) -> None:
        """A text, an integer, or a name with or without an offset."""
        if self.word()[:1] == "-":
            self.integer()
        elif self.take("a text", "a number", "a name")[0].isidentifier() and self.word() in ("+", "-"):
            self.next += 1
            self.take("a number")

    def integer(self) -> None:
        """A number, perhaps after a minus."""
        if self.word() == "-":
            self.next += 1
        self.take("a number")

    def test(self) -> None:
        """What goes on after the left side of a comparison or of `in`."""
        if self.take("in", *COMPARISONS) != "in":
            self.term()
            return
        self.integer()
        self.take("+")
        self.take("a number")
        self.take("n")


def joined(members: list[Part], words: list[str]) -> str:
    """Formulas between words as lists of one kind of word each: `and` first, then `or`, the last `implies` before others."""
    if "implies" in words:
        at = words.index("implies")
        sides = [(members[:at + 1], words[:at]), (members[at + 1:], words[at + 1:])]
        return " implies ".join(enclosed(*side) for side in sides)
    if "or" in words and "and" in words:
        ends = [at for at, word in enumerate(words) if word == "or"] + [len(words)]
        begins = [0, *(end + 1 for end in ends[:-1])]
        return " or ".join(enclosed(members[begin:end + 1], words[begin:end]) for begin, end in zip(begins, ends))
    return f" {words[0] if words else ''} ".join(member.text for member in members)


def enclosed(members: list[Part], words: list[str]) -> str:
    """The same in parentheses, where it is more than one formula."""
    return f"({joined(members, words)})" if words else members[0].text


def with_variables(text: str, place: int, columns: dict[str, list[str]]) -> str:
    """The atom around a `_` or a `*`, with a variable of its own for each of them, bound directly around it; empty where
    the place isn't in an atom of a relation with as many columns. The columns are written NAME: SORT."""
    shown = re.sub(r'("(?:[^"\\\n]|\\.)*")|#[^\n]*', lambda found: found[1] or " " * len(found[0]), text)
    masked = re.sub(r'"(?:[^"\\\n]|\\.)*"', lambda found: "x" * len(found[0]), shown)
    begin, end = masked.rfind("(", 0, place), masked.find(")", place)
    relation = re.search(r"([A-Za-z_][A-Za-z0-9_]*)\s*$", masked[:max(begin, 0)], re.ASCII)
    if relation is None or end < 0 or "(" in masked[place:end] or ")" in masked[begin:place]:
        return ""
    ends = [at for at in range(begin + 1, end) if masked[at] == ","] + [end]
    terms = [" ".join(shown[first + 1:last].split()) for first, last in zip([begin, *ends], ends)]
    sorts = [[part.strip() for part in column.split(":")] for column in columns.get(relation[1], [])]
    if len(terms) != len(sorts) or text[place] not in terms:
        return ""
    names = set(re.findall(r"[A-Za-z_][A-Za-z0-9_]*", masked, re.ASCII)) | set(RESERVED)
    bound = []
    for at, (name, sort) in enumerate(sorts):
        if terms[at] == text[place]:
            terms[at] = next(new for new in (name, *(f"{name}{number}" for number in range(2, 1000))) if new not in names)
            names.add(terms[at])
            bound.append(f"exists {terms[at]}: {sort} ")
    return f"{''.join(bound)}{relation[1]}({', '.join(terms)})"
