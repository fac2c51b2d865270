"""What may stand at a place of a database, a query or a list of edits where the text stops being one."""

import re
from collections.abc import Callable
from enum import Enum

RESERVED = ("relation", "where", "time", "data", "n", "exists", "forall", "not", "and", "or", "implies", "in")
TOKEN = re.compile(r'[\s]+|#[^\n]*|(?P<name>[A-Za-z_][A-Za-z0-9_]*)|(?P<number>[0-9]+)|'
                   r'(?P<text>"(?:[^"\\\x00-\x1f\x7f]|\\["\\])*")|(?P<symbol><=|>=|[(){},:;|+<>=-])', re.ASCII)
# The wide language has two symbols more.
WIDE_TOKEN = re.compile(TOKEN.pattern + r"|(?P<wide>!=|\*)", re.ASCII)
COMPARISONS = ("<=", ">=", "<", ">", "=")
WORDS = ("and", "or", "implies")
OPERATORS = ("once", "always", "since", "until")


class Grammar(Enum):
    """What a text is to be."""

    DATABASE = "a database"
    QUERY = "a query"
    TENSE = "a query that may have temporal operators"
    WIDE = "definitions and a query in the wide language"
    EDITS = "edits"

    @property
    def is_query(self) -> bool:
        """Whether a text of it is a query, in one of the languages of queries."""
        return self in (Grammar.QUERY, Grammar.TENSE, Grammar.WIDE)

    @property
    def has_operators(self) -> bool:
        """Whether it has temporal operators."""
        return self in (Grammar.TENSE, Grammar.WIDE)

    @property
    def token(self) -> re.Pattern[str]:
        """A token, with blanks and comments as tokens that have no group."""
        return WIDE_TOKEN if self is Grammar.WIDE else TOKEN


class Stop(Exception):
    """The place is reached."""


def fault_of_syntax(text: str, place: int, grammar: Grammar) -> str:
    """What is known of a fault of syntax at a place of a text."""
    inside = re.search(r'"(?:[^"\\\x00-\x1f\x7f]|\\["\\])*$', without_texts_and_comments(text[:place]))
    if inside:
        return "It stands inside a text, which ends at the next quote of its line; in it \\\" is a quote, \\\\ is a \\."
    found = grammar.token.match(text, place)
    if place < len(text) and found is None:
        return f"{text[place]!r} begins no token of the language."
    if grammar is Grammar.QUERY and is_operator(text, place):
        return "Temporal operators, as 'once t (-10, 0) ..', are read with tense=yes."
    wanted = wanted_at(text[:place], grammar)
    if found and "a name" in wanted and found.group() in RESERVED:
        return f"'{found.group()}' is a word of the language, and can't be a name."
    return "Here may stand: " + " or ".join(filter(None, [", ".join(wanted[:-1]), wanted[-1]])) + "." if wanted else ""


def without_texts_and_comments(text: str) -> str:
    """The text without its whole texts and comments, so that a quote in it opens a text that is not closed."""
    return re.sub(r'"(?:[^"\\\x00-\x1f\x7f]|\\["\\])*"|#[^\n]*', " ", text)


def is_operator(text: str, place: int) -> bool:
    """Whether the token at a place is the name after the word of a temporal operator."""
    before = [found.group() for found in TOKEN.finditer(text[:place]) if found.lastgroup]
    name = TOKEN.match(text, place)
    is_name = name is not None and name.lastgroup == "name" and name.group() not in RESERVED
    return is_name and before[-1:] != [] and before[-1] in OPERATORS


def wanted_at(front: str, grammar: Grammar) -> list[str]:
    """What may follow the front of a text."""
    reader = read(front, grammar)
    return list(dict.fromkeys(reader.wanted))


def read(text: str, grammar: Grammar) -> "Reader":
    """A reader that has read a text as far as its grammar goes."""
    reader = Reader([found for found in grammar.token.finditer(text) if found.lastgroup], grammar)
    readers = {Grammar.DATABASE: reader.database, Grammar.EDITS: reader.edits, Grammar.WIDE: reader.file}
    try:
        readers.get(grammar, reader.query)()
        reader.is_whole = reader.next == len(reader.tokens)
    except (Stop, RecursionError):
        pass
    return reader


def is_wide(text: str) -> bool:
    """Whether a text is a file of the wide language, as far as its grammar goes."""
    at = 0
    while at < len(text):
        found = WIDE_TOKEN.match(text, at)
        if found is None:
            return False
        at = found.end()
    return read(text, Grammar.WIDE).is_whole


class Reader:
    """Reads tokens by the grammar up to their end, and keeps what was looked for there."""

    def __init__(self, tokens: list[re.Match[str]], grammar: Grammar):
        self.tokens = tokens
        self.has_operators = grammar.has_operators
        self.is_wide = grammar is Grammar.WIDE
        self.next = 0
        self.wanted: list[str] = []
        self.is_whole = False

    def at(self, *wanted: str) -> bool:
        """Takes the next token where it is one of these; at the end of the tokens they are kept."""
        if self.next == len(self.tokens):
            self.wanted += [word if word.startswith("a ") else f"'{word}'" for word in wanted]
            return False
        token = self.tokens[self.next]
        kind = "a " + (token.lastgroup or "")
        is_name = kind == "a name" and token.group() not in RESERVED
        found = token.group() in wanted or (kind in wanted and (kind != "a name" or is_name))
        self.next += found
        return found

    def need(self, *wanted: str) -> None:
        """The same, where nothing else may stand."""
        if not self.at(*wanted):
            raise Stop

    def begin(self, what: str) -> None:
        """At the end of the tokens, a thing of this kind may begin."""
        if self.next == len(self.tokens):
            self.wanted.append(what)
            raise Stop

    def list_up_to(self, end: str, item: Callable[[], None]) -> None:
        """Items between commas, or none, and the end."""
        if not self.at(end):
            item()
            while self.at(","):
                item()
            self.need(end)

    def database(self) -> None:
        """relation NAME(COLUMN: SORT, ..) { ROWS } .."""
        while self.at("relation"):
            self.need("a name")
            self.need("(")
            self.list_up_to(")", self.column)
            self.need("{")
            while not self.at("}"):
                self.row()

    def edits(self) -> None:
        """+ NAME ROW - NAME ROW .."""
        while self.at("+", "-"):
            self.need("a name")
            self.row()

    def row(self) -> None:
        """(VALUES) where BOUNDS;"""
        self.need("(")
        self.list_up_to(")", self.value)
        if self.at("where"):
            self.bound()
            while self.at(","):
                self.bound()
        self.need(";")

    def column(self) -> None:
        """NAME: SORT"""
        self.need("a name")
        self.sort()

    def sort(self) -> None:
        """: SORT"""
        self.need(":")
        self.begin("a sort")
        self.need("time", "data", "a name")

    def value(self) -> None:
        """A text, an integer or a point."""
        self.begin("a value")
        if not self.at("a text"):
            self.integer()
            if self.at("+"):
                self.need("a number")
                self.need("n")

    def integer(self) -> None:
        """A number, perhaps after a minus."""
        self.at("-")
        self.need("a number")

    def bound(self) -> None:
        """NAME <= SIDE"""
        self.need("a name")
        self.need("<=", ">=", "=")
        self.offset_name_or(self.integer)

    def offset_name_or(self, other: Callable[[], None]) -> None:
        """A name, perhaps with an offset, or something else."""
        if not self.at("a name"):
            other()
        elif self.at("+", "-"):
            self.need("a number")

    def file(self) -> None:
        """define NAME(COLUMNS) as FORMULA; .. and a query"""
        while self.at("define"):
            self.need("a name")
            self.need("(")
            self.list_up_to(")", self.column)
            self.need("as")
            self.whole_formula()
            self.need(";")
        self.query()

    def query(self) -> None:
        """{ COLUMNS | FORMULA }"""
        self.need("{")
        self.list_up_to("|", self.column)
        self.whole_formula()
        self.need("}")

    def whole_formula(self) -> None:
        """What stands alone: one formula, or in the wide language several with words between them."""
        self.formula()
        while self.is_wide and self.at(*WORDS):
            self.formula()

    def formula(self) -> None:
        """One formula."""
        self.begin("a formula")
        if self.at("not"):
            self.formula()
        elif self.at("exists", "forall"):
            self.variables()
            self.formula()
        elif self.at("("):
            self.group()
        elif self.at("a name"):
            word = self.tokens[self.next - 1].group()
            if self.has_operators and word in OPERATORS and self.at("a name"):
                self.operator(word)
            else:
                self.atom_or_test()
        else:
            self.term()
            self.test()

    def operator(self, word: str) -> None:
        """What goes on after a temporal operator and its variable."""
        self.need("(")
        item = self.whole_formula if word in ("since", "until") else self.integer
        item()
        self.need(",")
        item()
        self.need(")")
        if word in ("once", "always"):
            self.formula()

    def variables(self) -> None:
        """The variable of a quantifier, in the wide language perhaps several, and the sort."""
        self.need("a name")
        while self.is_wide and self.at(","):
            self.need("a name")
        self.sort()

    def group(self) -> None:
        """Formulas in parentheses, joined by one word, or in the wide language by any."""
        if self.is_wide:
            self.whole_formula()
            self.need(")")
            return
        self.formula()
        if self.at("implies"):
            self.formula()
        elif self.at("and"):
            self.formula()
            while self.at("and"):
                self.formula()
        elif self.at("or"):
            self.formula()
            while self.at("or"):
                self.formula()
        self.need(")")

    def atom_or_test(self) -> None:
        """What goes on after a name: an atom, or the left side of a test."""
        if self.at("("):
            self.list_up_to(")", self.argument)
            return
        if self.at("+", "-"):
            self.need("a number")
        self.test()

    def argument(self) -> None:
        """A term of an atom, or in the wide language a '*'."""
        if not (self.is_wide and self.at("*")):
            self.term()

    def term(self) -> None:
        """A text, an integer, or a name with or without an offset."""
        self.begin("a term")
        if not self.at("a text"):
            self.offset_name_or(self.integer)

    def test(self) -> None:
        """What goes on after the left side of a comparison or of 'in'."""
        if self.at("in"):
            self.integer()
            self.need("+")
            self.need("a number")
            self.need("n")
        else:
            self.need(*COMPARISONS, *(["!="] if self.is_wide else []))
            self.term()
