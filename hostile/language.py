"""A second reader of databases and queries, from the grammar and the rules on faults alone.

read_database and read_query give a tree, or raise Fault with the kind and the place of the one fault.
"""

from dataclasses import dataclass, field
from typing import NamedTuple, Optional

LIMIT = 1 << 62
RESERVED = {"relation", "where", "time", "data", "n", "exists", "forall", "not", "and", "or", "implies", "in"}
SYMBOLS = ("<=", ">=", "(", ")", "{", "}", ",", ":", ";", "|", "+", "-", "<", ">", "=")
COMPARISONS = ("<=", ">=", "<", ">", "=")
OPERATORS = ("once", "always", "since", "until")
DATABASE_KINDS = {
    "Utf8": 1,
    "Syntax": 2,
    "Number": 3,
    "Period": 4,
    "Name": 5,
    "Arity": 6,
    "Sort": 7,
    "Column": 8,
    "Wide": 9,
    "TextTooLong": 10,
}
EDIT_KINDS = {**DATABASE_KINDS, "UnknownRelation": 11}
QUERY_KINDS = {
    "Utf8": 1,
    "Syntax": 2,
    "Number": 3,
    "Period": 4,
    "Deep": 5,
    "UnknownRelation": 6,
    "Arity": 7,
    "Sort": 8,
    "Unbound": 9,
    "Rebound": 10,
    "Wide": 11,
    "TextTooLong": 12,
    "UnknownSort": 13,
}


class Fault(Exception):
    def __init__(self, kind, place):
        super().__init__("%s at %d:%d" % (kind, *place))
        self.kind, self.place = kind, place


class Token(NamedTuple):
    kind: str  # name, word, number, text, symbol, end, bad
    text: object
    place: tuple


class Stop(Exception):
    """The first token that no text of the grammar has after the tokens before it."""


class Lexer:
    def __init__(self, data, kinds):
        self.kinds, self.faults = kinds, []
        try:
            data.decode("utf-8")
        except UnicodeDecodeError as error:
            raise Fault("Utf8", self.place_in(data, error.start))
        self.data, self.at, self.line, self.start = data, 0, 1, 0
        self.token = self.next()

    @staticmethod
    def place_in(data, at):
        return (1 + data.count(b"\n", 0, at), at - (data.rfind(b"\n", 0, at) + 1) + 1)

    def place(self):
        return (self.line, self.at - self.start + 1)

    def skip(self):
        data = self.data
        while self.at < len(data):
            byte = data[self.at]
            if byte in b" \t\r":
                self.at += 1
            elif byte == 10:
                self.at += 1
                self.line, self.start = self.line + 1, self.at
            elif byte == 35:
                end = data.find(b"\n", self.at)
                self.at = len(data) if end < 0 else end
            else:
                return

    def run(self, wanted):
        begin = self.at
        while self.at < len(self.data) and self.data[self.at] in wanted:
            self.at += 1
        return self.data[begin : self.at].decode()

    LETTERS = frozenset(b"abcdefghijklmnopqrstuvwxyzABCDEFGHIJKLMNOPQRSTUVWXYZ_")
    DIGITS = frozenset(b"0123456789")
    BOTH = LETTERS | DIGITS

    def next(self):
        self.skip()
        data, place = self.data, self.place()
        if self.at >= len(data):
            return Token("end", "", place)
        byte = data[self.at]
        if byte in self.LETTERS:
            word = self.run(self.BOTH)
            return Token("word" if word in RESERVED else "name", word, place)
        if byte in self.DIGITS:
            number = self.run(self.DIGITS).lstrip("0") or "0"
            value = int(number) if len(number) <= 40 else LIMIT + 1
            if value > LIMIT:
                self.faults.append((place, "Number"))
            return Token("number", value, place)
        if byte == 34:
            return self.text_token(place)
        for symbol in SYMBOLS:
            if data.startswith(symbol.encode(), self.at):
                self.at += len(symbol)
                return Token("symbol", symbol, place)
        return Token("bad", "", place)

    def text_token(self, place):
        data, text = self.data, bytearray()
        self.at += 1
        while True:
            if self.at >= len(data):
                return Token("bad", "", self.place())
            byte = data[self.at]
            if byte == 34:
                self.at += 1
                if len(text) > 255:
                    self.faults.append((place, "TextTooLong"))
                return Token("text", bytes(text), place)
            if byte == 92 and data[self.at + 1 : self.at + 2] in (b'"', b"\\"):
                text.append(data[self.at + 1])
                self.at += 2
            elif byte < 32 or byte == 127 or byte == 92:
                return Token("bad", "", self.place())
            else:
                text.append(byte)
                self.at += 1

    # Taking tokens

    def sees(self, kind, *texts):
        return self.token.kind == kind and (not texts or self.token.text in texts)

    def take(self, kind, *texts):
        if not self.sees(kind, *texts):
            raise Stop
        taken = self.token
        self.token = self.next()
        return taken

    def symbol(self, *texts):
        return self.take("symbol", *texts)

    def fault(self, kind, place):
        self.faults.append((place, kind))

    def raise_first(self, faults):
        if faults:
            place, _, kind = min((place, self.kinds[kind], kind) for place, kind in faults)
            raise Fault(kind, place)

    def whole(self, parse):
        """What parse makes of all tokens, or the earliest fault of the grammar."""
        try:
            made = parse()
            self.take("end")
        except Stop:
            self.fault("Syntax", self.token.place)
            made = None
        self.raise_first(self.faults)
        return made

    # What both grammars share

    def column(self):
        name = self.take("name")
        self.symbol(":")
        if not (self.sees("word", "time", "data") or self.sees("name")):
            raise Stop
        sort = self.take(self.token.kind)
        return Column(name.text, sort.text, name.place, sort.place)

    def listing(self, begins, item):
        """No item, or items with commas between them."""
        found = []
        if begins():
            found.append(item())
            while self.sees("symbol", ","):
                self.symbol(",")
                found.append(item())
        return found

    def integer(self):
        sign = -1 if self.sees("symbol", "-") and self.symbol("-") else 1
        return sign * self.take("number").text

    def period(self):
        number = self.take("number")
        if number.text == 0:
            self.fault("Period", number.place)
        self.take("word", "n")
        return number.text

    def named_offset(self):
        """The offset after a name, where one stands."""
        if self.sees("symbol", "+", "-"):
            sign = 1 if self.symbol("+", "-").text == "+" else -1
            return sign * self.take("number").text
        return None


@dataclass
class Column:
    name: str
    sort: str
    place: tuple = (0, 0)
    sort_place: tuple = (0, 0)

    @property
    def is_time(self):
        return self.sort == "time"


@dataclass
class Row:
    values: list  # (offset, period) or bytes
    bounds: list  # (left, right, most) by numbers of time columns, 0 for zero
    place: tuple = (0, 0)


@dataclass
class Relation:
    name: str
    columns: list
    rows: list = field(default_factory=list)

    @property
    def times(self):
        return [column.name for column in self.columns if column.is_time]


# Databases


class Rows:
    """Reads rows of relations, and keeps the faults of what they say."""

    def __init__(self, lexer):
        self.lexer, self.said = lexer, []

    def row(self, made):
        lexer, said = self.lexer, self.said
        place = lexer.token.place
        lexer.symbol("(")
        begins = lambda: lexer.sees("text") or lexer.sees("number") or lexer.sees("symbol", "-")
        values = lexer.listing(begins, self.value)
        lexer.symbol(")")
        if len(values) != len(made.columns):
            said.append((place, "Arity"))
        bounds, points = [], []
        time = 0
        for (written, at), column in zip(values, made.columns):
            is_text = isinstance(written, bytes)
            if is_text == column.is_time:
                said.append((at, "Sort"))
            time += column.is_time
            if not is_text and written[1] is None:
                bounds += [(time, 0, written[0]), (0, time, -written[0])]
        for written, _ in values:
            points.append(written if isinstance(written, bytes) else (0, 1) if written[1] is None else written)
        if lexer.sees("word", "where"):
            lexer.take("word")
            bounds += self.bound(made)
            while lexer.sees("symbol", ","):
                lexer.symbol(",")
                bounds += self.bound(made)
        lexer.symbol(";")
        return Row(points, bounds, place)

    def value(self):
        lexer = self.lexer
        place = lexer.token.place
        if lexer.sees("text"):
            return lexer.take("text").text, place
        number = lexer.integer()
        if lexer.sees("symbol", "+"):
            lexer.symbol("+")
            return (number, lexer.period()), place
        return (number, None), place

    def number_of(self, made, name):
        if name.text in made.times:
            return made.times.index(name.text) + 1
        self.said.append((name.place, "Column"))
        return 0

    def bound(self, made):
        lexer = self.lexer
        left = self.number_of(made, lexer.take("name"))
        sign = lexer.symbol("<=", ">=", "=").text
        if lexer.sees("name"):
            right = self.number_of(made, lexer.take("name"))
            most = lexer.named_offset() or 0
        else:
            right, most = 0, lexer.integer()
        at_most, at_least = (left, right, most), (right, left, -most)
        return [at_most] * (sign != ">=") + [at_least] * (sign != "<=")


def read_database(data):
    lexer = Lexer(data, DATABASE_KINDS)
    rows, relations = Rows(lexer), {}

    def relation():
        lexer.take("word", "relation")
        name = lexer.take("name")
        if name.text in relations:
            rows.said.append((name.place, "Name"))
        lexer.symbol("(")
        columns = lexer.listing(lambda: lexer.sees("name"), lexer.column)
        lexer.symbol(")")
        rows.said.extend(column_faults(columns))
        made = Relation(name.text, columns)
        lexer.symbol("{")
        while lexer.sees("symbol", "("):
            made.rows.append(rows.row(made))
        lexer.symbol("}")
        relations.setdefault(name.text, made)

    def all_relations():
        while not lexer.sees("end"):
            relation()

    lexer.whole(all_relations)
    lexer.raise_first(rows.said)
    return relations


@dataclass
class Edit:
    is_added: bool
    relation: str
    row: Row


def read_edits(data, relations):
    lexer = Lexer(data, EDIT_KINDS)
    rows, edits = Rows(lexer), []

    def edit():
        sign = lexer.symbol("+", "-")
        name = lexer.take("name")
        known = relations.get(name.text)
        said = len(rows.said)
        row = rows.row(known or Relation(name.text, []))
        if known is None:
            # Of a row of no relation nothing else is said.
            rows.said[said:] = [(name.place, "UnknownRelation")]
        edits.append(Edit(sign.text == "+", name.text, row))

    def all_edits():
        while not lexer.sees("end"):
            edit()

    lexer.whole(all_edits)
    lexer.raise_first(rows.said)
    return edits


def column_faults(columns):
    seen, counts = set(), [0, 0]
    for column in columns:
        if column.name in seen:
            yield column.place, "Name"
        seen.add(column.name)
        counts[column.is_time] += 1
        if counts[column.is_time] == 9:
            yield column.place, "Wide"


# Queries


@dataclass
class Term:
    kind: str  # int, text, var, shifted
    value: object  # the number, the bytes, or the name
    plus: int = 0
    place: tuple = (0, 0)


@dataclass
class Formula:
    kind: str  # atom, compare, member, not, and, or, implies, group, exists, forall, or one of the operators
    place: tuple = (0, 0)
    parts: list = field(default_factory=list)  # formulas
    terms: list = field(default_factory=list)  # of an operator its variable
    name: str = ""  # of an atom's relation, or a comparison's sign
    binder: Optional[Column] = None
    point: Optional[tuple] = None
    ends: Optional[tuple] = None  # of once and always


@dataclass
class Query:
    head: list
    body: Formula


def parse_query(data, is_tense=False):
    lexer = Lexer(data, QUERY_KINDS)

    def query():
        lexer.symbol("{")
        head = lexer.listing(lambda: lexer.sees("name"), lexer.column)
        lexer.symbol("|")
        body = formula(1)
        lexer.symbol("}")
        return Query(head, body)

    def formula(depth):
        place = lexer.token.place
        if depth == 65:
            lexer.fault("Deep", place)
        if depth > 65:
            raise Stop  # what stands deeper is after the fault that is reported
        if lexer.sees("word", "not"):
            lexer.take("word")
            return Formula("not", place, [formula(depth + 1)])
        if lexer.sees("word", "exists", "forall"):
            kind = lexer.take("word").text
            binder = lexer.column()
            return Formula(kind, place, [formula(depth + 1)], binder=binder)
        if lexer.sees("symbol", "("):
            return bracket(place, depth)
        if lexer.sees("name"):
            name = lexer.take("name")
            if is_tense and name.text in OPERATORS and lexer.sees("name"):
                return operator(name, depth)
            if lexer.sees("symbol", "("):
                lexer.symbol("(")
                terms = lexer.listing(begins_term, term)
                lexer.symbol(")")
                return Formula("atom", place, terms=terms, name=name.text)
            return test(place, variable(name))
        return test(place, term())

    def operator(word, depth):
        named = lexer.take("name")
        variable = Term("var", named.text, place=named.place)
        lexer.symbol("(")
        if word.text in ("since", "until"):
            parts = [formula(depth + 1)]
            lexer.symbol(",")
            parts.append(formula(depth + 1))
            lexer.symbol(")")
            return Formula(word.text, word.place, parts, [variable])
        start = lexer.integer()
        lexer.symbol(",")
        end = lexer.integer()
        lexer.symbol(")")
        return Formula(word.text, word.place, [formula(depth + 1)], [variable], ends=(start, end))

    def bracket(place, depth):
        lexer.symbol("(")
        parts = [formula(depth + 1)]
        kind = "group"
        if lexer.sees("word", "implies"):
            kind = lexer.take("word").text
            parts.append(formula(depth + 1))
        elif lexer.sees("word", "and", "or"):
            kind = lexer.token.text
            while lexer.sees("word", kind):
                lexer.take("word")
                parts.append(formula(depth + 1))
        lexer.symbol(")")
        return Formula(kind, place, parts)

    def begins_term():
        return lexer.sees("name") or lexer.sees("text") or lexer.sees("number") or lexer.sees("symbol", "-")

    def variable(name):
        plus = lexer.named_offset()
        return Term("var" if plus is None else "shifted", name.text, plus or 0, name.place)

    def term():
        place = lexer.token.place
        if lexer.sees("name"):
            return variable(lexer.take("name"))
        if lexer.sees("text"):
            return Term("text", lexer.take("text").text, place=place)
        return Term("int", lexer.integer(), place=place)

    def test(place, left):
        if lexer.sees("word", "in"):
            lexer.take("word")
            offset = lexer.integer()
            lexer.symbol("+")
            return Formula("member", place, terms=[left], point=(offset, lexer.period()))
        sign = lexer.symbol(*COMPARISONS).text
        return Formula("compare", place, terms=[left, term()], name=sign)

    return lexer.whole(query)


class Sorts:
    """The faults of what a query says over a database."""

    def __init__(self, relations):
        self.relations, self.faults = relations, []
        self.sorts = {column.sort for it in relations.values() for column in it.columns} | {"time", "data"}

    def fault(self, kind, place):
        self.faults.append((place, QUERY_KINDS[kind], kind))

    def binder(self, column, scope):
        if column.sort not in self.sorts:
            self.fault("UnknownSort", column.sort_place)
        if column.name in scope:
            self.fault("Rebound", column.place)

    def query(self, query):
        scope, counts = {}, [0, 0]
        for column in query.head:
            self.binder(column, scope)
            counts[column.is_time] += 1
            if counts[column.is_time] == 9:
                self.fault("Wide", column.place)
            scope.setdefault(column.name, column)
        self.formula(query.body, scope, None)

    def formula(self, it, scope, taken_by):
        """The binders whose variables occur free, by their identity."""
        free = {}
        if it.kind in ("exists", "forall"):
            self.binder(it.binder, scope)
            free.update(self.formula(it.parts[0], {**scope, it.binder.name: it.binder}, it.binder))
            free.pop(id(it.binder), None)
        for part in it.parts if it.kind not in ("exists", "forall") else []:
            free.update(self.formula(part, scope, None))
        if it.kind == "atom":
            self.atom(it, scope)
        elif it.kind in ("compare", "member"):
            self.test(it, scope)
        for term in it.terms:
            if term.kind in ("var", "shifted"):
                if term.value in scope:
                    free[id(scope[term.value])] = scope[term.value]
                    if term.kind == "shifted" and not scope[term.value].is_time:
                        self.fault("Sort", term.place)
                else:
                    self.fault("Unbound", term.place)
        counted = {**free, id(taken_by): taken_by} if taken_by else free
        times = sum(binder.is_time for binder in counted.values())
        if times > 8 or len(counted) - times > 8:
            self.fault("Wide", it.place)
        return free

    def sort_of(self, term, scope):
        """A sort, "text" for a text, which has any data sort, or none for a variable without a binder."""
        if term.kind == "var":
            return scope[term.value].sort if term.value in scope else None
        if term.kind == "shifted":
            return "time" if term.value in scope else None
        return "time" if term.kind == "int" else "text"

    def atom(self, it, scope):
        if it.name not in self.relations:
            return self.fault("UnknownRelation", it.place)
        columns = self.relations[it.name].columns
        if len(columns) != len(it.terms):
            self.fault("Arity", it.place)
        for term, column in zip(it.terms, columns):
            sort = self.sort_of(term, scope)
            if sort is not None and not (sort == column.sort or sort == "text" and not column.is_time):
                self.fault("Sort", term.place)

    def test(self, it, scope):
        sorts = [self.sort_of(term, scope) for term in it.terms]
        if it.name != "=":
            for term, sort in zip(it.terms, sorts):
                if sort not in ("time", None):
                    self.fault("Sort", term.place)
        elif None not in sorts:
            left, right = sorts
            fits = left == right or "text" in sorts and "time" not in sorts
            if not fits:
                self.fault("Sort", it.terms[1].place)


def check_sorts(query, relations):
    sorts = Sorts(relations)
    sorts.query(query)
    if sorts.faults:
        place, _, kind = min(sorts.faults)
        raise Fault(kind, place)


def read_query(data, relations):
    query = parse_query(data)
    check_sorts(query, relations)
    return query


# Texts of the program


def quoted(text):
    return '"%s"' % text.decode().replace("\\", "\\\\").replace('"', '\\"')


def bound_text(bound, names):
    left, right, most = bound
    if right == 0:
        return "%s <= %d" % (names[left - 1], most)
    if left == 0:
        return "%s >= %d" % (names[right - 1], -most)
    offset = "" if most == 0 else " + %d" % most if most > 0 else " - %d" % -most
    return "%s <= %s%s" % (names[left - 1], names[right - 1], offset)


def row_text(values, bounds, names):
    shown = [quoted(it) if isinstance(it, bytes) else "%d+%dn" % (it[0] % it[1], it[1]) for it in values]
    where = " where " + ", ".join(bound_text(it, names) for it in bounds) if bounds else ""
    return "  (%s)%s;\n" % (", ".join(shown), where)


def relation_text(relation):
    head = "relation %s(%s) {\n" % (relation.name, ", ".join("%s: %s" % (it.name, it.sort) for it in relation.columns))
    return head + "".join(row_text(row.values, row.bounds, relation.times) for row in relation.rows) + "}\n"
