"""Random databases and queries, well-sorted, from a seed. Numbers and periods are small, so that windows are."""

from civil import spelled

TEXTS = ["a", "b", "c", "", "é", 'q"', "\\", "a b", "#", "Zürich", "ab"]
PERIODS = (
    [1, 2],
    [2],
    [2, 3],
    [2, 4],
    [3, 6],
    [1, 2, 3],
    [5],
    [4, 6],
    [2, 3, 4],
    [7],
    [1, 5],
    [2, 10],
    [3, 4, 12],
    [8],
)
SORTS = (["data"], ["data"], ["data"], ["line"], ["data", "line"], ["line", "city"], ["data", "line", "city"])


def quoted(text):
    return '"%s"' % text.replace("\\", "\\\\").replace('"', '\\"')


class Inventor:
    """Invents a database and queries over it; a civil database has dates for many of its instants, a tense query operators."""

    def __init__(self, chance, is_civil=False, is_tense=False):
        self.chance, self.is_civil, self.is_tense = chance, is_civil, is_tense
        self.periods = chance.choice(PERIODS)
        self.sorts = chance.choice(SORTS)
        self.reach = chance.choice((3, 6, 6, 12))
        self.texts = chance.sample(TEXTS, chance.choice((1, 2, 2, 3)))
        self.relations = {}
        self.fresh = 0

    def number(self, reach=None):
        reach = reach or self.reach
        return self.chance.randint(-reach, reach)

    def instant(self):
        return spelled(self.number(), self.chance) if self.is_civil else str(self.number())

    def blank(self):
        return self.chance.choice(("", "", "", " ", "\n", "\t", " # x\n", "\r\n"))

    # Databases

    def database(self):
        names = ("r", "once", "since", "s") if self.is_tense else ("r", "s", "q", "_p1")
        parts = [self.relation(name) for name in self.chance.sample(names, self.chance.choice((1, 2, 2, 3)))]
        return self.blank().join(parts) + self.blank()

    def relation(self, name):
        times = self.chance.choice((0, 1, 1, 1, 2, 2, 2, 3))
        sorts = ["time"] * times + [
            self.chance.choice(self.sorts) for _ in range(self.chance.choice((0, 0, 0, 1, 1, 2)))
        ]
        self.chance.shuffle(sorts)
        names = ("on", "daily", "c2", "weekly", "mon") if self.is_civil else ("c0", "c1", "c2", "c3", "c4")
        columns = list(zip(names, sorts))
        self.relations[name] = columns
        rows = "".join(
            " %s;%s" % (self.row(columns), self.blank()) for _ in range(self.chance.choice((0, 1, 1, 2, 2, 3, 4)))
        )
        return "relation %s(%s) {%s}" % (name, ", ".join("%s: %s" % it for it in columns), rows)

    def value(self, sort):
        if sort != "time":
            return quoted(self.chance.choice(self.texts))
        if self.chance.random() < (0.4 if self.is_civil else 0.15):
            return self.instant()
        return "%d%s+%s%dn" % (self.number(), self.blank(), self.blank(), self.chance.choice(self.periods))

    def row(self, columns):
        names = [name for name, sort in columns if sort == "time"]
        count = self.chance.choice((0, 0, 1, 1, 2, 3)) if names else 0
        bounds = [self.bound(names) for _ in range(count)]
        return "(%s)%s" % (
            ", ".join(self.value(sort) for _, sort in columns),
            " where " + ", ".join(bounds) if bounds else "",
        )

    def bound(self, names):
        sign = self.chance.choice(("<=", ">=", "="))
        if self.chance.random() < 0.5:
            return "%s %s %s" % (self.chance.choice(names), sign, self.instant())
        offset = self.chance.choice(("", " + %d" % abs(self.number()), " - %d" % abs(self.number())))
        return "%s %s %s%s" % (self.chance.choice(names), sign, self.chance.choice(names), offset)

    # Queries

    def query(self, times=None):
        counts = (0, 1, 1, 1, 2) if self.is_tense else (0, 1, 1, 1, 2, 2, 3)
        count = self.chance.choice(counts) if times is None else times
        head = ["time"] * count + [self.sort() for _ in range(self.chance.choice((0, 0, 0, 1, 1, 2)))]
        self.chance.shuffle(head)
        scope = {}
        for i, sort in enumerate(head):
            scope[("always", "until", "h2", "h3")[i] if self.is_tense else "h%d" % i] = sort
        deep = {0: 3, 1: 2, 2: 1, 3: 0}[min(count, 3)]
        body = self.compound(self.chance.choice((2, 3, 3, 4)), scope, deep)
        return "{ %s | %s }%s" % (", ".join("%s: %s" % it for it in scope.items()), body, self.blank())

    def sort(self):
        known = [sort for columns in self.relations.values() for _, sort in columns if sort != "time"]
        return self.chance.choice(known + ["data"])

    def formula(self, size, scope, deep):
        if size == 0 or self.chance.random() < 0.22:
            return self.leaf(scope)
        return self.compound(size, scope, deep)

    def compound(self, size, scope, deep):
        if self.is_tense and deep and "time" in scope.values() and self.chance.random() < 0.5:
            return self.operator(size, scope, deep)
        kind = self.chance.random()
        if kind < 0.14:
            return "not " + self.formula(size - 1, scope, deep)
        if kind < 0.20:
            return "(%s%s)" % (self.formula(size - 1, scope, deep), self.blank())
        if kind < 0.40:
            return self.rule(scope, deep)
        if kind < 0.62:
            word = self.chance.choice((" and ", " or "))
            return "(%s)" % word.join(self.formula(size - 1, scope, deep) for _ in range(self.chance.choice((2, 2, 3))))
        if kind < 0.69:
            return "(%s implies %s)" % (self.formula(size - 1, scope, deep), self.formula(size - 1, scope, deep))
        return self.quantified(size, scope, deep)

    def operator(self, size, scope, deep):
        """A temporal operator over a variable, perhaps one that another operator around it has."""
        name = self.chance.choice([name for name, sort in scope.items() if sort == "time"])
        word = self.chance.choice(("once", "always", "since", "until"))
        inner = lambda: self.formula(size - 1, scope, deep - 1)
        if word in ("since", "until"):
            return "%s %s%s(%s, %s)" % (word, name, self.blank(), inner(), inner())
        start = self.number()
        end = start + self.chance.choice((-1, 0, 0, 1, 2, 3, 5, 12))
        return "%s %s%s(%d,%s%d) %s" % (word, name, self.blank(), start, self.blank(), end, inner())

    def quantified(self, size, scope, deep):
        sort = "time" if deep and self.chance.random() < 0.65 else self.sort()
        self.fresh += 1
        name = "%s%d" % (self.chance.choice(("v", "x_", "N")), self.fresh)
        word = self.chance.choice(("exists", "exists", "forall"))
        inner = self.formula(size - 1, {**scope, name: sort}, deep - (sort == "time"))
        return "%s %s: %s%s %s" % (word, name, sort, self.blank(), inner)

    def rule(self, scope, deep):
        """Atoms and tests on their variables, as queries over timetables have, with quantifiers before them."""
        inner, front = dict(scope), ""
        while deep and self.chance.random() < 0.6:
            self.fresh += 1
            deep -= 1
            inner["v%d" % self.fresh] = "time"
            front += "%s v%d: time " % (
                self.chance.choice(("exists", "exists", "exists", "not exists", "forall")),
                self.fresh,
            )
        names = [name for name, sort in inner.items() if sort == "time"]
        parts = [self.atom(inner) for _ in range(self.chance.choice((1, 2, 2, 3)))]
        if names:
            parts += [self.comparison(names) for _ in range(self.chance.choice((0, 1, 1, 2)))]
        if self.chance.random() < 0.4:
            parts.append("not " + self.atom(inner))
        self.chance.shuffle(parts)
        return front + "(%s)" % " and ".join(parts)

    def atom(self, scope):
        name, columns = self.chance.choice(list(self.relations.items()))
        names = [name for name, sort in scope.items() if sort == "time"]
        terms = [self.time_term(names) if sort == "time" else self.data_term(sort, scope) for _, sort in columns]
        return "%s(%s)" % (name, ", ".join(terms))

    def comparison(self, names):
        return "%s %s %s" % (
            self.time_term(names),
            self.chance.choice(("<=", ">=", "<", ">", "=")),
            self.time_term(names),
        )

    def time_term(self, names):
        if not names or self.chance.random() < 0.12:
            return str(self.number())
        name = self.chance.choice(names)
        if self.chance.random() < 0.35:
            return "%s %s %d" % (name, self.chance.choice("+-"), abs(self.number()))
        return name

    def data_term(self, sort, scope):
        names = [name for name, it in scope.items() if it == sort]
        if not names or self.chance.random() < 0.25:
            return quoted(self.chance.choice(self.texts + ["new"]))
        return self.chance.choice(names)

    def leaf(self, scope):
        names = [name for name, sort in scope.items() if sort == "time"]
        kind = self.chance.random()
        if kind < 0.60:
            return self.atom(scope)
        if kind < 0.66:
            sort = self.sort()
            return "%s = %s" % (self.data_term(sort, scope), self.data_term(sort, scope))
        if kind < 0.78:
            return "%s in %d+%dn" % (self.time_term(names), self.number(), self.chance.choice(self.periods))
        return self.comparison(names)
