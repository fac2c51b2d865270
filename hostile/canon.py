"""The canonical text of an answer, made from its definition, and the cases that are held to it.

The times of an answer, for some texts, are a set of integers that repeats at both ends. Whether an integer is in it
is decided by its meaning. Beyond the distance that the body sees, what is in the set hangs on the remainder by the
query's period alone, on either side; so some periods after that distance show how it goes on.
"""

import math
import random

from invent import TEXTS, quoted
from language import Relation, Row, read_database, read_query, relation_text
from meaning import Meaning, TooHard, Universe
from opinion import Case, compare, far_from_zero
from plan import Plan

NEEDS_ONE = b"refused: canon needs one time column\n"


def least_period(bits, size):
    """The least number by which a word of so many bits repeats, where it does so twice."""
    return next(by for by in range(1, size) if not (bits ^ bits >> by) & (1 << size - by) - 1)


class Times:
    """The times of an answer for some texts: what is in a universe whose two ends are whole periods, twice each."""

    def __init__(self, bits, universe, period):
        self.numbers, self.universe = list(universe.members(bits)), universe
        ends = bits & (1 << 2 * period) - 1, bits >> universe.size - 2 * period
        self.period = math.lcm(*(least_period(end, 2 * period) for end in ends))

    def stretches(self, period):
        """Remainder, first and last time of each stretch without a gap; none for an end that it doesn't have."""
        least, most = self.universe.stretches[0]
        of_remainder = {}
        for number in self.numbers:
            found = of_remainder.setdefault(number % period, [])
            if found and found[-1][1] == number - period:
                found[-1][1] = number
            else:
                found.append([number, number])
        for remainder, found in sorted(of_remainder.items()):
            for first, last in found:
                yield remainder, first if first - period >= least else None, last if last + period <= most else None


def times_of_answer(meaning):
    """The times for each combination of texts that has any."""
    (column,), found = meaning.columns()[0], {}
    far = meaning.facts[id(meaning.query.body)][1] + 3 * meaning.period + 1
    universe = Universe.between(-far, far)
    for texts in meaning.texts_of_head():
        bits = meaning.held(meaning.query.body, column.name, texts, universe)
        if bits:
            found[tuple(texts.values())] = Times(bits, universe, meaning.period)
    return found


def canonical_rows(meaning, by=0):
    """The rows of the canonical answer; all times moved by a number."""
    times = times_of_answer(meaning)
    period = math.lcm(*(it.period for it in times.values()))
    at = next(i for i, column in enumerate(meaning.query.head) if column.is_time)
    rows = []
    for texts, of_texts in times.items():
        for remainder, first, last in of_texts.stretches(period):
            bounds = [(0, 1, -first - by)] if first is not None else []
            bounds += [(1, 0, last + by)] if last is not None else []
            point = ((remainder + by) % period, period)
            rows.append(
                (texts, point, -math.inf if first is None else first, [*texts[:at], point, *texts[at:]], bounds)
            )
    return [Row(values, bounds) for *_, values, bounds in sorted(rows, key=lambda row: row[:3])]


def canonical_text(meaning, rows):
    """What ask writes with canon=yes."""
    return (relation_text(Relation("answer", meaning.query.head, rows)) if rows else "Empty\n").encode()


def has_one(query):
    return sum(column.is_time for column in query.head) == 1


# Random queries


def canonical(program, case):
    """The canonical text, also of the query's double negation and under guards; or the refusal of another head."""
    words = ["ask", "canon=yes", *case.keys("ask")]
    if not has_one(case.parsed):
        program.expect(NEEDS_ONE, 4, *words, **case.files)
        return
    meaning = case.meaning()
    wanted = canonical_text(meaning, canonical_rows(meaning))
    program.expect(wanted, 0, *words, **case.files)
    twice_not = case.query.replace(b"|", b"| not not ", 1)
    program.expect(wanted, 0, *words, database=case.database, query=twice_not)
    guarded = [*(word for word in words if not word.startswith("plan=")), "plan=guarded"]
    program.expect(wanted, 0, *guarded, **case.files)


def canonical_cap(program, case):
    """As many rows as the cap, and fewer, where the case has one time column."""
    if has_one(case.parsed):
        plan = Plan(case.relations, case.plain, case.budget)
        try_caps(program, case.chance, plan, case.meaning(), case.keys("ask"), case.files)


def try_caps(program, chance, plan, meaning, keys, files):
    """The cap at what is needed, and below it. A step with more cells than the cap is told before the rows are."""
    rows, words = canonical_rows(meaning), ["ask", *keys, "canon=yes"]
    cells = [plan.cells(number) for number in range(1, len(plan.steps) + 1)]
    enough = max(*cells, len(rows), 1)
    program.expect(canonical_text(meaning, rows), 0, *words, "cap=%d" % enough, **files)
    for less in {len(rows) - 1, enough - 1, chance.randint(0, enough - 1)} - {0, -1}:
        step = next((i for i, count in enumerate(cells, 1) if count > less), None)
        what = "canonical rows" if step is None else "cells at step %d" % step
        program.expect(("refused: more than %d %s\n" % (less, what)).encode(), 5, *words, "cap=%d" % less, **files)


def canonical_far(program, case):
    """The same case, far from zero."""
    if not has_one(case.parsed):
        return
    by, files = far_from_zero(case)
    meaning = case.meaning()
    wanted = canonical_text(meaning, canonical_rows(meaning, by))
    keys = ["tense=yes"] if case.is_tense else []
    program.expect(wanted, 0, "ask", "canon=yes", *keys, **files)


def queries(program, tally, seeds, budget):
    """Random queries of one time column, some of them with operators or over dates, and queries of any head."""
    parts = [canonical, canonical_cap]
    compare(program, tally, (Case(seed, budget, times=1) for seed in seeds), [*parts, canonical_far])
    wider = (Case(seed, budget, is_civil=seed % 2 == 0, is_tense=True, times=1) for seed in seeds if seed % 3 == 0)
    compare(program, tally, wider, parts)
    compare(program, tally, (Case(seed, budget) for seed in seeds if seed % 3 == 0), parts)


# Sets that are written down in several ways

PERIODS = (1, 2, 3, 4, 6, 8, 9, 10, 12, 16, 24, 27, 30, 36, 60, 64, 72, 90)
QUERIES = (
    "s(%s)",
    "not not s(%s)",
    "((s(%s) and t in 0+2n) or (t in 1+2n and s(%s)))",
    "((s(%s) and t <= 7) or (s(%s) and t >= -3))",
    "((s(%s) implies t in 1+3n) implies (s(%s) and t in 0+1n))",
    "(s(%s) and (t in 4+5n or not t in 4+5n))",
    "exists u: time (u = t and s(%s))",
    "not (not s(%s) or t < t)",
)


class Sets:
    """Rows of one time column and some texts, told as tuples of an offset, a period, two ends and the texts."""

    def __init__(self, seed):
        self.chance = random.Random("sets %d" % seed)
        self.whole = self.chance.choice(PERIODS)
        self.divisors = [it for it in range(1, self.whole + 1) if self.whole % it == 0]
        self.sorts = self.chance.choice(([], ["data"], ["line"], ["line", "city"]))
        self.texts = [text for text in self.chance.sample(TEXTS, 3) if text != "\\"]
        self.reach = self.chance.choice((5, 40, 200))
        self.rows = [row for _ in range(self.chance.choice((0, 1, 2, 3, 4, 5, 6))) for row in self.family()]

    def family(self):
        """One point, an instant, or the points whose remainders by a divisor are one, with ends that may differ."""
        texts = [self.chance.choice(self.texts) for _ in self.sorts]
        offset = self.chance.randint(-self.reach, self.reach)
        if self.chance.random() < 0.2:
            return [(0, 1, offset, offset, texts)]
        period = self.chance.choice(self.divisors)
        step = self.chance.choice([it for it in self.divisors if period % it == 0])
        ends, is_ragged = self.ends(), self.chance.random() < 0.5
        return [
            (offset + by, period, *(self.ends() if is_ragged else ends), texts)
            for by in range(0, period, step)
            if self.chance.random() < 0.97
        ]

    def ends(self):
        first, last = (self.chance.randint(-self.reach, self.reach) for _ in range(2))
        shape = self.chance.choice("nnnbefx")
        if shape == "x" and first > last:
            first, last = last, first
        return (None if shape in "ne" else first), (None if shape in "nb" else last) if shape != "f" else first + 2

    def rewritten(self):
        """Other rows with the same tuples: cut at an instant, cut into residues, twice, and in another order."""
        rows = []
        for offset, period, first, last, texts in self.rows:
            times = self.chance.choice((1, 1, 2, 3))
            for by in range(times):
                rows.append((offset + by * period, times * period, first, last, texts))
        for _ in range(self.chance.randint(0, 4) if rows else 0):
            offset, period, first, last, texts = rows.pop(self.chance.randrange(len(rows)))
            at, over = self.chance.randint(-self.reach, self.reach), self.chance.choice((0, 1, 9))
            rows.append((offset, period, first, at if last is None else min(at, last), texts))
            rows.append((offset, period, at + 1 - over if first is None else max(at + 1 - over, first), last, texts))
        rows += self.chance.sample(rows, len(rows) // 4)
        self.chance.shuffle(rows)
        return rows

    def database(self, rows):
        columns = ["t: time"] + ["d%d: %s" % it for it in enumerate(self.sorts)]
        lines = "".join("  %s;\n" % self.row(*row) for row in rows)
        return ("relation s(%s) {\n%s}\n" % (", ".join(columns), lines)).encode()

    @staticmethod
    def row(offset, period, first, last, texts):
        bounds = ["t %s %d" % it for it in ((">=", first), ("<=", last)) if it[1] is not None]
        values = ", ".join(["%d+%dn" % (offset, period), *map(quoted, texts)])
        return "(%s)%s" % (values, " where " + ", ".join(bounds) if bounds else "")

    def head(self):
        columns = ["t: time"] + ["d%d: %s" % it for it in enumerate(self.sorts)]
        self.chance.shuffle(columns)
        return columns

    def query(self, head, body):
        terms = ", ".join(["t"] + ["d%d" % i for i in range(len(self.sorts))])
        return ("{ %s | %s }" % (", ".join(head), body.replace("%s", terms))).encode()


def sets(program, tally, seeds, budget):
    """One set of answers has one text, however its database and its query are written, and so has that text itself."""
    for seed in seeds:
        case = Sets(seed)
        database, head = case.database(case.rows), case.head()
        relations, plain = read_database(database), case.query(head, "s(%s)")
        parsed = read_query(plain, relations)
        try:
            meaning = Meaning(relations, parsed, budget)
            rows = canonical_rows(meaning)
            files = {"database": database, "query": plain}
            try_caps(program, case.chance, Plan(relations, parsed, budget), meaning, [], files)
        except TooHard:
            tally.too_hard()
            continue
        wanted = canonical_text(meaning, rows)
        for body in case.chance.sample(QUERIES, 3):
            rewritten = {"database": case.database(case.rewritten()), "query": case.query(head, body)}
            program.expect(wanted, 0, "ask", "canon=yes", **rewritten)
        if rows:
            again = "answer(%s)" % ", ".join(column.partition(":")[0] for column in head)
            program.expect(wanted, 0, "ask", "canon=yes", database=wanted, query=case.query(head, again))
