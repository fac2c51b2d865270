"""A second planner: the core form, the steps with their periods and reaches, and the cells that each step inhabits."""

import itertools
import math
from dataclasses import dataclass

from language import Formula, LIMIT, Term, quoted
from meaning import Meaning, free_names

TURNED = {">=": "<=", ">": "<"}
DENIED = {"<=": "<", "<": "<=", ">=": "<", ">": "<="}


def compare(sign, left, right):
    return Formula("compare", terms=[left, right], name=sign)


def no(it):
    return Formula("not", parts=[it])


def listed(kind, parts):
    """An and or an or; the elements of an inner one of the same kind stand in its place."""
    flat = [inner for it in parts for inner in (it.parts if it.kind == kind else [it])]
    return Formula(kind, parts=flat)


def sort_element(column):
    return Formula("sort", terms=[Term("var", column.name)], name=column.sort)


class CoreForm:
    def __init__(self, relations, query):
        self.named = any(column.sort not in ("time", "data") for it in relations.values() for column in it.columns)
        self.sorts = {}
        self.scope = {it.name: it.sort for it in query.head}
        body = self.pos(query.body)
        if self.named:
            body = listed("and", [*(sort_element(it) for it in query.head if not it.is_time), body])
        self.form = body

    def is_time(self, term):
        return term.kind in ("int", "shifted") or term.kind == "var" and self.scope[term.value] == "time"

    def pos(self, it):
        kind, parts = it.kind, it.parts
        if kind == "compare":
            left, right = it.terms
            if it.name == "=" and not self.is_time(left):
                return Formula("equal", terms=it.terms)
            return compare(TURNED[it.name], right, left) if it.name in TURNED else compare(it.name, left, right)
        if kind in ("atom", "member"):
            return it
        if kind == "not":
            return self.neg(parts[0])
        if kind == "group":
            return self.pos(parts[0])
        if kind in ("and", "or"):
            return listed(kind, [self.pos(part) for part in parts])
        if kind == "implies":
            return listed("or", [self.neg(parts[0]), self.pos(parts[1])])
        found = self.quantified(it.binder, lambda: self.pos(parts[0]) if kind == "exists" else self.neg(parts[0]))
        return found if kind == "exists" else no(found)

    def neg(self, it):
        kind, parts = it.kind, it.parts
        if kind == "compare":
            left, right = it.terms
            if it.name != "=":
                return (
                    compare(DENIED[it.name], right, left)
                    if it.name in ("<=", "<")
                    else compare(DENIED[it.name], left, right)
                )
            if self.is_time(left):
                return Formula("or", parts=[compare("<", left, right), compare("<", right, left)])
            return no(Formula("equal", terms=it.terms))
        if kind in ("atom", "member"):
            return no(it)
        if kind == "not":
            return self.pos(parts[0])
        if kind == "group":
            return self.neg(parts[0])
        if kind == "and":
            return no(listed("and", [self.pos(part) for part in parts]))
        if kind == "or":
            return listed("and", [self.neg(part) for part in parts])
        if kind == "implies":
            return listed("and", [self.pos(parts[0]), self.neg(parts[1])])
        found = self.quantified(it.binder, lambda: self.pos(parts[0]) if kind == "exists" else self.neg(parts[0]))
        return no(found) if kind == "exists" else found

    def quantified(self, binder, body):
        before = self.scope.get(binder.name)
        self.scope[binder.name] = binder.sort
        made = body()
        if self.named and not binder.is_time:
            made = listed("and", [sort_element(binder), made])
        if before is None:
            del self.scope[binder.name]
        else:
            self.scope[binder.name] = before
        return Formula("exists", parts=[made], binder=binder)


@dataclass
class Step:
    words: str
    period: int
    reach: int
    formula: Formula


def term_text(term):
    if term.kind == "text":
        return quoted(term.value)
    if term.kind == "int":
        return str(term.value)
    return term.value if not term.plus else "%s %s %d" % (term.value, "+" if term.plus > 0 else "-", abs(term.plus))


def test_text(it):
    return "%s %s %s" % (term_text(it.terms[0]), "=" if it.kind == "equal" else it.name, term_text(it.terms[1]))


def offset_of(term):
    return term.value if term.kind == "int" else term.plus


def test_reach(it):
    return 1 if it.kind == "equal" else 1 + abs(offset_of(it.terms[0]) - offset_of(it.terms[1]))


class Plan:
    def __init__(self, relations, query, budget=0):
        self.relations, self.query = relations, query
        self.meaning = Meaning(relations, query, budget)
        core = CoreForm(relations, query)
        self.times_of = {it.name for it in query.head if it.is_time}
        self.learn(query.body)
        self.steps = []
        last = self.make(core.form)
        step = self.steps[last - 1]
        body = core.form if core.named else query.body
        self.add("head %d" % last, step.period, step.reach, body)
        self.times = sum(it.is_time for it in query.head)

    def learn(self, it):
        """The time variables, where no name is bound twice."""
        if it.binder and it.binder.is_time:
            self.times_of.add(it.binder.name)
        for part in it.parts:
            self.learn(part)

    def refusal(self):
        """The period's limit or the reach's, where one is passed."""
        if self.meaning.period > LIMIT:
            return "refused: period above %d\n" % LIMIT
        if self.steps[-1].reach << self.times + 1 > LIMIT:
            return "refused: bound above %d\n" % LIMIT
        return None

    def text(self):
        return "".join(
            "%d %s [period %d, reach %d]\n" % (i, it.words, it.period, it.reach) for i, it in enumerate(self.steps, 1)
        )

    def add(self, words, period, reach, formula):
        self.steps.append(Step(words, period, max(period, reach), formula))
        return len(self.steps)

    def cells(self, number):
        """How many cells of a step's formula are inhabited."""
        step = self.steps[number - 1]
        is_last = number == len(self.steps)
        names = sorted({it.name for it in self.query.head} if is_last else free_names(step.formula))
        times = [name for name in names if name in self.times_of]
        texts = [name for name in names if name not in self.times_of]
        self.meaning.prepare(step.formula)
        count = 0
        for chosen in itertools.product(self.meaning.constants, repeat=len(texts)):
            count += len(self.residues(step, times, dict(zip(texts, chosen))))
        return count

    def residues(self, step, times, env):
        """The residues of all numbers for these variables that make the formula true."""
        if not times:
            return {()} if self.meaning.holds(step.formula, env) else set()
        sees = self.meaning.facts[id(step.formula)][1]
        for _ in times[1:]:
            sees = 2 * sees + self.meaning.period
        universe = self.meaning.near(env.keys(), sees, env)
        if len(times) == 1:
            held = self.meaning.held(step.formula, times[0], env, universe)
            return {(number % step.period,) for number in universe.members(held)}
        found = set()
        for number in universe.numbers():
            self.meaning.spend()
            if len(found) == step.period ** len(times):
                break
            found |= {
                (number % step.period, *rest) for rest in self.residues(step, times[1:], {**env, times[0]: number})
            }
        return found

    def leaf(self, it):
        if it.kind == "atom":
            rows = self.relations[it.name].rows
            most = max((abs(bound[2]) for row in rows for bound in row.bounds), default=0)
            offset = max((abs(offset_of(term)) for term in it.terms if term.kind in ("int", "shifted")), default=0)
            period = self.meaning.period_of(it)
            return self.add(
                "scan %s(%s)" % (it.name, ", ".join(map(term_text, it.terms))), period, most + 2 * offset + period, it
            )
        if it.kind == "sort":
            return self.add("sort %s(%s)" % (it.name, it.terms[0].value), 1, 1, it)
        if it.kind == "compare":
            return self.add("compare " + test_text(it), 1, test_reach(it), it)
        if it.kind == "equal":
            return self.add("equal " + test_text(it), 1, 1, it)
        offset, period = it.point
        return self.add("point %s in %d+%dn" % (term_text(it.terms[0]), offset % period, period), period, period, it)

    def of_two(self, word, left, right, formula, more=(), factor=1):
        a, b = self.steps[left - 1], self.steps[right - 1]
        period = math.lcm(a.period, b.period)
        where = " where " + ", ".join(map(test_text, more)) if more else ""
        reach = max(a.reach, b.reach, *map(test_reach, more)) + factor * period
        return self.add("%s %d %d%s" % (word, left, right, where), period, reach, formula)

    def make(self, it):
        if it.kind == "or":
            made = self.make(it.parts[0])
            for i, part in enumerate(it.parts[1:], 2):
                made = self.of_two("union", made, self.make(part), Formula("or", parts=it.parts[:i]))
            return made
        if it.kind == "not":
            return self.complement(self.make(it.parts[0]), it)
        if it.kind == "exists":
            made = self.make(it.parts[0])
            step = self.steps[made - 1]
            reach = 2 * step.reach if it.binder.is_time else step.reach
            return self.add("drop %d %s" % (made, it.binder.name), step.period, reach, it)
        if it.kind == "and":
            return Conjunction(self, it.parts).made
        return self.leaf(it)

    def complement(self, made, formula):
        step = self.steps[made - 1]
        return self.add("complement %d" % made, step.period, step.reach + 2 * step.period, formula)

    def rows_of(self, it):
        return len(self.relations[it.name].rows) if it.kind == "atom" else len(self.meaning.texts.get(it.name, []))


class Conjunction:
    """The steps of an and."""

    def __init__(self, plan, parts):
        self.plan, self.made, self.taken, self.formulas = plan, None, set(), []
        self.tests = [it for it in parts if it.kind in ("compare", "equal")]
        negations = [it for it in parts if it.kind == "not"]
        others = [it for it in parts if it.kind not in ("compare", "equal", "not")]
        ranked = sorted((it for it in others if it.kind in ("atom", "sort")), key=plan.rows_of)
        positives = ranked + [it for it in others if it.kind not in ("atom", "sort")]
        while positives:
            near = next((it for it in positives if free_names(it) & self.taken), positives[0])
            positives = [it for it in positives if it is not near]
            self.take(near, plan.make(near))
        while self.tests:
            first = self.tests.pop(0)
            self.take(first, plan.leaf(first))
        while negations:
            near = next((it for it in negations if self.covers(it)), negations[0])
            negations = [it for it in negations if it is not near]
            self.deny(near)

    def covers(self, it):
        return self.made is not None and free_names(it) <= self.taken

    def together(self, *more):
        self.formulas += more
        return Formula("and", parts=list(self.formulas))

    def ready(self):
        """The tests that are covered; they are no longer among those that remain."""
        found = [it for it in self.tests if free_names(it) <= self.taken]
        self.tests = [it for it in self.tests if not free_names(it) <= self.taken]
        return found

    def take(self, it, made):
        self.taken |= free_names(it)
        tests = self.ready()
        if self.made is None:
            self.made = made
            self.together(it)
            for test in tests:
                step = self.plan.steps[self.made - 1]
                reach = max(step.reach, test_reach(test)) + step.period
                self.made = self.plan.add(
                    "select %d %s" % (self.made, test_text(test)), step.period, reach, self.together(test)
                )
        else:
            self.made = self.plan.of_two("join", self.made, made, self.together(it, *tests), tests)

    def deny(self, it):
        is_covered = self.covers(it)
        made = self.plan.make(it.parts[0])
        if is_covered:
            self.made = self.plan.of_two("minus", self.made, made, self.together(it), factor=2)
            return
        made = self.plan.complement(made, it)
        self.taken |= free_names(it)
        formula = self.together(it)
        self.made = made if self.made is None else self.plan.of_two("join", self.made, made, formula)
