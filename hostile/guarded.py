"""A second planner of plans under guards: each table is made under the table of what stands beside it."""

from language import Column, Formula, Term
from meaning import free_names
from plan import Plan, no, test_reach, test_text

LEAVES = ("atom", "sort", "compare", "equal", "member")
# A drop of a text takes whatever constant there is.
ANY = "\0any"


def names_of(it):
    """The variables of a leaf, each where it stands first."""
    return list(dict.fromkeys(term.value for term in it.terms if term.kind in ("var", "shifted")))


def occurring(it):
    """The free variables of a formula, each where it occurs first."""
    found = names_of(it) if it.kind in LEAVES else [name for part in it.parts for name in occurring(part)]
    return list(dict.fromkeys(name for name in found if not it.binder or name != it.binder.name))


def binds(it):
    """The variables whose values the formula's own atoms bound."""
    if it.kind in ("atom", "sort"):
        return free_names(it)
    if it.kind == "and":
        return set().union(*(binds(part) for part in it.parts if part.kind != "not"))
    if it.kind == "or":
        return set.intersection(*map(binds, it.parts))
    return binds(it.parts[0]) - {it.binder.name} if it.kind == "exists" else set()


def is_bound(it):
    return free_names(it) <= binds(it)


class GuardedPlan(Plan):
    def __init__(self, relations, query, budget=0):
        self.columns = {}
        super().__init__(relations, query, budget)
        self.meaning.texts[ANY] = self.meaning.constants

    def formula(self, number):
        return self.steps[number - 1].formula

    # Steps

    def leaf(self, it):
        made = super().leaf(it)
        self.columns[made] = names_of(it)
        return made

    def side_by_side(self, left, right):
        return list(dict.fromkeys(self.columns[left] + self.columns[right]))

    def join(self, left, right, tests=()):
        formula = Formula("and", parts=[self.formula(left), self.formula(right), *tests])
        made = self.of_two("join", left, right, formula, tests)
        self.columns[made] = self.side_by_side(left, right)
        return made

    def union(self, left, right):
        made = self.of_two("union", left, right, Formula("or", parts=[self.formula(left), self.formula(right)]))
        self.columns[made] = self.side_by_side(left, right)
        return made

    def minus(self, left, right):
        formula = Formula("and", parts=[self.formula(left), no(self.formula(right))])
        made = self.of_two("minus", left, right, formula, factor=2)
        self.columns[made] = self.columns[left]
        return made

    def opposite(self, of):
        made = self.complement(of, no(self.formula(of)))
        self.columns[made] = self.columns[of]
        return made

    def select(self, of, test):
        step = self.steps[of - 1]
        reach = max(step.reach, test_reach(test)) + step.period
        formula = Formula("and", parts=[step.formula, test])
        made = self.add("select %d %s" % (of, test_text(test)), step.period, reach, formula)
        self.columns[made] = self.columns[of]
        return made

    def drop(self, of, name):
        step = self.steps[of - 1]
        is_time = name in self.times_of
        formula = Formula("exists", parts=[step.formula], binder=Column(name, "time" if is_time else ANY))
        made = self.add("drop %d %s" % (of, name), step.period, step.reach * (2 if is_time else 1), formula)
        self.columns[made] = [it for it in self.columns[of] if it != name]
        return made

    def project(self, of, wanted):
        for name in self.columns[of]:
            if name not in wanted:
                of = self.drop(of, name)
        return of

    def guard_for(self, of, it):
        """The projection of a step for a formula, or none where that needs no guard or shares nothing with it."""
        if of is None or is_bound(it) or not free_names(it) & set(self.columns[of]):
            return None
        return self.project(of, free_names(it))

    # Formulas

    def make(self, it):
        return self.build(it, None)

    def build(self, it, guard):
        if it.kind in LEAVES:
            return self.build_leaf(it, guard)
        if it.kind == "or":
            return self.build_or(it, guard)
        block = []
        while it.kind == "exists":
            block.append(it.binder.name)
            it = it.parts[0]
        if it.kind == "and":
            return Conjunction(self, it.parts, guard, block).made
        made = Conjunction(self, [it], guard, []).made if it.kind == "not" else self.build(it, guard)
        for name in reversed(block):
            made = self.drop(made, name)
        return made

    def build_leaf(self, it, guard):
        if guard is None:
            return self.leaf(it)
        if it.kind in ("compare", "equal") and free_names(it) <= set(self.columns[guard]):
            return self.select(guard, it)
        return self.join(guard, self.leaf(it))

    def build_or(self, it, guard):
        so_far = None
        for part in it.parts:
            own = self.guard_for(guard, part)
            made = self.build(part, own)
            if guard is not None and own != guard:
                made = self.join(guard, made)
            so_far = made if so_far is None else self.union(so_far, made)
        return so_far


class Conjunction:
    """The steps of an and under a guard, within a block of quantified variables."""

    def __init__(self, plan, parts, guard, block):
        self.plan, self.made, self.block = plan, guard, list(block)
        self.taken = set() if guard is None else set(plan.columns[guard])
        self.tests = [it for it in parts if it.kind in ("compare", "equal")]
        self.negations = [it for it in parts if it.kind == "not"]
        self.atoms = sorted((it for it in parts if it.kind == "atom"), key=plan.rows_of)
        self.sorts = sorted((it for it in parts if it.kind == "sort"), key=plan.rows_of)
        self.others = [it for it in parts if it.kind not in ("compare", "equal", "not", "atom", "sort")]
        if guard is not None:
            self.select_covered()
        while self.next():
            self.drop_spent()
        for name in reversed(self.block):
            self.made = plan.drop(self.made, name)

    def next(self):
        """Takes the next element in; whether there was one."""
        return (
            self.take_near_ranked()
            or self.take_other(self.near(self.others))
            or self.take_test(next((it for it in self.tests if free_names(it) & self.taken), None))
            or self.take_ranked(next(iter(self.atoms or self.sorts), None))
            or self.take_other(next(iter(self.others), None))
            or self.take_test(next(iter(self.tests), None))
            or self.take_negation()
        )

    # What comes next

    def near(self, elements):
        found = next((it for it in elements if free_names(it) & self.taken), None)
        return next(iter(elements), None) if found is None and self.made is None else found

    def take_near_ranked(self):
        ranked = self.atoms or self.sorts
        near = next((it for it in ranked if free_names(it) & self.taken), None)
        linked = next((it for it in ranked if self.is_linked(it)), None)
        return self.take_ranked(near or linked or (self.near(ranked) if self.made is None else None))

    def is_linked(self, it):
        own = {name for name in free_names(it) if name in self.plan.times_of}
        for test in self.tests:
            if test.kind == "compare":
                left, right = ({term.value} if term.kind != "int" else set() for term in test.terms)
                if left & self.taken and right & own or right & self.taken and left & own:
                    return True
        return False

    # Taking in

    def covered(self):
        if self.made is None:
            return []
        found = [it for it in self.tests if free_names(it) <= self.taken]
        self.tests = [it for it in self.tests if not free_names(it) <= self.taken]
        return found

    def select_covered(self):
        for test in self.covered():
            self.made = self.plan.select(self.made, test)

    def take(self, it, made, is_all=False):
        """The step stands for the formula, or with it for all that was taken in before."""
        self.taken |= free_names(it)
        if self.made is None or is_all:
            self.made = made
            self.select_covered()
        else:
            self.made = self.plan.join(self.made, made, self.covered())
        return True

    def take_ranked(self, it):
        if it is None:
            return False
        self.atoms = [other for other in self.atoms if other is not it]
        self.sorts = [other for other in self.sorts if other is not it and not self.is_needless(other, it)]
        return self.take(it, self.plan.leaf(it))

    def is_needless(self, element, atom):
        if atom.kind != "atom":
            return False
        columns = self.plan.relations[atom.name].columns
        return any(
            column.sort == element.name and term.kind == "var" and term.value == element.terms[0].value
            for column, term in zip(columns, atom.terms)
        )

    def take_other(self, it):
        if it is None:
            return False
        self.others = [other for other in self.others if other is not it]
        guard = None if it.kind in LEAVES else self.plan.guard_for(self.made, it)
        is_all = guard is not None and guard == self.made
        return self.take(it, self.plan.build(it, guard), is_all)

    def take_test(self, it):
        if it is None:
            return False
        self.tests = [other for other in self.tests if other is not it]
        return self.take(it, self.plan.leaf(it))

    def take_negation(self):
        if not self.negations:
            return False
        fits = lambda it: self.made is not None and free_names(it) <= self.taken
        it = next(filter(fits, self.negations), self.negations[0])
        self.negations = [other for other in self.negations if other is not it]
        inner = it.parts[0]
        if self.made is None:
            self.made = self.plan.opposite(self.plan.build(inner, None))
        else:
            self.bring(inner)
            guard = None if inner.kind in LEAVES else self.plan.guard_for(self.made, inner)
            self.made = self.plan.minus(self.made, self.plan.build(inner, guard))
        self.taken |= free_names(inner)
        return True

    def bring(self, it):
        for name in occurring(it):
            if name not in self.taken:
                kind = "compare" if name in self.plan.times_of else "equal"
                same = Formula(kind, terms=[Term("var", name), Term("var", name)], name="=")
                self.made = self.plan.join(self.made, self.plan.leaf(same))

    def drop_spent(self):
        left = self.atoms + self.sorts + self.others + self.tests + self.negations
        wanted = set().union(*map(free_names, left))
        for name in [name for name in self.block if name not in wanted]:
            self.made = self.plan.drop(self.made, name)
        self.block = [name for name in self.block if name in wanted]
