"""Kept answers under edits, by a second opinion: which queries are kept, what is refused at which edit, and the least answer
after each edit, computed anew by its meaning.

A query is kept where its core form is a disjunct or an `or` of disjuncts: `exists` before an atom, or before an `and` of
atoms and tests, in which each variable occurs in an atom. The rows that its atoms stand for are a choice; the parts of
a choice are its first atoms, each for its row alone, with the tests of their variables.
"""

import itertools
import math

from common import LONGEST, refusal
from language import Column, Fault, Formula, LIMIT, Query, Relation, read_database, read_edits, read_query
from meaning import Meaning
from opinion import plain
from plan import CoreForm, Plan, Step, offset_of, test_reach

NOT_KEPT = b"refused: query not kept\n"
UNREAD = {name: b"refused: read of %s\n" % name.encode() for name in ("database", "query", "edits")}
LONG = b"refused: edits longer than %d bytes\n" % LONGEST
TESTS = ("compare", "equal", "member")


class Disjunct:
    """The atoms, tests and quantifiers of one disjunct; `is_kept` says whether it is one."""

    def __init__(self, it, head):
        self.binders = []
        while it.kind == "exists":
            self.binders.append(it.binder)
            it = it.parts[0]
        parts = it.parts if it.kind == "and" else [it]
        self.atoms = [part for part in parts if part.kind == "atom"]
        self.tests = [part for part in parts if part.kind in TESTS]
        in_atoms = set().union(*map(names_of, self.atoms))
        everywhere = {column.name for column in [*head, *self.binders]}.union(*map(names_of, parts))
        has_others = len(self.atoms) + len(self.tests) < len(parts)
        self.is_kept = bool(self.atoms) and not has_others and everywhere <= in_atoms

    def parts(self):
        """The atoms and tests of each part, in order."""
        yield self.atoms[:1], []
        for count in range(2, len(self.atoms) + 1):
            names = set().union(*map(names_of, self.atoms[:count]))
            yield self.atoms[:count], [test for test in self.tests if names_of(test) <= names]


def names_of(it):
    return {term.value for term in it.terms if term.kind in ("var", "shifted")}


def disjuncts_of(relations, query):
    """The disjuncts of a kept query, and none for another one. Sort elements are left out."""
    core = CoreForm(relations, query)
    core.named, core.scope = False, {it.name: it.sort for it in query.head}
    form = core.pos(query.body)
    found = [Disjunct(it, query.head) for it in (form.parts if form.kind == "or" else [form])]
    return found if all(it.is_kept for it in found) else None


def is_equal(one, other):
    """Whether two rows are equal: their texts, their points with offsets within the period, and their bounds."""
    shown = [[it if isinstance(it, bytes) else (it[0] % it[1], it[1]) for it in row.values] for row in (one, other)]
    return shown[0] == shown[1] and one.bounds == other.bounds


class Part(Plan):
    """A formula without quantifiers, as the one step of a plan."""

    def __init__(self, relations, head, formula, period, budget):
        self.relations, self.query = relations, Query(head, formula)
        self.meaning = Meaning(relations, self.query, budget)
        self.meaning.period = period
        self.times_of = {column.name for column in head if column.is_time}
        self.steps = [Step("part", period, 0, formula)]


class Kept:
    """The rows now held, and of those ever held their common period and their greatest bounds."""

    def __init__(self, relations, query, disjuncts, cap, budget):
        self.relations, self.query, self.disjuncts = relations, query, disjuncts
        self.cap, self.budget = cap, budget
        self.named = {atom.name for it in disjuncts for atom in it.atoms}
        points = [test.point[1] for it in disjuncts for test in it.tests if test.kind == "member"]
        self.period = math.lcm(1, *points)
        self.bounds = {name: 0 for name in relations}
        for relation in relations.values():
            for row in relation.rows:
                self.raised(relation.name, row)

    def raised(self, name, row):
        """Takes a row among those that were held."""
        if name in self.named:
            self.period = math.lcm(self.period, *(it[1] for it in row.values if not isinstance(it, bytes)))
        self.bounds[name] = max([self.bounds[name], *(abs(bound[2]) for bound in row.bounds)])

    def reach(self):
        most = 0
        for it in self.disjuncts:
            for atom in it.atoms:
                offsets = [abs(offset_of(term)) for term in atom.terms if term.kind in ("int", "shifted")]
                most = max(most, self.bounds[atom.name] + 2 * max(offsets, default=0) + self.period)
            most = max([most, *(test.point[1] if test.kind == "member" else test_reach(test) for test in it.tests)])
        atoms, tests = (max(map(len, each)) for each in zip(*((it.atoms, it.tests) for it in self.disjuncts)))
        times = max(sum(binder.is_time for binder in it.binders) for it in self.disjuncts)
        return (most + (atoms + tests) * self.period) << times

    def limit(self):
        """The limit that is passed, where one is."""
        if self.period > LIMIT:
            return "period above %d" % LIMIT
        if self.reach() << sum(it.is_time for it in self.query.head) + 1 > LIMIT:
            return "bound above %d" % LIMIT
        if any(self.cells(*part) > self.cap for part in self.all_parts()):
            return "more than %d cells" % self.cap
        return None

    def all_parts(self):
        """Each part of each choice, with its rows; a part that choices share comes once.

        A choice has a row for each atom, so a disjunct that names a relation without rows has none.
        """
        for it in self.disjuncts:
            if not all(self.relations[atom.name].rows for atom in it.atoms):
                continue
            for atoms, tests in it.parts():
                for rows in itertools.product(*(self.relations[atom.name].rows for atom in atoms)):
                    yield atoms, tests, rows

    def cells(self, atoms, tests, rows):
        """In how many cells of the kept period a part is inhabited: each atom is one of a relation with its row alone."""
        relations, parts, sorts = {}, [], {}
        for number, (atom, row) in enumerate(zip(atoms, rows)):
            columns = self.relations[atom.name].columns
            relations["r%d" % number] = Relation("r%d" % number, columns, [row])
            parts.append(Formula("atom", terms=atom.terms, name="r%d" % number))
            sorts.update({term.value: it.sort for term, it in zip(atom.terms, columns) if term.kind in ("var", "shifted")})
        formula = Formula("and", parts=[*parts, *tests])
        return Part(relations, [Column(*it) for it in sorted(sorts.items())], formula, self.period, self.budget).cells(1)

    def least(self):
        found = Meaning(self.relations, self.query, self.budget).least()
        return "none" if found is None else plain(found)

    def change(self, edit):
        """Adds the row, or takes the first equal one out, where there is one."""
        rows = self.relations[edit.relation].rows
        if edit.is_added:
            rows.append(edit.row)
            self.raised(edit.relation, edit.row)
        else:
            at = next((at for at, row in enumerate(rows) if is_equal(row, edit.row)), None)
            if at is not None:
                del rows[at]


class Anew:
    """The rows now held, over which a query that is not kept is planned and decided after each edit."""

    change = Kept.change
    least = Kept.least

    def __init__(self, relations, query, planner, cap, budget):
        self.relations, self.query, self.planner = relations, query, planner
        self.cap, self.budget = cap, budget

    def raised(self, name, row):
        """Rows that were held once don't count."""

    def limit(self):
        """The limit that the plan passes, where it passes one."""
        plan = self.planner(self.relations, self.query, self.budget)
        refused = plan.refusal()
        if refused:
            return refused.removeprefix("refused: ").rstrip()
        if any(plan.cells(number) > self.cap for number in range(1, len(plan.steps) + 1)):
            return "more than %d cells" % self.cap
        return None


def judged(database, query, edits, cap=1000000, budget=400000, planner=None):
    """The status and the output of `watch` for these texts. None stands for a file that can't be read. With a planner, a
    query that is not kept is decided anew by its plan."""
    if database is None:
        return 6, UNREAD["database"]
    try:
        relations = read_database(database)
    except Fault as fault:
        return 3, refusal("database", fault)
    if query is None:
        return 6, UNREAD["query"]
    try:
        parsed = read_query(query, relations)
    except Fault as fault:
        return 4, refusal("query", fault)
    disjuncts = disjuncts_of(relations, parsed)
    if disjuncts is None and planner is None:
        return 4, NOT_KEPT
    if edits is None:
        return 6, UNREAD["edits"]
    if len(edits) > LONGEST:
        return 3, LONG
    try:
        changes = read_edits(edits, relations)
    except Fault as fault:
        return 3, refusal("edits", fault)
    if disjuncts is None:
        return watched(Anew(relations, parsed, planner, cap, budget), changes)
    return watched(Kept(relations, parsed, disjuncts, cap, budget), changes)


def watched(kept, changes):
    """All edits are applied before anything is written, so the first that is refused is all that is said."""
    lines = []
    for number, edit in enumerate([None, *changes]):
        if edit:
            kept.change(edit)
        is_limited = edit is None or edit.is_added or isinstance(kept, Anew)
        refused = kept.limit() if is_limited else None
        if refused:
            return 5, ("refused: %s at edit %d\n" % (refused, number)).encode()
        lines.append(kept.least() + "\n")
    return 0, "".join(lines).encode()
