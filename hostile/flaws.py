"""What `lint` has to find in random databases and queries: rows that hold nothing, times that nothing ties, texts that no
row has, and relations without rows."""

import itertools
import math

from answers import closed
from language import LIMIT
from meaning import TooHard
from opinion import Case

MOST_ROWS = 20000  # of one common period, for a row of several


def points_of(row):
    return [value for value in row.values if not isinstance(value, bytes)]


def is_empty(row, period):
    """Whether no times meet a row's points and bounds: tried for each choice of remainders by the common period."""
    choices = [[(offset + turn * own, period) for turn in range(period // own)] for offset, own in points_of(row)]
    if math.prod(map(len, choices)) > MOST_ROWS:
        raise TooHard
    return all(closed(values, row.bounds, period) is None for values in itertools.product(*choices))


def is_tied(row):
    """Whether bounds between two columns tie all time columns to one another."""
    columns = len(points_of(row))
    groups = list(range(columns + 1))
    for left, right, _ in row.bounds:
        if left and right:
            groups = [groups[left] if group == groups[right] else group for group in groups]
    return len(set(groups[1:])) < 2


def row_flaws(row):
    """The words for what is wrong with a row, in order."""
    period = math.lcm(*(own for _, own in points_of(row)))
    reach = max((abs(most) for *_, most in row.bounds), default=0)
    if reach + period > LIMIT:
        return (["UntiedTimes"] if not is_tied(row) else []) + ["RowLimit"]
    return (["EmptyRow"] if is_empty(row, period) else []) + ([] if is_tied(row) else ["UntiedTimes"])


def mentions(it, relations, scope):
    """The texts of a formula with their sorts, and its relations, by their places."""
    if it.binder:
        scope = {**scope, it.binder.name: it.binder.sort}
    if it.kind == "atom":
        yield it.place, None, it.name
        for term, column in zip(it.terms, relations[it.name].columns):
            if term.kind == "text":
                yield term.place, column.sort, term.value
    elif it.kind == "compare" and it.name == "=":
        for term, other in (it.terms, reversed(it.terms)):
            if term.kind == "text":
                yield term.place, scope[other.value] if other.kind == "var" else "data", term.value
    for part in it.parts:
        yield from mentions(part, relations, scope)


def query_flaws(query, relations):
    """What is wrong with a query, by place: each once."""
    texts = {
        (column.sort, value)
        for relation in relations.values()
        for row in relation.rows
        for column, value in zip(relation.columns, row.values)
        if isinstance(value, bytes)
    }
    found = set()
    for place, sort, name in mentions(query.body, relations, {column.name: column.sort for column in query.head}):
        if sort is None and not relations[name].rows:
            found.add((place, "EmptyRelation"))
        elif sort is not None and (sort, name) not in texts:
            found.add((place, "UnknownText"))
    return sorted(found)


def report(relations, query=None):
    """All that `lint` writes."""
    lines = []
    for relation in relations.values():
        for number, row in enumerate(relation.rows, 1):
            lines += ["database %s %s %d" % (flaw, relation.name, number) for flaw in row_flaws(row)]
    for (line, column), flaw in query_flaws(query, relations) if query else []:
        lines.append("query %s at %d:%d" % (flaw, line, column))
    return "".join(line + "\n" for line in [*lines, "end"]).encode()


def lint(program, case):
    """A database by itself, and with its query."""
    keys = [key for key in case.keys("lint") if not key.startswith("plan=")]
    program.expect(report(case.relations), 0, "lint", *keys, database=case.database)
    program.expect(report(case.relations, case.plain), 0, "lint", *keys, **case.files)


def flaws(program, tally, seeds):
    """Random databases and queries, with operators or over dates, too."""
    for seed in seeds:
        for is_tense, is_civil in ((False, False), (True, False), (False, True)):
            try:
                lint(program, Case(seed, 0, is_civil=is_civil, is_tense=is_tense))
            except TooHard:
                tally.too_hard()
