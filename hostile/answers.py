"""Reads what ask wrote, and holds it to the rules on answer texts."""

import itertools
import math

from language import Column, Fault, Formula, LIMIT, Query, Relation, Row, Term, read_database, relation_text
from meaning import Meaning, TooHard


def closed(values, bounds, period):
    """The tight bounds that follow from a row's, as a table; none where nothing meets them. Node 0 is zero."""
    residues = [0] + [offset % period for offset, _ in values]
    size = len(residues)
    table = [[0 if i == j else math.inf for j in range(size)] for i in range(size)]
    for i, j, most in bounds:
        if i != j:
            tight = most - (most - residues[i] + residues[j]) % period
            table[i][j] = min(table[i][j], tight)
        elif most < 0:
            return None
    for k, i, j in itertools.product(range(size), repeat=3):
        table[i][j] = min(table[i][j], table[i][k] + table[k][j])
    return None if any(table[i][i] < 0 for i in range(size)) else table


def entries(table):
    return [(i, j, most) for i, line in enumerate(table) for j, most in enumerate(line) if i != j and most != math.inf]


def layout_fault(text, meaning):
    """What is wrong with the text by itself, or none, and the relation that it is."""
    head = meaning.query.head
    try:
        relations = read_database(text)
    except Fault as fault:
        return "no relation: %s" % fault, None
    if list(relations) != ["answer"]:
        return "not one relation answer", None
    answer = relations["answer"]
    if [(it.name, it.sort) for it in answer.columns] != [(it.name, it.sort) for it in head]:
        return "other columns", None
    if relation_text(answer).encode() != text:
        return "another layout", None
    if not answer.rows:
        return "no row", None
    return row_faults(answer, meaning), answer


def row_faults(answer, meaning):
    cells = []
    for row in answer.rows:
        points = [value for value in row.values if not isinstance(value, bytes)]
        texts = tuple(value for value in row.values if isinstance(value, bytes))
        if any(period != meaning.period for _, period in points):
            return "a period other than the query's"
        table = closed(points, row.bounds, meaning.period)
        if table is None:
            return "a row without members"
        if entries(table) != row.bounds:
            return "bounds that are not the closed ones in order: %s" % row.bounds
        if any(abs(most) > LIMIT for _, _, most in row.bounds):
            return "a bound above the limit"
        cells.append(((texts, tuple(offset for offset, _ in points)), table, row))
    order = [key for key, _ in itertools.groupby(cells, key=lambda it: it[0])]
    if order != sorted(set(order)):
        return "cells out of order"
    for _, rows in itertools.groupby(cells, key=lambda it: it[0]):
        fault = cell_fault(answer, meaning, [(table, row) for _, table, row in rows])
        if fault:
            return fault
    return None


def cell_fault(answer, meaning, rows):
    times = len(answer.times)
    if len(rows) == 1:
        return None
    if times == 0:
        return "two rows in a cell without times"
    if times == 1:
        for (before, _), (after, _) in zip(rows, rows[1:]):
            if not before[1][0] + meaning.period < -after[0][1]:
                return "intervals that touch, or out of order"
        return None
    size = times + 1
    hull = [[max(table[i][j] for table, _ in rows) for j in range(size)] for i in range(size)]
    values = rows[0][1].values
    hull_row = Row([it for it in values if not isinstance(it, bytes)], entries(hull))
    others = [Row([it for it in row.values if not isinstance(it, bytes)], row.bounds) for _, row in rows]
    if is_covered(hull_row, others, times):
        return "several rows, though one would do"
    return None


def is_covered(hull, rows, times):
    """Whether each tuple of one row is in one of the others. None where that takes too long."""
    columns = [Column("t%d" % i, "time") for i in range(times)]
    terms = [Term("var", it.name) for it in columns]
    relations = {"hull": Relation("hull", columns, [hull]), "rows": Relation("rows", columns, rows)}
    outside = Formula(
        "and",
        parts=[
            Formula("atom", terms=terms, name="hull"),
            Formula("not", parts=[Formula("atom", terms=terms, name="rows")]),
        ],
    )
    try:
        return not Meaning(relations, Query(columns, outside), budget=30000).completes(0, {})
    except TooHard:
        return None


def answer_fault(text, meaning):
    """What is wrong with what ask wrote, or none."""
    if text == b"Empty\n":
        least = meaning.least()
        return None if least is None else "Empty, but %s is an answer" % (least,)
    fault, answer = layout_fault(text, meaning)
    if fault:
        return fault
    meaning.relations = {**meaning.relations, "\0answer": answer}
    terms = [Term("var", it.name) for it in meaning.query.head]
    atom = Formula("atom", terms=terms, name="\0answer")
    differs = meaning.same_everywhere(atom)
    return None if differs is None else "it differs on %s" % differs
