"""Temporal operators: the query without them that a query stands for, with the names and places that added parts have.

The meaning of the operators is told in meaning.py, by their own sentences; this tree is for plans and for faults of sorts.
"""

from dataclasses import replace

from language import Column, Formula, OPERATORS, Query, Term, check_sorts, parse_query


def operators_of(it):
    """The operators of a formula."""
    found = [it] if it.kind in OPERATORS else []
    return found + [inner for part in it.parts for inner in operators_of(part)]


def expanded(query):
    places = sorted(it.place for it in operators_of(query.body))
    numbers = {place: number for number, place in enumerate(places, 1)}
    return Query(query.head, Expansion(numbers).formula(query.body, {}))


def read_tense(data, relations, is_tense=True):
    """The query as it is written, and the one without operators that it stands for, whose faults of sorts it has."""
    written = parse_query(data, is_tense)
    plain = expanded(written)
    check_sorts(plain, relations)
    return written, plain


class Expansion:
    def __init__(self, numbers):
        self.numbers = numbers

    def formula(self, it, names):
        """The formula without operators; `names` has the new names of variables that operators around it renamed."""
        if it.kind in OPERATORS:
            return self.operator(it, names)
        if it.binder:
            names = {name: new for name, new in names.items() if name != it.binder.name}
        terms = [replace(term, value=names.get(term.value, term.value)) if is_name(term) else term for term in it.terms]
        return replace(it, terms=terms, parts=[self.formula(part, names) for part in it.parts])

    def operator(self, it, names):
        place, written = it.place, it.terms[0]
        now = replace(written, value=names.get(written.value, written.value))
        new = "%s~%d" % (written.value, self.numbers[place])
        compared = lambda name, sign, right: Formula(
            "compare", place, terms=[Term("var", name, place=place), right], name=sign
        )
        both = lambda *parts: Formula("and", place, list(parts))
        bound = lambda kind, name, part: Formula(kind, place, [part], binder=Column(name, "time", place, place))
        inner = lambda part, name: self.formula(part, {**names, written.value: name})
        if it.kind in ("once", "always"):
            ends = [replace(now, kind="shifted", plus=end) for end in it.ends]
            within = [compared(new, ">=", ends[0]), compared(new, "<=", ends[1])]
            body = inner(it.parts[0], new)
            if it.kind == "once":
                return bound("exists", new, both(*within, body))
            return bound("forall", new, Formula("implies", place, [both(*within), body]))
        other, start = new + "~", Term("var", new, place=place)
        if it.kind == "since":
            sign, between = "<=", both(compared(other, ">", start), compared(other, "<=", now))
        else:
            sign, between = ">=", both(compared(other, ">=", now), compared(other, "<", start))
        all_between = bound("forall", other, Formula("implies", place, [between, inner(it.parts[0], other)]))
        return bound("exists", new, both(compared(new, sign, now), inner(it.parts[1], new), all_between))


def is_name(term):
    return term.kind in ("var", "shifted")
