"""The same case far from zero: when all that a database and a query say is moved by one number, the answers move with it."""

from language import Relation, Row, quoted, relation_text


def moved_relation(relation, by):
    rows = []
    for row in relation.rows:
        values = [it if isinstance(it, bytes) else (it[0] + by, it[1]) for it in row.values]
        bounds = [(left, right, most + by * ((right == 0) - (left == 0))) for left, right, most in row.bounds]
        rows.append(Row(values, bounds))
    return Relation(relation.name, relation.columns, rows)


def database_text(relations, by):
    return "".join(relation_text(moved_relation(it, by)) for it in relations.values())


def term_text(term, by):
    if term.kind == "text":
        return quoted(term.value)
    if term.kind == "int":
        return str(term.value + by)
    if term.kind == "var":
        return term.value
    return "%s %s %d" % (term.value, "-" if term.plus < 0 else "+", abs(term.plus))


def formula_text(it, by):
    terms = [term_text(term, by) for term in it.terms]
    parts = [formula_text(part, by) for part in it.parts]
    if it.kind == "atom":
        return "%s(%s)" % (it.name, ", ".join(terms))
    if it.kind == "compare":
        return "%s %s %s" % (terms[0], it.name, terms[1])
    if it.kind == "member":
        return "%s in %d+%dn" % (terms[0], it.point[0] + by, it.point[1])
    if it.ends:  # distances stay
        return "%s %s (%d, %d) %s" % (it.kind, terms[0], *it.ends, parts[0])
    if it.kind in ("since", "until"):
        return "%s %s (%s, %s)" % (it.kind, terms[0], *parts)
    if it.kind == "not":
        return "not " + parts[0]
    if it.binder:
        return "%s %s: %s %s" % (it.kind, it.binder.name, it.binder.sort, parts[0])
    return "(%s)" % (" %s " % it.kind).join(parts)


def query_text(query, by):
    head = ", ".join("%s: %s" % (it.name, it.sort) for it in query.head)
    return "{ %s | %s }" % (head, formula_text(query.body, by))
