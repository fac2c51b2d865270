"""Random mistakes in random texts: a token replaced, left out, doubled or moved; the fault that is named is compared."""

from damage import check_database, check_query, spans
from language import Fault

POOL = (
    b"t",
    b"h0",
    b"h1",
    b"v1",
    b"r",
    b"s",
    b"c0",
    b"time",
    b"data",
    b"line",
    b"city",
    b"n",
    b"in",
    b"and",
    b"or",
    b"not",
    b"implies",
    b"exists",
    b"forall",
    b"where",
    b"relation",
    b"(",
    b")",
    b"{",
    b"}",
    b",",
    b":",
    b";",
    b"|",
    b"+",
    b"-",
    b"<=",
    b">=",
    b"<",
    b">",
    b"=",
    b"0",
    b"1",
    b"007",
    b"4611686018427387904",
    b"4611686018427387905",
    b'""',
    b'"a"',
    b'"' + b"A" * 256 + b'"',
    b'"',
    b"\xff",
    b"exists z: time",
    b"exists h0: data",
    b"r()",
    b"h0 + 1",
    b"\\",
)
CIVIL_POOL = (
    *(b"daily 08:15", b"daily 24:00", b"daily  08:15", b"daily 08:155", b"daily"),
    *(b"weekly mon 08:15", b"weekly Mon 08:15", b"weekly", b"mon", b"08", b":15"),
    *(b"on 1970-01-01 00:05", b"on 2023-02-29 00:00", b"on 2024-02-29", b"on", b"2024-02-29"),
)


TENSE_POOL = (
    *(b"once", b"always", b"since", b"until", b"once always (0, 1)", b"since always (0 < 1, 0 < 1)", b"until until ("),
    *(b"once (", b"once in 0+1n", b"always =", b"once exists", b"(0, 1)", b"(-1,", b"(0, 0)", b"always until (2, 1)"),
    *(b"once always (4611686018427387905, 0)", b'once "a"', b"since always (once(0), 0 < 1)", b"(0+1, 2)", b"once n"),
)


def mistaken(chance, text, pool=POOL):
    try:
        places = spans(text)
    except Fault:
        return text
    if not places:
        return text
    a, b = chance.choice(places)
    c, d = chance.choice(places)
    kind = chance.random()
    if kind < 0.5:
        return (
            text[:a] + b" " * (chance.random() < 0.5) + chance.choice(pool) + b" " * (chance.random() < 0.5) + text[b:]
        )
    if kind < 0.65:
        return text[:a] + text[b:]
    if kind < 0.75:
        return text[:b] + b" " + text[a:]
    return text[:a] + text[c:d] + text[b:]


def mistakes(program, case, count=3):
    for _ in range(count):
        check_database(program, mistaken(case.chance, case.database))
        check_query(program, case.database, mistaken(case.chance, case.query))
        check_query(program, case.database, mistaken(case.chance, mistaken(case.chance, case.query)))


def tense_mistakes(program, case, count=3):
    for _ in range(count):
        once = mistaken(case.chance, case.query, POOL + 2 * TENSE_POOL)
        check_query(program, case.database, once, "tense=yes")
        check_query(program, case.database, mistaken(case.chance, once, POOL + 2 * TENSE_POOL), "tense=yes")
        check_query(program, case.database, once)


def civil_mistakes(program, case, count=3):
    for _ in range(count):
        once = mistaken(case.chance, case.database, POOL + 3 * CIVIL_POOL)
        check_database(program, once, "civil=yes")
        check_database(program, mistaken(case.chance, once, POOL + 3 * CIVIL_POOL), "civil=yes")
