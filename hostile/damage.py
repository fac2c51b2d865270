"""Damaged texts: cut, with a byte replaced, with two tokens exchanged; deep, long and large ones."""

import glob
import itertools
import os
import random

from civil import plain_text
from common import EXAMPLES, LONGEST, refusal
from language import Fault, LIMIT, QUERY_KINDS, Lexer, read_database, relation_text
from plan import Plan
from tense import read_tense

NASTY = b'\x00\x7f\x80\xc3\xff"\\#\n{(9n-+=<|,;:_'
BUS = b"relation bus(t: time) { (5+60n); }"
SMALL = b"""relation bus(dep: time, arr: time, line: data) { (5+60n, 30+60n, "7\\"") where arr = dep + 25, dep >= -3; (-4, 6, ""); }
# two
relation on(t: time, l: line) { }"""
DATED = b"""relation on(on: time, daily: time, line: data) { (on 1969-12-31 08:15, -1, "daily 08:15"); # daily 08:15
 (weekly sun 23:59, daily 00:00, "") where on >= on 2024-02-29 00:00, daily = on - 5; } relation daily() { }"""
ASKED = b"""{ t: time, k: line | (exists u: time (bus(t, u + 1, "7") and u <= t - 2 and not t in -1+4n) # x
 or forall l: line (on(t, l) implies l = k) or 3 < t) }"""

TENSED = b"""{ t: time, k: line | (once t (-10, 0) always t ( 2,-1) on(t, k) # x
 and since t (not until t (0 < 1, t in 3+4n), exists u: time once u (4, 4) bus(u, t, "7")) or once = 3) }"""


def relations_of(text, keys):
    """The relations of a database, which has civil values where the keys say so."""
    return read_database(plain_text(text) if "civil=yes" in keys else text)


def of_database(text, *keys):
    """What check has to end with, by the second reader."""
    try:
        return 0, "".join(map(relation_text, relations_of(text, keys).values())).encode()
    except Fault as fault:
        return 3, refusal("database", fault)


def of_query(relations, text, *keys):
    """What explain has to end with, by the second reader and planner."""
    try:
        plan = Plan(relations, read_tense(text, relations, "tense=yes" in keys)[1])
    except Fault as fault:
        return 4, refusal("query", fault)
    refused = plan.refusal()
    return (5, refused.encode()) if refused else (0, plan.text().encode())


def check_database(program, text, *keys):
    status, wanted = of_database(text, *keys)
    program.expect(wanted, status, "check", *keys, database=text)


def check_query(program, database, text, *keys):
    status, wanted = of_query(relations_of(database, keys), text, *keys)
    program.expect(wanted, status, "explain", *keys, database=database, query=text)


def examples():
    """The databases of the examples of use, which have a page of their own, and each query with its database, and their keys."""
    seen = set()
    for page in sorted(glob.glob(os.path.join(EXAMPLES, "*", "README.md"))):
        for case in cases_of(os.path.dirname(page)):
            keys = [key + "=yes" for key in ("civil", "tense") if case.get(key) == "yes"]
            for pair in ((case.get("db"), None), (case.get("db"), case.get("query"))):
                texts = (
                    *(content(page, name) for name in pair),
                    *(key for key in keys if pair[1] or key == "civil=yes"),
                )
                if texts[0] is not None and texts not in seen:
                    seen.add(texts)
                    yield texts


def cases_of(folder):
    """The words of each case, by key."""
    with open(os.path.join(folder, "cases")) as file:
        for line in file:
            words = line.split("#")[0].split()
            yield dict(word.partition("=")[::2] for word in words[3:])


def content(page, name):
    path = os.path.join(os.path.dirname(page), name or "")
    if not os.path.isfile(path):
        return None
    with open(path, "rb") as file:
        return file.read()


def texts_of(few):
    """Small texts of every construct, and where not few the examples too: a database, a query or none, and keys."""
    texts = [] if few else list(examples())
    return [(SMALL, None), (SMALL, ASKED), *texts, (DATED, None, "civil=yes"), (SMALL, TENSED, "tense=yes")]


def check(program, database, query, *keys):
    if query is None:
        check_database(program, database, *keys)
    else:
        check_query(program, database, query, *keys)


def changed(database, query, change):
    return (change(database), None) if query is None else (database, change(query))


def cuts(program, tally, few=False):
    for database, query, *keys in texts_of(few):
        whole = database if query is None else query
        for length in range(len(whole) + 1):
            check(program, *changed(database, query, lambda text: text[:length]), *keys)


def replaced(program, tally, few=False):
    chance = random.Random(1)
    for database, query, *keys in texts_of(few):
        whole = database if query is None else query
        for at in range(len(whole)):
            nasty = NASTY if database in (SMALL, DATED) and not few else chance.sample(NASTY, 2)
            for byte in nasty:
                check(
                    program, *changed(database, query, lambda text: text[:at] + bytes([byte]) + text[at + 1 :]), *keys
                )


def spans(text):
    """The bytes of each token."""
    lexer = Lexer(text, QUERY_KINDS)
    found = []
    while lexer.token.kind not in ("end", "bad"):
        line, column = lexer.token.place
        start = sum(len(it) + 1 for it in text.split(b"\n")[: line - 1]) + column - 1
        found.append((start, lexer.at))
        lexer.token = lexer.next()
    return found


def exchanged(program, tally, few=False):
    """Each pair of tokens of the small texts, and some pairs of the examples; where few, some pairs of each."""
    chance = random.Random(2)
    for database, query, *keys in texts_of(few):
        whole = database if query is None else query
        pairs = list(itertools.combinations(spans(whole), 2))
        most = len(pairs) if database in (SMALL, DATED) else 400
        for (a, b), (c, d) in chance.sample(pairs, min(len(pairs), 300 if few else most)):
            exchange = lambda text: text[:a] + text[c:d] + text[b:c] + text[a:b] + text[d:]
            check(program, *changed(database, query, exchange), *keys)


def left_out(program, tally, few=False):
    """Each token left out, and each one twice."""
    for database, query, *keys in texts_of(few):
        whole = database if query is None else query
        for a, b in spans(whole):
            check(program, *changed(database, query, lambda text: text[:a] + text[b:]), *keys)
            check(program, *changed(database, query, lambda text: text[:b] + b" " + text[a:]), *keys)


def deep(program, tally, few=False):
    """Formulas of the greatest depth, one more, and as deep as a file is long."""
    for front, back in (
        (b"not ", b""),
        (b"(", b")"),
        (b"exists a: time ", b""),
        (b"(0 < 1 and ", b")"),
        (b"(0 < 1 implies ", b")"),
        (b"(not ", b")"),
        (b"once t (0, 0) ", b""),
        (b"since t (0 < 1, ", b")"),
        (b"until t (", b", 0 < 1)"),
    ):
        is_tense = b" t (" in front
        head = b"{ t: time | " if is_tense else b"{ | "
        per_turn = 2 if front == b"(not " else 1
        for depth in (62, 63, 64, 65, 66, 1000, 100000) + (() if few else (2000000,)):
            if len(front + back) * depth <= LONGEST - 100:
                names = front.replace(b"a", b"a%d") if b"exists" in front else front
                opened = (
                    b"".join(b"exists a%d: time " % i for i in range(depth))
                    if names != front
                    else front * (depth // per_turn)
                )
                text = head + opened + b"0 <= 0" + back * (depth // per_turn) + b" }"
                if len(text) <= LONGEST:
                    deep_one(program, text, depth, *(["tense=yes"] if is_tense else []))


def deep_one(program, text, depth, *keys):
    if depth <= 1000:
        check_query(program, b"", text, *keys)
    else:  # the fault at depth 65 is the same
        at_65 = of_query({}, text[:4000], *keys)[1]
        program.expect(at_65, 4, "explain", *keys, database=b"", query=text)


NO_UTF_8 = (
    b"\x80",
    b"\xbf",
    b"\xc0\x80",
    b"\xc1\xbf",
    b"\xc3",
    b"\xc3(",
    b"\xe0\x80\x80",
    b"\xe0\x9f\xbf",
    b"\xe2\x82",
    b"\xe2(\xa1",
    b"\xed\xa0\x80",
    b"\xed\xbf\xbf",
    b"\xf0\x80\x80\x80",
    b"\xf0\x8f\xbf\xbf",
    b"\xf0\x9f\x98",
    b"\xf4\x90\x80\x80",
    b"\xf5\x80\x80\x80",
    b"\xfe",
    b"\xff",
    b"\xef\xbf",
)
UTF_8 = (
    b"\xc2\x80",
    b"\xdf\xbf",
    b"\xe0\xa0\x80",
    b"\xed\x9f\xbf",
    b"\xee\x80\x80",
    b"\xef\xbb\xbf",
    b"\xef\xbf\xbf",
    b"\xf0\x90\x80\x80",
    b"\xf4\x8f\xbf\xbf",
    b"\xc2\x85",
    b"\xe2\x80\xa8",
)


def encodings(program, tally, few=False):
    """The first and the last sequences of UTF-8 of each length, and what is next to them, in texts, in comments and elsewhere."""
    for bytes_of in NO_UTF_8 + UTF_8:
        for front, back in (
            (b"", b""),
            (b"# ", b""),
            (b"# ", b"\n"),
            (b'relation r(d: data) { ("', b'"); }'),
            (b'relation r(d: data) { ("\\', b'"); }'),
            (b"relation r(", b": time) {}"),
            (b"relation!\n", b""),
        ):
            check_database(program, front + bytes_of + back)
        for front, back in (
            (b"{ | # ", b"\n0 < 1 }"),
            (b'{ | "', b'" = "a" }'),
            (b"{ | ", b"0 < 1 }"),
            (b"{ | 0 < 1 }", b""),
        ):
            check_query(program, BUS, front + bytes_of + back)


def large(program, tally, few=False):
    """Names, texts and numbers of the greatest length and size, and one more."""
    for length in (1, 255, 4096, 1000000):
        name = b"a" * length
        check_database(program, b"relation " + name + b"(" + name + b": " + name + b') { ("x"); }')
        check_query(
            program,
            b"relation " + name + b"(t: time) { (0+2n); }",
            b"{ " + name + b": time | " + name + b"(" + name + b") }",
        )
    for text in (
        b"A" * 255,
        b"A" * 256,
        b"\xc3\xa9" * 127,
        b"\xc3\xa9" * 128,
        b'\\"' * 255,
        b'\\"' * 256,
        b"\\\\" * 255,
        b"A" * 1000000,
    ):
        check_database(program, b'relation r(d: data) { ("' + text + b'"); }')
        check_query(program, b"relation r(d: data) { }", b'{ | r("' + text + b'") }')
        check_database(program, b'relation r(d: data) { ("' + text)
    for number in (LIMIT - 1, LIMIT, LIMIT + 1, 2**63 - 1, 2**63, 2**64, 2**64 + 1, 10**38, 10**50):
        for spelled in (b"%d" % number, b"000%d" % number, b"-%d" % number):
            check_database(program, b"relation r(t: time) { (" + spelled + b"); }")
            check_database(program, b"relation r(t: time) { (" + spelled + b"+1n); }")
            check_database(program, b"relation r(t: time) { (0+1n) where t <= " + spelled + b"; }")
            check_query(program, BUS, b"{ t: time | t <= " + spelled + b" }")
            check_query(program, BUS, b"{ t: time | t in " + spelled + b"+2n }")
            check_query(program, BUS, b"{ t: time | bus(" + spelled + b") }")
        for database in (
            b"relation r(t: time) { (0+%dn); }",
            b"relation r(t: time) { (0+1n) where t = t - %d; }",
            b"relation r(t: time) { (0+1n) where t >= t + %d; }",
        ):
            check_database(program, database % number)
        for query in (
            b"{ t: time | t in 0+%dn }",
            b"{ t: time | bus(t + %d) }",
            b"{ t: time | t - %d < t }",
            b"{ t: time | t + %d = 1 }",
        ):
            check_query(program, BUS, query % number)
    wide(program)


def wide(program):
    """Eight columns or variables of times, of one data sort and of two, and one or two more; and eight of each kind beside nine."""
    for times, texts in ((8, 0), (9, 0), (10, 0), (0, 8), (0, 9), (8, 8), (8, 9), (9, 8)):
        for sorts in (["data"], ["line"], ["data", "line"]):
            columns = [("t%d" % i, "time") for i in range(times)] + [
                ("d%d" % i, sorts[i % len(sorts)]) for i in range(texts)
            ]
            spelled = ["%s: %s" % it for it in columns]
            same = " and ".join("%s = %s" % (name, name) for name, _ in columns)
            listing, bound = ", ".join(spelled), " ".join("exists " + it for it in spelled)
            check_database(program, ("relation r(%s) { }" % listing).encode())
            for query in ("{ %s | 0 = 0 }" % listing, "{ | %s (%s) }" % (bound, same), "{ | %s 0 = 0 }" % bound):
                check_query(program, b"relation l(x: line) { }", query.encode())


GROUPS = [
    ("texts cut", cuts),
    ("bytes replaced", replaced),
    ("tokens left out and doubled", left_out),
    ("tokens exchanged", exchanged),
    ("encodings", encodings),
    ("deep formulas", deep),
    ("long and large", large),
]
