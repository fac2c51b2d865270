"""Each magnitude at its last value and one past it, for each command that has it. All outputs are worked out by hand."""

from common import digest, token
from language import LIMIT

BUS = b"relation bus(t: time) { (5+60n); }"
DEPARTURES = b"{ t: time | bus(t) }"
USAGE = b"refused: usage\n"
FORM, SHAPE, STALE = (b"refused: token %s\n" % it for it in (b"form", b"shape", b"stale"))
BOUND = b"refused: bound above 4611686018427387904\n"
PERIOD = b"refused: period above 4611686018427387904\n"
PLANNED = ("explain", "decide", "list from=0 to=0")


def lines(*numbers):
    return b"".join(b"%d\n" % it for it in numbers)


class Table:
    def __init__(self, program):
        self.program = program

    def bus(self, words, wanted, status=0, after=None):
        paging = [] if after is None else ["after=" + after]
        self.program.expect(wanted, status, *words.split(" "), *paging, database=BUS, query=DEPARTURES)

    def token(self, after, wanted, status=0):
        self.bus("list from=0 to=130", wanted, status, after)

    def usage(self, words):
        self.program.expect(USAGE, 2, *words.split(" "))

    def refused(self, wanted, database, query):
        for words in PLANNED:
            self.program.expect(wanted, 5, *words.split(" "), database=database, query=query)

    def is_planned(self, reach, database, query):
        """The query is not refused, and the last step has this reach."""
        status, text = self.program.run("explain", database=database, query=query)
        is_right = status == 0 and text.endswith(b"reach %d]\n" % reach)
        self.program.tally.check(is_right, "reach %d" % reach, database, query, text)


def magnitudes(program, tally):
    table = Table(program)
    for part in (windows, counts, tokens, periods, reaches, quantifiers, far_values, operators, canonical, kept):
        part(table)


def windows(table):
    first, last = -LIMIT + 9, LIMIT - 59  # the first and the last departure in -LIMIT..LIMIT
    table.bus("list from=%d to=%d" % (LIMIT - 100, LIMIT), lines(last) + b"end\n")
    table.bus("list from=%d to=%d" % (-LIMIT, -LIMIT + 100), lines(first, first + 60) + b"end\n")
    table.bus("list from=%d to=%d" % (LIMIT, LIMIT), b"end\n")
    table.bus("list from=%d to=%d" % (last, last), lines(last) + b"end\n")
    table.bus(
        "list from=%d to=%d limit=1" % (-LIMIT, LIMIT),
        lines(first) + b"more T2/%s/%d/\n" % (digest(BUS, DEPARTURES).encode(), first),
    )
    for end in (LIMIT + 1, 2**63 - 1, 2**63, 2**64, 2**64 + 5, 10**40):
        table.usage("list db=a query=b from=0 to=%d" % end)
        table.usage("list db=a query=b from=%d to=0" % -end)
        table.usage("list db=a query=b from=%d to=%d" % (-end, end))
    for spelled in ("-0", "00", "+1", "01", "-01", "", "-", "1.", "1e3", "0x1", "١", "1_0", "--1", "1-"):
        table.usage("list db=a query=b from=%s to=9" % spelled)
        table.usage("list db=a query=b from=0 to=%s" % spelled)


def counts(table):
    table.bus("list from=0 to=130 limit=1000000 cap=1000000000", lines(5, 65, 125) + b"end\n")
    table.bus("list from=0 to=130 limit=3 cap=1", lines(5, 65, 125) + b"end\n")
    table.bus("decide cap=1000000000", b"Nonempty\n5\n")
    for key, least, most in (("limit", 1, 1000000), ("cap", 1, 1000000000)):
        for number in (least - 1, most + 1, -1, 2**32, 2**32 + 1, 2**64, 2**64 + 1, 10**30):
            table.usage("list db=a query=b from=0 to=9 %s=%d" % (key, number))
    for number in (0, 1000000001, 2**32 + 1):
        for command in ("ask", "decide"):
            table.usage("%s db=a query=b cap=%d" % (command, number))
    for words in (
        "seed=1000001 size=1",
        "seed=0 size=0",
        "seed=0 size=501",
        "seed=-1 size=1",
        "seed=0",
        "size=1",
        "seed=4294967296 size=1",
    ):
        table.usage("sample " + words)


def tokens(table):
    all_three, end = lines(5, 65, 125) + b"end\n", b"end\n"
    files = digest(BUS, DEPARTURES)
    for time, wanted in (
        (-LIMIT, all_three),
        (LIMIT, end),
        (4, all_three),
        (5, lines(65, 125) + end),
        (124, lines(125) + end),
        (125, end),
    ):
        table.token(token([time], []), wanted)
        table.token(token([time], [], files), wanted)
        table.token(token([time], [], "0" * 64), STALE, 4)
    for spelled in (
        LIMIT + 1,
        -LIMIT - 1,
        2**63,
        2**64 + 5,
        10**40,
        "-0",
        "00",
        "05",
        "+5",
        " 5",
        "5 ",
        "5,",
        ",5",
        "5,,5",
        "x",
        "-",
        "5\n",
    ):
        table.token("T1/%s/" % spelled, FORM, 4)
        table.token("T2/%s/%s/" % (files, spelled), FORM, 4)
    for count in (0, 2, 8, 9, 1000):
        table.token(token([5] * count, []), SHAPE, 4)
        table.token(token([5] * count, [], "0" * 64), SHAPE, 4)
    for text in (b"a", b"", b"A" * 255, "Zürich".encode()):
        table.token(token([5], [text]), SHAPE, 4)
    for hexed in ("41" * 256, "00", "1f", "7f", "ff", "c3", "eda080", "4", "4G", "C3BC", "é"):
        table.token("T1/5/x" + hexed, FORM, 4)
    for spelled in (
        "",
        "T1",
        "T1/",
        "T1/5",
        "T1/5//",
        "T1/5/x41,",
        "T1/5/41",
        "T0/5/",
        "T3/5/",
        "t1/5/",
        "T1//5",
        "T2/5/",
        "T1/5/ ",
        " T1/5/",
        "T1/5/\n",
        "T2/%s/5/" % files[:63],
        "T2/%s0/5/" % files,
        "T2/%s/5/" % files.upper(),
        "T2/%s/5" % files,
        "T2//5/",
    ):
        table.token(spelled, FORM, 4)


def periods(table):
    a = lambda period: b"relation a(t: time) { (1+%dn); }" % period
    both = lambda first, second: b"relation a(t: time) { (0+%dn); } relation b(t: time) { (0+%dn); }" % (first, second)
    query, pair = b"{ t: time | a(t) }", b"{ t: time | (a(t) and b(t)) }"
    greatest = 1 << 60
    table.is_planned(greatest, a(greatest), query)
    table.refused(BOUND, a(greatest + 1), query)
    table.refused(BOUND, a(LIMIT), query)
    table.refused(PERIOD, both(LIMIT, 3), pair)
    table.refused(PERIOD, both(1 << 31, (1 << 31) + 1), pair)
    table.refused(BOUND, both(1 << 31, (1 << 31) - 1), pair)
    table.refused(PERIOD, BUS, b"{ t: time | (t in 0+%dn or t in 0+%dn) }" % (LIMIT - 1, LIMIT - 3))
    table.refused(BOUND, BUS, b"{ t: time | t in 0+%dn }" % LIMIT)
    table.program.expect(b"Nonempty\n1\n", 0, "decide", database=a(greatest), query=query)
    far = [1 + greatest * it for it in range(-4, 4)]
    table.program.expect(
        lines(*far) + b"end\n", 0, "list", "from=%d" % -LIMIT, "to=%d" % LIMIT, database=a(greatest), query=query
    )


def reaches(table):
    """A scan has the greatest bound, twice the greatest offset and the period; each time column of the head doubles."""
    least = b"relation a(t: time) { (0+1n) where t >= %d; }"
    query = b"{ t: time | a(t) }"
    most = (1 << 60) - 1
    table.is_planned(most + 1, least % most, query)
    table.refused(BOUND, least % (most + 1), query)
    table.program.expect(b"Nonempty\n%d\n" % most, 0, "decide", database=least % most, query=query)
    table.program.expect(
        b"Nonempty\n%d\n" % -most,
        0,
        "decide",
        database=b"relation a(t: time) { (0+1n) where t <= %d; }" % -most,
        query=query,
    )
    shifted, far = b"{ t: time | bus(t + %d) }", (1 << 59) - 30
    table.is_planned(1 << 60, BUS, shifted % far)
    table.refused(BOUND, BUS, shifted % (far + 1))
    nearest = min((it for it in range(-60, 60) if (it + far - 5) % 60 == 0), key=lambda it: (abs(it), it < 0))
    table.program.expect(b"Nonempty\n%d\n" % nearest, 0, "decide", database=BUS, query=shifted % far)
    eight = b", ".join(b"c%d: time" % it for it in range(8))
    compared = b"{ " + eight + b" | c0 >= c7 + %d }"
    greatest = (1 << 53) - 1
    table.is_planned(1 << 53, b"", compared % greatest)
    table.refused(BOUND, b"", compared % (greatest + 1))
    table.program.expect(
        b"Nonempty\n0, 0, 0, 0, 0, 0, 0, %d\n" % -greatest, 0, "decide", database=b"", query=compared % greatest
    )
    sides = b"{ | exists t: time (t - %d < t + %d) }"
    half = (1 << 59) - 1
    table.is_planned(1 << 61, b"", sides % (half + 1, half))
    table.refused(BOUND, b"", sides % (half + 1, half + 1))


def quantifiers(table):
    nested = lambda count: b"{ | " + b"".join(b"exists x%d: time " % it for it in range(count)) + b"0 <= 0 }"
    table.is_planned(1 << 61, b"", nested(61))
    table.refused(BOUND, b"", nested(62))


def operators(table):
    """The ends of operators: a comparison has its offset, and one more; the drop of the operator's variable doubles."""
    expect, bus = table.program.expect, {"database": BUS}
    once = b"{ t: time | once t (%d, %d) bus(t) }"
    far = (1 << 59) - 61
    status, text = table.program.run("explain", "tense=yes", query=once % (-far, 0), **bus)
    table.program.tally.check(status == 0 and text.endswith(b"reach %d]\n" % (1 << 60)), "once at its last value", text)
    for query in (once % (-far - 1, 0), once % (0, far + 1), once % (LIMIT, LIMIT), once % (-LIMIT, -LIMIT)):
        for words in PLANNED:
            expect(BOUND, 5, *words.split(" "), "tense=yes", query=query, **bus)
    for by in (far, -far):
        nearest = min((it for it in range(-60, 60) if (it + by - 5) % 60 == 0), key=lambda it: (abs(it), it < 0))
        expect(b"Nonempty\n%d\n" % nearest, 0, "decide", "tense=yes", query=once % (by, by), **bus)
    expect(lines(*range(130)) + b"end\n", 0, "list", "from=0", "to=129", "tense=yes", query=once % (-far, 0), **bus)
    for ends, column in (((LIMIT + 1, 0), 21), ((-LIMIT - 1, 0), 22), ((0, LIMIT + 1), 24), ((0, 2**64), 24)):
        fault = b"refused: query Number at 1:%d\n" % column
        expect(fault, 4, "decide", "tense=yes", query=once % ends, **bus)
    expect(b"Empty\n", 0, "decide", "tense=yes", query=once % (1, 0), **bus)
    always = b"{ t: time | always t (%d, %d) bus(t) }"
    expect(b"Nonempty\n0\n", 0, "decide", "tense=yes", query=always % (1, 0), **bus)
    expect(b"Nonempty\n0\n", 0, "decide", "tense=yes", query=always % (far // 4, -far // 4), **bus)
    expect(b"Nonempty\n4\n", 0, "decide", "tense=yes", query=always % (1, 1), **bus)
    expect(b"Empty\n", 0, "decide", "tense=yes", query=always % (1, 2), **bus)
    for command in ("ask", "decide", "list", "explain"):
        words = [command, "db=none", "query=none"] + ["from=0", "to=5"] * (command == "list")
        for value in ("", "Yes", "true", "1", "y", "yes "):
            table.program.expect(USAGE, 2, *words, "tense=" + value)
        table.program.expect(USAGE, 2, *words, "tense=no", "tense=no")
        table.program.expect(b"refused: read of database\n", 6, *words, "tense=no")
    table.usage("check db=none tense=no")
    table.usage("sample seed=0 size=1 tense=no")


def canonical(table):
    """Great periods, bounds and numbers of rows in canonical answers, heads of every number of time columns, and the word."""
    far, greatest = (1 << 60) - 1, 1 << 60
    one = lambda *rows: b"relation answer(t: time) {\n%s}\n" % b"".join(b"  %s;\n" % row for row in rows)

    def ask(wanted, rows, *words, status=0, query=b"{ t: time | r(t) }"):
        words = ["ask", "canon=yes", *words]
        table.program.expect(wanted, status, *words, database=b"relation r(t: time) { %s }" % rows, query=query)

    ask(one(b"(1+%dn)" % greatest), b"(1+%dn);" % greatest)
    ask(one(b"(0+%dn)" % (greatest - 93), b"(9+%dn)" % (greatest - 93)), b"(0+%dn); (9+%dn);" % ((greatest - 93,) * 2))
    ask(one(b"(1+%dn)" % (greatest // 2)), b"(%d+%dn); (1+%dn);" % (1 + greatest // 2, greatest, greatest))
    ask(one(b"(0+1n)"), b"".join(b"(%d+7n); " % it for it in (3, 0, 6, 1, 5, 2, 4)))
    ask(one(*(b"(0+1n) where t >= %d, t <= %d" % (it, it) for it in (-far, far))), b"(%d); (%d);" % (far, -far))
    ask(one(b"(0+1n) where t >= %d" % far), b"(0+1n) where t >= %d;" % far)
    ask(one(b"(0+1n) where t <= %d" % -far), b"(0+1n) where t <= %d;" % -far)
    whole = b"(0+%dn) where t >= %d, t <= %d;"
    ask(one(b"(0+1n) where t >= %d, t <= %d" % (-far, far)), whole % (1, -far, far), "cap=1")
    ask(BOUND, whole % (1, -far, far + 1), status=5)
    more = lambda cap: b"refused: more than %d canonical rows\n" % cap
    for rows in (1001, 2**32 - 1, 2**32, 2**32 + 1, 2**32 + 1001, 2**33 + 1, 2**58):
        for cap in (1, 2, 1000):
            ask(more(cap), whole % (2, 0, 2 * rows - 2), "cap=%d" % cap, status=5)
    ask(more(1000000000), whole % (2, 1 - far, far - 1), "cap=1000000000", status=5)
    ask(more(1000000), whole % (3, 0, 3000000), status=5)
    many = one(*(b"(0+1n) where t >= %d, t <= %d" % (it, it) for it in range(0, 2000, 2)))
    ask(many, whole % (2, 0, 1999), "cap=1000")
    ask(more(999), whole % (2, 0, 1999), "cap=999", status=5)
    canonical_heads(table)


def canonical_heads(table):
    times = lambda count: ["t%d: time" % it for it in range(count)]
    texts = lambda count: ["d%d: data" % it for it in range(count)]
    words = ["ask", "canon=yes"]
    for head in ([], times(2), times(8), texts(1), texts(8), [*texts(3), *times(2)]):
        query = ("{ %s | 0 = 0 }" % ", ".join(head)).encode()
        table.program.expect(b"refused: canon needs one time column\n", 4, *words, database=BUS, query=query)
    head = [*texts(4), "t0: time", *texts(8)[4:]]
    query = ("{ %s | (%s) }" % (", ".join(head), " and ".join('d%d = "x"' % it for it in range(8)))).encode()
    wanted = b"relation answer(%s) {\n  (%s, 0+1n, %s);\n}\n"
    shown = wanted % (", ".join(head).encode(), b", ".join([b'"x"'] * 4), b", ".join([b'"x"'] * 4))
    table.program.expect(shown, 0, *words, database=BUS, query=query)
    for value in ("", "Yes", "true", "1", "y", "yes "):
        table.program.expect(USAGE, 2, "ask", "db=none", "query=none", "canon=" + value)
    table.usage("ask db=none query=none canon=no canon=no")
    table.program.expect(b"refused: read of database\n", 6, "ask", "db=none", "query=none", "canon=no")
    for line in ("decide db=a query=b", "list db=a query=b from=0 to=5", "explain db=a query=b", "check db=a"):
        table.usage(line + " canon=no")
    table.usage("sample seed=0 size=1 canon=no")


def kept(table):
    """Periods, bounds, offsets, tests and cells of kept answers at the last value and one past it, at the opening and at edits."""
    period, bound = "period above %d" % LIMIT, "bound above %d" % LIMIT
    refused = lambda what, edit: "refused: %s at edit %d\n" % (what, edit)

    def watch(wanted, rows, edits, *words, query=DEPARTURES):
        table.program.write("edits", edits.encode())
        database = ("relation bus(t: time) { %s }" % rows).encode()
        status = 5 if wanted.startswith("refused") else 0
        table.program.expect(wanted.encode(), status, "watch", "edits=edits", *words, database=database, query=query)

    # One atom, and one time column in the head: four times the greatest bound and twice the period is to be at most 2^62.
    most, longest = (1 << 60) - 2, 1 << 59
    row = "(0+1n) where t <= %d;"
    watch("0\n", row % most, "")
    watch(refused(bound, 0), row % (most + 1), "")
    watch("none\n0\nnone\n", "", "+ bus %s - bus %s" % (row % most, row % most))
    watch(refused(bound, 1), "", "+ bus " + row % (most + 1))
    watch("none\n0\n", "", "+ bus (0+1n) where t >= -%d;" % most)
    watch(refused(bound, 1), "", "+ bus (0+1n) where t >= -%d;" % (most + 1))
    watch("none\n5\n", "", "+ bus (5+%dn);" % longest)
    watch(refused(bound, 1), "", "+ bus (5+%dn);" % (longest + 1))
    # What was let go still counts, and so do twice the offset of the atom and each test.
    watch(refused(bound, 3), "", "+ bus %s - bus %s + bus (0+2n);" % (row % most, row % most))
    for text, less in ((b"{ t: time | bus(t + 7) }", 14), (b"{ t: time | (bus(t) and t >= 0) }", 1)):
        watch("0\n", row % (most - less), "", query=text)
        watch(refused(bound, 0), row % (most - less + 1), "", query=text)
    watch("0\n0\n", "(0+%dn);" % (1 << 31), "+ bus (1+%dn);" % (1 << 20))
    watch(refused(period, 1), "(0+%dn);" % (1 << 31), "+ bus (0+%dn);" % ((1 << 31) + 1))
    watch(refused(bound, 1), "(0+%dn);" % (1 << 31), "+ bus (0+%dn);" % LIMIT)
    # A row of period 1 has as many cells as the common period.
    watch("0\n0\n", "(0+1n);", "+ bus (0+420n);", "cap=420")
    watch(refused("more than 419 cells", 1), "(0+1n);", "+ bus (0+420n);", "cap=419")


def far_values(table):
    far = b"relation r(t: time) { (%d); (%d); }" % (LIMIT, -LIMIT)
    table.program.expect(
        b"relation r(t: time) {\n  (0+1n) where t <= %d, t >= %d;\n  (0+1n) where t <= %d, t >= %d;\n}\n"
        % (LIMIT, LIMIT, -LIMIT, -LIMIT),
        0,
        "check",
        database=far,
    )
    table.refused(BOUND, far, b"{ t: time | r(t) }")
    text = b"relation r(t: time) { (%d+7n); (-%d+7n); }" % (LIMIT, LIMIT)
    table.program.expect(
        b"relation r(t: time) {\n  (%d+7n);\n  (%d+7n);\n}\n" % (LIMIT % 7, -LIMIT % 7), 0, "check", database=text
    )
    instant = (1 << 60) - 1
    table.program.expect(
        lines(instant) + b"end\n",
        0,
        "list",
        "from=0",
        "to=%d" % LIMIT,
        database=b"relation r(t: time) { (%d); }" % instant,
        query=b"{ t: time | r(t) }",
    )
