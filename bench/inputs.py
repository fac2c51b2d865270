"""The inputs of the benchmark: families of a database, a query, perhaps edits, and a command, each at several sizes.

A family is a function of the size that gives a Case. Its smallest sizes have an output that is worked
out here, without the program: by going over a window, as long as the relations' periods ask for.
"""

import collections
import hashlib
import itertools
import math
from dataclasses import dataclass
from typing import Callable, Optional

WEEK = 10080
DAY = 1440
LIMIT = 1 << 62


@dataclass
class Case:
    """One run: what the files hold, the words, and how many units of result the run is measured by."""

    words: list
    database: str
    query: str = ""
    units: Optional[int] = None  # cells that the largest step inhabits, where that is known; else lines are counted
    unit: str = "cells"
    output: Optional[str] = None  # worked out apart, where the size is small
    status: int = 0
    edits: str = ""


@dataclass
class Family:
    name: str
    table: str
    sizes: tuple
    make: Callable
    about: str
    needs_ask: bool = False
    by_units: bool = False  # growth is taken by the units of result, where the size is an exponent


FAMILIES = []


def family(name, table, sizes, about, **how):
    def keep(make):
        FAMILIES.append(Family(name, table, sizes, make, about, **how))
        return make

    return keep


# Texts


def relation(name, columns, rows):
    return "relation %s(%s) {\n%s}\n" % (name, ", ".join(columns), "".join("  %s;\n" % row for row in rows))


def times(*names):
    return ["%s: time" % name for name in names]


def query(head, body):
    return "{ %s | %s }\n" % (", ".join(head), body)


def listed(start, end, limit=1000000):
    return ["list", "from=%d" % start, "to=%d" % end, "limit=%d" % limit]


def lines_of(answers):
    """The plain lines of tuples of integers and of texts, in their order."""
    show = lambda value: str(value) if isinstance(value, int) else '"%s"' % value
    return "".join("%s\n" % (", ".join(map(show, answer)) or "()") for answer in answers)


def whole_page(answers):
    return lines_of(sorted(answers)) + "end\n"


def token(database, text, answer):
    """The token after the line of an answer without texts."""
    half = lambda bytes_of: hashlib.sha256(bytes_of.encode()).digest()
    return "T2/%s/%s/" % (hashlib.sha256(half(database) + half(text)).hexdigest(), ",".join(map(str, answer)))


def page(database, text, answers, limit):
    """The page of a sorted list of answers in times alone, with its last line."""
    if len(answers) <= limit:
        return lines_of(answers) + "end\n"
    return lines_of(answers[:limit]) + "more %s\n" % token(database, text, answers[limit - 1])


def ranked(reach):
    """0, 1, -1, 2, -2 and so on."""
    return [0] + [value for step in range(1, reach + 1) for value in (step, -step)]


def nearest(columns, holds, reach=12):
    """What decide writes, where some answer has all its times within the reach."""
    found = next((answer for answer in itertools.product(ranked(reach), repeat=columns) if holds(*answer)), None)
    return "Empty\n" if found is None else "Nonempty\n" + lines_of([found])


def scattered(count):
    """Different minutes of the week at uneven distances: a walk that comes to each minute once."""
    return list(
        itertools.islice(itertools.accumulate(itertools.repeat(3571), lambda at, step: (421 * at + step) % WEEK), count)
    )


# Steps, part one


def timetable(copies):
    """A week's rides by way of each copy's own station, seven minutes later in each further copy."""
    rides = []
    for copy in range(copies):
        late, via = 7 * copy, "Main %d" % copy
        rides.append((5 + late, 60, 25, "Airport", via))
        rides += [(60 * hour + 40 + late, DAY, 35, via, "Zoo") for hour in range(5, 23)]
        rides += [(DAY * day + 1385 + 15 * boat + late, WEEK, 20, via, "Port") for day in range(7) for boat in range(3)]
    return [(leave % period, period, length, start, goal) for leave, period, length, start, goal in rides]


@family("connections", "one", (1, 10, 100), "connections of a week with one change, N copies of the timetable")
def connections(size):
    rides = timetable(size)
    rows = [
        '(%d+%dn, %d+%dn, "%s", "%s") where arr = dep + %d'
        % (leave, period, (leave + length) % period, period, start, goal, length)
        for leave, period, length, start, goal in rides
    ]
    database = relation("trip", times("dep", "arr") + ["start: data", "goal: data"], rows)
    text = query(
        times("d", "a"),
        'exists b: time exists c: time exists h: data (trip(d, b, "Airport", h) and trip(c, a, h, "Zoo") and c >= b + 5 and c <= b + 30)',
    )
    return Case(listed(0, WEEK - 1), database, text, output=whole_page(connected(rides)) if size <= 10 else None)


def connected(rides):
    """Each departure from the airport and arrival at the zoo, within the week."""
    found = set()
    for leave, period, length, start, via in rides:
        for late, other, more, change, goal in rides:
            if start != "Airport" or goal != "Zoo" or via != change:
                continue
            for dep in range(leave, WEEK, period):
                for change_at in range(dep + length + 5, dep + length + 31):
                    if (change_at - late) % other == 0 and change_at + more < WEEK:
                        found.add((dep, change_at + more))
    return found


@family(
    "unconnected",
    "one",
    (20, 100, 500),
    "departures of N trips a day after whose arrival none leaves within 15 minutes",
)
def unconnected(size):
    trips = [((37 * i) % DAY, 10 + i % 50, "L%d" % (i % 10)) for i in range(size)]
    rows = [
        '(%d+1440n, %d+1440n, "%s") where arr = dep + %d' % (leave, (leave + length) % DAY, line, length)
        for leave, length, line in trips
    ]
    database = relation("trip", times("dep", "arr") + ["line: data"], rows)
    text = query(
        times("t") + ["l: data"],
        "exists u: time (trip(t, u, l) and not exists v: time exists w: time exists k: data (trip(v, w, k) and v >= u and v <= u + 15))",
    )
    departures = {leave for leave, _, _ in trips}
    found = {
        (leave, line)
        for leave, length, line in trips
        if not any((leave + length + wait) % DAY in departures for wait in range(16))
    }
    return Case(listed(0, DAY - 1), database, text, output=whole_page(found) if size <= 100 else None)


@family(
    "fixed difference",
    "one",
    (630, 2520, 10080, 100000),
    "a fixed difference of period 1 joined to a period of N by an or",
)
def fixed_difference(size):
    database = relation("d", times("a", "b"), ["(0+1n, 0+1n) where b = a + 25"]) + relation(
        "w", times("t"), ["(0+%dn)" % size]
    )
    text = query(times("x", "y"), "(d(x, y) or (w(x) and w(y)))")
    holds = lambda x, y: y == x + 25 or x % size == 0 and y % size == 0
    return Case(["decide"], database, text, units=size + 1, output=nearest(2, holds) if size <= 2520 else None)


def gap_of(starts):
    """The greatest distance from one start to the next, round the week."""
    starts = sorted(starts)
    return max(after - before for before, after in zip(starts, starts[1:] + [starts[0] + WEEK]))


@family(
    "gap", "one", (1, 10, 60), "for each minute a departure within the week's greatest gap, N uneven departures a week"
)
def gap(size):
    starts = scattered(size)
    database = relation("bus", times("t"), ["(%d+10080n)" % start for start in starts])
    within = gap_of(starts) - 1
    text = query([], "forall t: time exists u: time (bus(u) and u >= t and u <= t + %d)" % within)
    departures = set(starts)
    holds = all(any((t + wait) % WEEK in departures for wait in range(within + 1)) for t in range(WEEK))
    return Case(["decide"], database, text, output="Nonempty\n()\n" if holds else "Empty\n")


@family(
    "gap of rides",
    "one",
    (1, 10, 60),
    "after each arrival a departure within that gap, N uneven rides a week of two columns",
)
def gap_of_rides(size):
    starts = scattered(size)
    rides = [(start, 5 + 11 * i % 90) for i, start in enumerate(starts)]
    rows = [
        "(%d+10080n, %d+10080n) where arr = dep + %d" % (start, (start + length) % WEEK, length)
        for start, length in rides
    ]
    database = relation("ride", times("dep", "arr"), rows)
    within = gap_of(starts) - 1
    text = query(
        [],
        "forall d: time forall a: time (ride(d, a) implies exists e: time exists f: time (ride(e, f) and e >= a and e <= a + %d))"
        % within,
    )
    departures = set(starts)
    holds = all(
        any((start + length + wait) % WEEK in departures for wait in range(within + 1)) for start, length in rides
    )
    return Case(["decide"], database, text, output="Nonempty\n()\n" if holds else "Empty\n")


@family(
    "long period",
    "one",
    (10**3, 10**6, 10**9, 10**12),
    "a column within a minute of one of period N: two cells",
)
def long_period(size):
    database = relation("a", times("t"), ["(0+%dn)" % size])
    text = query(times("t", "u"), "(a(t) and u >= t and u <= t + 1)")
    found = [(k * size, k * size + late) for k in range(11) for late in (0, 1) if k * size + late <= 10 * size]
    return Case(listed(0, 10 * size), database, text, units=2, output=whole_page(found))


@family("follower", "one", (1, 4, 15, 60), "a column that follows another one of period 10,080 by 0 to N minutes")
def follower(size):
    database = relation("a", times("t"), ["(0+10080n)"])
    text = query(times("t", "u"), "(a(t) and u >= t and u <= t + %d)" % size)
    found = [(start, start + late) for start in (0, WEEK) for late in range(size + 1)]
    return Case(listed(0, 2 * WEEK - 1), database, text, units=size + 1, output=whole_page(found))


@family("chain", "one", (2, 4, 8), "N columns, each within a minute of the one before, modulo 10^9", by_units=True)
def chain(size):
    names = ["t%d" % i for i in range(size)]
    database = relation("a", times("t"), ["(0+1000000000n)"])
    steps = ["%s >= %s and %s <= %s + 1" % (after, before, after, before) for before, after in zip(names, names[1:])]
    text = query(times(*names), "(a(t0) and %s)" % " and ".join(steps))
    found = [tuple(itertools.accumulate(late, initial=0)) for late in itertools.product((0, 1), repeat=size - 1)]
    return Case(listed(0, 10**9 - 1), database, text, units=1 << size - 1, output=whole_page(found))


@family("join on texts", "one", (63, 250, 1000), "N rows joined with N over a shared text")
def join_on_texts(size):
    first = [(7 * i % DAY, "x%d" % i) for i in range(size)]
    second = [(11 * i % DAY, "x%d" % i) for i in range(size)]
    rows = lambda pairs: ['(%d+1440n, "%s")' % pair for pair in pairs]
    database = relation("r", ["t: time", "d: data"], rows(first)) + relation("s", ["t: time", "d: data"], rows(second))
    text = query(times("t", "u") + ["d: data"], "(r(t, d) and s(u, d))")
    found = [(t, u, d) for (t, d), (u, _) in zip(first, second)]
    return Case(listed(0, DAY - 1), database, text, units=size, output=whole_page(found))


@family("join on residues", "one", (63, 250, 1000), "N rows joined with N over a shared time of period 10,080")
def join_on_residues(size):
    starts = scattered(2 * size)
    first, second = starts[:size], starts[size // 2 : size // 2 + size]
    rows = lambda column, late, these: [
        "(%d+10080n, %d+10080n) where %s = t + %d" % (start, (start + late) % WEEK, column, late) for start in these
    ]
    database = relation("r", times("t", "u"), rows("u", 5, first)) + relation(
        "s", times("t", "v"), rows("v", 9, second)
    )
    text = query(times("t", "u", "v"), "(r(t, u) and s(t, v))")
    found = [(start, start + 5, start + 9) for start in set(first) & set(second) if start + 9 < WEEK]
    return Case(listed(0, WEEK - 1), database, text, units=len(set(first) & set(second)), output=whole_page(found))


@family("join on nothing", "one", (63, 250, 1000), "N rows joined with N over no column, by a test on their distance")
def join_on_nothing(size):
    starts = scattered(2 * size)
    first, second = starts[:size], starts[size:]
    points = lambda these: ["(%d+10080n)" % start for start in these]
    database = relation("r", times("t"), points(first)) + relation("s", times("t"), points(second))
    text = query(times("t", "u"), "(r(t) and s(u) and u >= t + 1 and u <= t + 2)")
    late = set(second)
    pairs = [(t, t + wait) for t in first for wait in (1, 2) if (t + wait) % WEEK in late]
    found = [(t, u) for t, u in pairs if u < WEEK]
    return Case(listed(0, WEEK - 1), database, text, units=len(pairs), output=whole_page(found))


# A city


def city(size):
    """The rides of a week from stop to stop, on a grid of streets: a line for each row and for each column, both ways, and
    390 trips a week of each. Two lines cross at a stop."""
    hops = []
    for line, ride in enumerate(itertools.product(range(2), range(size), (1, -1))):
        across, street, way = ride
        along = range(size)[::way]
        for turn in range(390):
            day, start = divmod(turn, 56)
            leave = day * DAY + 300 + 20 * start + (7 * line + 3 * street + turn // 7) % 19
            for here, there in zip(along, along[1:]):
                length = 2 + (here * there + line) % 3
                stops = ["s%d.%d" % ((street, at) if across else (at, street)) for at in (here, there)]
                hops.append((leave, leave + length, "t%d.%d" % (line, turn), *stops))
                leave += length + 1
    return hops


def changes(hops, least, most):
    """Each arrival and a departure of another trip from the stop after so many minutes, within the week."""
    leaving = collections.defaultdict(lambda: collections.defaultdict(list))
    for leave, _, trip, start, _ in hops:
        leaving[start][leave % WEEK].append(trip)
    for _, arrive, trip, _, stop in hops:
        at = arrive % WEEK
        for wait in range(least, most + 1):
            for other in leaving[stop][at + wait] if at + wait < WEEK else ():
                if other != trip:
                    yield at, at + wait, trip, other, stop


@family("transfers", "one", (3, 5, 10), "the changes of a city, N streets each way: 9,360, 31,200 and 140,400 rides from stop to stop")
def transfers(size):
    hops = city(size)
    rows = [
        '(%d+%dn, %d+%dn, "%s", "%s", "%s") where a = d + %d'
        % (leave % WEEK, WEEK, arrive % WEEK, WEEK, trip, start, goal, arrive - leave)
        for leave, arrive, trip, start, goal in hops
    ]
    database = relation("hop", times("d", "a") + ["trip: data", "start: data", "goal: data"], rows)
    text = query(
        times("a", "d") + ["t: data", "u: data", "s: data"],
        "exists b: time exists c: time exists x: data exists y: data "
        "(hop(b, a, t, x, s) and hop(d, c, u, s, y) and not t = u and d >= a + 3 and d <= a + 16)",
    )
    output = whole_page(set(changes(hops, 3, 16))) if size <= 5 else None
    return Case(listed(0, WEEK - 1), database, text, output=output)


# Joins by windows


def spread_out(size, first, by):
    """Numbers spread over four times the size, in no order, each twice at most."""
    return [(first + by * i) % (4 * size) for i in range(size)]


@family("instants met", "one", (625, 2500, 10000), "N instants and N others of one column, spread over 4 N: those of both")
def instants_met(size):
    first, second = spread_out(size, 1, 7), spread_out(size, 5, 9)
    rows = lambda these: ["(%d)" % at for at in these]
    database = relation("a", times("t"), rows(first)) + relation("b", times("t"), rows(second))
    found = sorted((at,) for at in set(first) & set(second))
    return Case(
        listed(0, LIMIT), database, query(times("t"), "(a(t) and b(t))"), units=size, unit="rows", output=whole_page(found)
    )


@family("rides at instants", "one", (625, 2500, 10000), "N instants and N dated rides: rides that leave at one of them")
def rides_at_instants(size):
    leave, second = spread_out(size, 1, 7), spread_out(size, 5, 9)
    rides = [(at, at + 25 + i % 3) for i, at in enumerate(leave)]
    database = relation("a", times("t", "u"), ["(%d, %d)" % ride for ride in rides]) + relation(
        "b", times("t"), ["(%d)" % at for at in second]
    )
    met = set(second)
    found = {ride for ride in rides if ride[0] in met}
    body = "(b(t) and a(t, u))"
    return Case(
        listed(0, LIMIT), database, query(times("t", "u"), body), units=size, unit="rows", output=whole_page(found)
    )


@family("intervals met", "one", (125, 500, 2000), "N intervals of period 2 in both residues and N others, in order: what both have")
def intervals_met(size):
    first = [(20 * i, 20 * i + 12) for i in range(size)]
    second = [(20 * i + 8, 20 * i + 18) for i in range(size)]
    rows = lambda these: ["(%d+2n) where t >= %d, t <= %d" % (low % 2 ^ odd, low, high) for low, high in these for odd in (0, 1)]
    database = relation("a", times("t"), rows(first)) + relation("b", times("t"), rows(second))
    found = [(at,) for low, high in first for at in range(low + 8, high + 1)]
    return Case(
        listed(0, LIMIT), database, query(times("t"), "(a(t) and b(t))"), units=size, unit="rows", output=whole_page(found)
    )


@family("bookings", "one", (625, 2500, 10000), "N dated bookings of 20 rooms: those that overlap in one room")
def bookings(size):
    booked = [(37 * i % (4 * size), 37 * i % (4 * size) + 10 + i % 30, "r%d" % (i * i % 20), "g%d" % i) for i in range(size)]
    database = relation("booking", times("s", "e") + ["room: data", "guest: data"], ['(%d, %d, "%s", "%s")' % b for b in booked])
    text = query(
        times("s", "u") + ["g: data", "h: data"],
        "exists e: time exists v: time exists r: data (booking(s, e, r, g) and booking(u, v, r, h) and s < u and u < e)",
    )
    rooms = {}
    for start, end, room, guest in booked:
        rooms.setdefault(room, []).append((start, end, guest))
    found = sorted(
        (s, u, g, h) for these in rooms.values() for s, e, g in these for u, v, h in these if s < u < e
    ) if size <= 2500 else None
    return Case(listed(0, LIMIT), database, text, units=size, unit="rows", output=found and whole_page(found))


@family("passes", "one", (14, 28, 94), "passes of three satellites of periods N, N + 3 and N + 7: those that overlap", by_units=True)
def passes(size):
    periods = (size, size + 3, size + 7)
    rows = ['(%d+%dn, %d+%dn, "s%d") where u = t + 9' % (3 * i, p, (3 * i + 9) % p, p, i) for i, p in enumerate(periods)]
    database = relation("pass", times("t", "u") + ["d: data"], rows)
    text = query(times("t", "v") + ["d: data", "e: data"], "exists u: time exists w: time (pass(t, u, d) and pass(v, w, e) and t < v and v < u)")
    return Case(["decide"], database, text, units=sum(math.lcm(*periods) // p for p in periods))


@family("minutes apart", "one", (500, 2000, 8000), "N and N rows of period 100,000: pairs one or two minutes apart")
def minutes_apart(size):
    first, second = [12 * i % 100000 for i in range(size)], [(12 * i + i % 7) % 100000 for i in range(size)]
    rows = lambda these: ["(%d+100000n)" % at for at in these]
    database = relation("a", times("t"), rows(first)) + relation("b", times("t"), rows(second))
    text = query(times("t", "u"), "(a(t) and b(u) and u >= t + 1 and u <= t + 2)")
    held = set(second)
    found = [(t, t + late) for t in sorted(first) for late in (1, 2) if t + late in held]
    return Case(listed(0, 99997), database, text, units=size, unit="rows", output=whole_page(found))


@family("boxes met", "one", (250, 1000, 4000), "N boxes of two columns in one cell joined with N others")
def boxes_met(size):
    boxes = lambda a, b: [((a * i) % size, (b * i) % size) for i in range(size)]
    rows = lambda these: ["(0+1n, 0+1n) where t >= %d, t <= %d, u >= %d, u <= %d" % (10 * x, 10 * x + 9, 10 * y, 10 * y + 9) for x, y in these]
    database = relation("a", times("t", "u"), rows(boxes(7, 11))) + relation("b", times("t", "u"), rows(boxes(3, 13)))
    return Case(["decide"], database, query(times("t", "u"), "(a(t, u) and b(t, u))"), units=size, unit="rows")


@family("windows in a row", "one", (125, 500, 1000), "three relations of N rows of period 10,080, linked by windows")
def windows_in_a_row(size):
    rows = lambda by: ["(%d+10080n)" % (by * i % WEEK) for i in range(size)]
    database = "".join(relation(name, times("t"), rows(by)) for name, by in (("a", 11), ("b", 13), ("c", 17)))
    text = query(times("t", "u", "v"), "(a(t) and b(u) and c(v) and u >= t and u <= t + 5 and v >= u and v <= u + 5)")
    return Case(["decide"], database, text, units=size, unit="rows")


# Steps of eight columns with one cell

EIGHT = tuple("abcdefgh")


def eight_rows(size, width):
    """Bounds that rise from column to column, and let the last one be no more than a number after the first."""
    rising = ["%s >= %s" % (after, before) for before, after in zip(EIGHT, EIGHT[1:])]
    return [
        "(%s) where %s"
        % (", ".join(["0+1n"] * 8), ", ".join(rising + ["h <= a + %d" % (width + i), "a >= %d" % (-i * i)]))
        for i in range(size)
    ]


def eight(body, holds, size, head=EIGHT):
    database = relation("r", times(*EIGHT), eight_rows(size, 10)) + relation("s", times(*EIGHT), eight_rows(size, 5))
    return Case(
        ["decide"],
        database,
        query(times(*head), body),
        units=1,
        output=nearest(len(head), holds) if size == 1 else None,
    )


def is_rising(values, width):
    return all(a <= b for a, b in zip(values, values[1:])) and values[-1] - values[0] <= width and values[0] >= 0


ALL = ", ".join(EIGHT)
EIGHTS = {
    "scan": ("r(%s)" % ALL, lambda *x: is_rising(x, 10), EIGHT),
    "join": ("(r(%s) and s(%s))" % (ALL, ALL), lambda *x: is_rising(x, 5), EIGHT),
    "join with tests": (
        "(r(%s) and s(%s) and d >= c + 1 and g <= f + 2)" % (ALL, ALL),
        lambda *x: is_rising(x, 5) and x[3] > x[2] and x[6] <= x[5] + 2,
        EIGHT,
    ),
    "select": ("(r(%s) and h >= g + 3)" % ALL, lambda *x: is_rising(x, 10) and x[7] >= x[6] + 3, EIGHT),
    "union": ("(r(%s) or s(%s))" % (ALL, ALL), lambda *x: is_rising(x, 10), EIGHT),
    "minus": ("(r(%s) and not s(%s))" % (ALL, ALL), lambda *x: is_rising(x, 10) and not is_rising(x, 5), EIGHT),
    "complement": ("not r(%s)" % ALL, lambda *x: not is_rising(x, 10), EIGHT),
    "drop": ("exists h: time r(%s)" % ALL, lambda *x: is_rising(x, 10), EIGHT[:7]),
    "extend": (
        "exists b: time exists c: time exists d: time exists e: time exists f: time exists g: time r(%s)" % ALL,
        lambda a, h: is_rising((a, h), 10),
        ("a", "h"),
    ),
}


def add_eights():
    for name, (body, holds, head) in EIGHTS.items():
        make = lambda size, body=body, holds=holds, head=head: eight(body, holds, size, head)
        family(
            "eight columns, %s" % name,
            "one",
            (1, 4),
            "%s of eight time columns: one cell, N zones in each relation" % name,
        )(make)


add_eights()


# Steps, part two

CYCLES = (7, 11, 13, 17, 19)


def uncovered(periods):
    """How long the cycles take to come back together, and the instants of that time at which none is on."""
    whole = math.prod(periods)
    return whole, [(t,) for t in range(whole) if all(t % period >= 2 * period // 3 for period in periods)]


@family(
    "cycles",
    "two",
    (2, 3, 4, 5),
    "instants never covered by N cycles of the periods 7, 11, 13, 17, 19, on for two thirds of each",
    by_units=True,
)
def cycles(size):
    periods = CYCLES[:size]
    rows = ["(%d+%dn)" % (start, period) for period in periods for start in range(2 * period // 3)]
    whole, left = uncovered(periods)
    database = relation("cycle", times("t"), rows)
    text = query(times("t"), "not cycle(t)")
    output = whole_page(left) if size <= 4 else None
    return Case(listed(0, whole - 1), database, text, units=whole - len(left), output=output)


@family(
    "cycles as intervals",
    "two",
    (2, 3, 4),
    "the same, each cycle given as intervals with a first and a last column",
    by_units=True,
)
def cycles_as_intervals(size):
    periods = CYCLES[:size]
    rows = [
        "(0+%dn, %d+%dn) where till = begin + %d" % (period, 2 * period // 3, period, 2 * period // 3)
        for period in periods
    ]
    whole, left = uncovered(periods)
    database = relation("on", times("begin", "till"), rows)
    text = query(times("t"), "not exists f: time exists e: time (on(f, e) and f <= t and t < e)")
    output = whole_page(left) if size <= 3 else None
    return Case(listed(0, whole - 1), database, text, units=whole, output=output)


def shift_rows(days, count):
    """Shifts of eight hours, each in a cycle of one of so many days."""
    cycles = [DAY * days[i % len(days)] for i in range(count)]
    return [((6979 * i + 480 * i) % cycle, cycle) for i, cycle in enumerate(cycles)]


def uncovered_minute(days, count, cap):
    """A minute in which no shift runs."""
    rows = ["(%d+%dn, %d+%dn) where e = b + 480" % (start, cycle, (start + 480) % cycle, cycle) for start, cycle in shift_rows(days, count)]
    text = query(times("t"), "not exists b: time exists e: time (shift(b, e) and b <= t and t < e)")
    covered = lambda t: any((t - start) % cycle < 480 for start, cycle in shift_rows(days, count))
    whole = math.lcm(*(DAY * day for day in days))
    output = nearest(1, lambda t: not covered(t), 1000) if count < 100 else None
    return Case(["decide", "cap=%d" % cap], relation("shift", times("b", "e"), rows), text, units=whole, output=output)


@family("shifts in cycles", "two", (12, 48, 120), "a minute without one of N shifts of eight hours, in cycles of 5, 6, 7 and 8 days")
def shifts_in_cycles(size):
    return uncovered_minute((5, 6, 7, 8), size, 10**7)


@family("shifts of two cycles", "two", (24, 96, 600), "the same with cycles of 7 and 8 days")
def shifts_of_two_cycles(size):
    return uncovered_minute((7, 8), size, 10**7)


@family("rides and a jubilee", "two", (6, 25, 100), "the rides of a day: N of every week, and one of every 400 years")
def rides_and_a_jubilee(size):
    jubilee = 400 * 365 + 97
    starts = scattered(size)
    rows = ["(%d+10080n)" % start for start in starts] + ["(600+%dn)" % (jubilee * DAY)]
    found = [(start,) for start in sorted(set(starts) | {600}) if start < DAY]
    return Case(listed(0, DAY - 1) + ["cap=100000000"], relation("ride", times("t"), rows), query(times("t"), "ride(t)"), output=whole_page(found))


def bounded(size, periods):
    """Rows with an offset, a period and both ends."""
    return [
        (7 * i % periods[i % len(periods)], periods[i % len(periods)], 37 * i % (20 * size), 37 * i % (20 * size) + 600)
        for i in range(size)
    ]


def bounded_rows(rows):
    return ["(%d+%dn) where t >= %d, t <= %d" % row for row in rows]


def covered(rows, start, end):
    found = set()
    for offset, period, least, most in rows:
        first = max(least, start)
        found.update(range(first + (offset - first) % period, min(most, end) + 1, period))
    return found


@family("disjuncts", "two", (200, 800, 3200), "N disjuncts of one relation of N rows, each shifted by another number")
def disjuncts(size):
    """A relation that stands in each member of an `or`."""
    starts = [7 * i % (16 * size) for i in range(size)]
    database = relation("r", times("t") + ["d: data"], ['(%d, "d%d")' % at for at in zip(starts, range(size))])
    text = query(times("t"), "(%s)" % " or ".join('r(t + %d, "d%d")' % (i % 5, i) for i in range(size)))
    found = sorted({(start - i % 5,) for i, start in enumerate(starts)})
    return Case(listed(-10, LIMIT), database, text, units=size, unit="disjuncts", output=whole_page(found))


@family("satellites", "two", (14, 28, 94), "passes of three satellites of periods N, N + 3 and N + 7, as rows of one relation: two at once", by_units=True)
def satellites(size):
    """Each meets the others, and none itself."""
    periods = (size, size + 3, size + 7)
    rows = [
        '(%d+%dn, %d+%dn, "S%d") where e = b + 9' % (3 * i % p, p, (3 * i + 9) % p, p, i) for i, p in enumerate(periods)
    ]
    database = relation("pass", times("b", "e") + ["s: data"], rows)
    text = query(
        times("b", "c") + ["s: data", "r: data"],
        "exists e: time exists f: time (pass(b, e, s) and pass(c, f, r) and not s = r and b <= c and c < e)",
    )
    return Case(["decide"], database, text, units=sum(math.lcm(*periods) // p for p in periods))


@family("union of rows", "two", (20, 100, 1000, 100000), "the first 1,000 instants of N bounded rows of period 60")
def union_of_rows(size):
    rows = bounded(size, (60,))
    database = relation("r", times("t"), bounded_rows(rows))
    text = query(times("t"), "r(t)")
    found = [(t,) for t in sorted(covered(rows, 0, LIMIT))] if size <= 1000 else []
    output = page(database, text, found, 1000) if size <= 1000 else None
    return Case(listed(0, LIMIT, 1000), database, text, output=output)


@family(
    "outside of rows",
    "two",
    (20, 100, 1000, 10000),
    "the first 1,000 instants outside of N bounded rows of mixed periods",
)
def outside_of_rows(size):
    rows = bounded(size, (2, 3, 4, 5, 6, 10, 12))
    database = relation("r", times("t"), bounded_rows(rows))
    text = query(times("t"), "not r(t)")
    end = 20 * size + 5000
    inside = covered(rows, -10, end)
    found = [(t,) for t in range(-10, end) if t not in inside]
    output = page(database, text, found, 1000) if len(found) > 1000 and size <= 1000 else None
    return Case(listed(-10, LIMIT, 1000), database, text, output=output)


@family("difference", "two", (4, 12, 40, 400), "the difference of two relations of two columns with N rows each")
def difference(size):
    first = [(i % 10, 3 * i % 10, 20 * i, i % 7) for i in range(size)]
    rows = [
        "(%d+10n, %d+10n) where u >= t + %d, u <= t + 50, t >= %d, t <= %d" % (a, b, late, start, start + 100)
        for a, b, start, late in first
    ]
    less = [
        "(%d+10n, %d+10n) where u >= t + 10, u <= t + 20, t >= %d, t <= %d" % (a, b, start + 15, start + 60)
        for a, b, start, _ in first
    ]
    database = relation("r", times("t", "u"), rows) + relation("s", times("t", "u"), less)
    text = query(times("t", "u"), "(r(t, u) and not s(t, u))")
    output = None
    end = 20 * size + 200
    if size <= 40:
        inside = lambda t, u: any(
            t % 10 == a and u % 10 == b and t + late <= u <= t + 50 and start <= t <= start + 100
            for a, b, start, late in first
        )
        outside = lambda t, u: any(
            t % 10 == a and u % 10 == b and t + 10 <= u <= t + 20 and start + 15 <= t <= start + 60
            for a, b, start, _ in first
        )
        found = [
            (t, u) for t in range(end) for u in range(t, min(t + 51, end + 1)) if inside(t, u) and not outside(t, u)
        ]
        output = whole_page(found)
    return Case(listed(0, end), database, text, output=output)


@family(
    "since",
    "two",
    (10, 60),
    "instants since which one thing held without a break from another one on, within a period of N",
)
def since(size):
    return since_case(size, {0, size // 2 + 1}, set(range(2 * size // 3)), [])


@family(
    "since, few breaks",
    "two",
    (60, 240, 1440),
    "the same where the one thing has two breaks in a period of N, with up to 10,000,000 cells",
)
def since_few_breaks(size):
    return since_case(size, {0, size // 2}, set(range(size)) - {size // 3, size - 1}, ["cap=10000000"])


def since_case(size, begin, on, words):
    points = lambda these: ["(%d+%dn)" % (start, size) for start in sorted(these)]
    database = relation("p", times("t"), points(on)) + relation("q", times("t"), points(begin))
    text = query(times("t"), "exists u: time (q(u) and u <= t and forall v: time (v <= u or t < v or p(v)))")
    found, held = [], False
    for t in range(-2 * size, 3 * size):
        held = t % size in begin or held and t % size in on
        if held and t >= 0:
            found.append((t,))
    return Case(listed(0, 3 * size - 1) + words, database, text, units=size * size, output=whole_page(found))


def instants(size):
    """Even numbers, each once, where the file's limit leaves room for them; else numbers of at most five letters, again and again."""
    if size <= 900000:
        return [2 * i for i in range(size)]
    return [i % 109000 - 9000 for i in range(size)]


def instants_case(size, words, output=None, text=query(times("t"), "r(t)")):
    database = "relation r(t: time) {" + "".join("(%d);" % at for at in instants(size)) + "}"
    return Case(words, database, text, units=size, unit="rows", output=output)


INSTANTS = (875, 3500, 14000, 56000, 225000, 900000, 2000000)


@family("instants checked", "two", INSTANTS, "N instants of one column, written by check")
def instants_checked(size):
    rows = ["  (0+1n) where t <= %d, t >= %d;\n" % (at, at) for at in instants(size)] if size <= 14000 else []
    return instants_case(size, ["check"], "relation r(t: time) {\n%s}\n" % "".join(rows) if rows else None, text="")


@family("instants listed", "two", INSTANTS, "N instants of one column, listed in one page of up to 1,000,000")
def instants_listed(size):
    found = sorted(set(instants(size))) if size <= 14000 else []
    output = lines_of([(at,) for at in found]) + "end\n" if found else None
    return instants_case(size, listed(-LIMIT, LIMIT), output)


@family("instants asked for", "two", INSTANTS, "N instants of one column, written by ask", needs_ask=True)
def instants_asked(size):
    rows = ["  (0+1n) where t <= %d, t >= %d;\n" % (at, at) for at in instants(size)] if size <= 14000 else []
    rows = [
        row.replace("where t <= %d, t >= %d" % (at, at), "where t >= %d, t <= %d" % (at, at))
        for row, at in zip(rows, instants(size))
    ]
    return instants_case(size, ["ask"], "relation answer(t: time) {\n%s}\n" % "".join(rows) if rows else None)


@family("pairs listed", "two", (10, 40, 160, 625, 2500, 10000), "N rows of two instants each, listed")
def pairs_listed(size):
    pairs = [(480 + 7 * i, 505 + 7 * i + i % 3) for i in range(size)]
    database = relation("r", times("t", "u"), ["(%d, %d)" % pair for pair in pairs])
    text = query(times("t", "u"), "r(t, u)")
    return Case(listed(0, LIMIT), database, text, units=size, unit="rows", output=whole_page(pairs))


@family(
    "many cells",
    "two",
    (1000, 4000, 15625, 62500, 250000, 1000000),
    "N - 1 cells of one zone: what is no multiple of N",
)
def many_cells(size):
    text = query(times("t"), "not t in 0+%dn" % size)
    return Case(["decide"], "", text, units=size - 1, output="Nonempty\n1\n")


# Kept answers


def watched_case(first, second, changes, units):
    """Edits of the relation b of two relations of instants, whose common instants are asked for."""
    instants = lambda name, these: relation(name, times("t"), ["(%d)" % at for at in these])
    held, lines = list(second), []
    for sign, at in [("", 0), *changes]:
        if sign == "+":
            held.append(at)
        elif sign == "-":
            held.remove(at)
        lines.append("%d\n" % min(common) if (common := set(held) & set(first)) else "none\n")
    return Case(
        ["watch"],
        instants("a", first) + instants("b", second),
        query(times("t"), "(a(t) and b(t))"),
        units=units,
        unit="edits" if changes else "choices",
        output="".join(lines),
        edits="".join("%s b (%d);\n" % change for change in changes),
    )


@family("kept choices", "two", (63, 250, 1000), "N rows beside N others without a common instant: N * N choices")
def kept_choices(size):
    return watched_case(range(0, 2 * size, 2), range(1, 2 * size, 2), [], size * size)


@family("kept zones", "two", (100, 316, 1000), "N rows of period 10 joined with N: a zone is kept for each N * N / 10 choices")
def kept_zones(size):
    rows = ["(%d+10n)" % (i % 10) for i in range(size)]
    database = relation("a", times("t"), rows) + relation("b", times("t"), rows)
    zones = sum((size + 9 - i) // 10 * ((size + 9 - i) // 10) for i in range(10))
    return Case(["watch"], database, query(times("t"), "(a(t) and b(t))"), units=zones, unit="zones", output="0\n")


@family("edits", "two", (100, 1000, 10000, 100000), "N edits of one row each, over two relations of 1,000 instants")
def edits(size):
    met = [2 * (7 * i % 1000) for i in range(size // 2)]
    return watched_case(range(0, 2000, 2), range(1, 2000, 2), [(sign, at) for at in met for sign in "+-"], size)


@family("edits on texts", "two", (100, 1000, 10000, 100000), "N edits of one row each, over two relations of 1,000 texts")
def edits_on_texts(size):
    rows = lambda step: ['(%d+1440n, "x%d")' % (step * i % DAY, i) for i in range(1000)]
    database = relation("r", ["t: time", "d: data"], rows(7)) + relation("s", ["t: time", "d: data"], rows(11))
    text = query(times("t") + ["d: data"], "(r(t, d) and s(t, d))")
    found = ['0, "x0"'] + ['0, "x0"'] * size
    changes = ['%s s (%d+1440n, "x%d");\n' % (sign, 7 * i % DAY, i) for j in range(size // 2) for i in [7 * j % 999 + 1] for sign in "+-"]
    return Case(["watch"], database, text, units=size, unit="edits", output="\n".join([*found, ""]), edits="".join(changes))


def held_case(size, changes):
    """Edits of N instants beside one row of the even ones: each even instant is a choice that is kept."""
    instants = range(2, 2 * size + 2, 2)
    database = relation("a", times("t"), ["(0+2n)"]) + relation("b", times("t"), ["(%d)" % at for at in instants])
    held, lines = set(instants), ["%d\n" % min(instants)]
    for sign, at in changes:
        held.symmetric_difference_update({at})
        lines.append("%d\n" % next(it for it in range(2, 4 * size + 400, 2) if it in held))
    return Case(
        ["watch"],
        database,
        query(times("t"), "(a(t) and b(t))"),
        units=len(changes),
        unit="edits",
        output="".join(lines),
        edits="".join("%s b (%d);\n" % change for change in changes),
    )


@family("held choices, joined", "two", (100, 1000, 100000), "100 edits that each add a choice beside N")
def held_choices_joined(size):
    return held_case(size, [("+", 2 * size + 2 + 2 * i) for i in range(100)])


@family("held choices, apart", "two", (100, 1000, 100000), "100 edits that add no choice beside N")
def held_choices_apart(size):
    return held_case(size, [("+", 2 * i + 1) for i in range(100)])


@family("held choices, least removed", "two", (100, 1000, 100000), "99 edits that each take out the least of N choices")
def held_choices_least_removed(size):
    return held_case(size, [("-", 2 + 2 * i) for i in range(99)])


# Canonical answers


def canonical_case(database, text, cells, rows):
    """A query of one time column with so many cells, and its canonical rows where they are told."""
    output = "relation answer(t: time) {\n%s}\n" % "".join("  %s;\n" % row for row in rows) if rows else None
    return Case(["ask", "canon=yes"], database, text, units=cells, output=output)


CELLS = (1000, 4000, 15625, 62500, 250000, 1000000)


@family("canonical cells", "two", CELLS, "what is no multiple of N: N - 1 rows of period N stay", needs_ask=True)
def canonical_cells(size):
    text = query(times("t"), "not t in 0+%dn" % size)
    rows = ["(%d+%dn)" % (at, size) for at in range(1, size)] if size <= 4000 else []
    return canonical_case("", text, size - 1, rows)


@family(
    "canonical halves", "two", CELLS, "even times, told by N / 2 cells of period N: one row is left", needs_ask=True
)
def canonical_halves(size):
    size += size % 2  # even
    text = query(times("t"), "((t in 0+2n and not t in 0+%dn) or t in 0+%dn)" % (size, size))
    return canonical_case("", text, size // 2, ["(0+2n)"])


@family("canonical melting", "two", CELLS, "all times, told by N cells of period N: one row is left", needs_ask=True)
def canonical_melting(size):
    text = query(times("t"), "(t in 0+%dn or not t in 0+%dn)" % (size, size))
    return canonical_case("", text, size, ["(0+1n)"])


@family(
    "canonical divisors",
    "two",
    (5040, 55440, 720720),
    "a set of a period N of many divisors that none of them will do for: two neighbours of zero are changed",
    needs_ask=True,
)
def canonical_divisors(size):
    text = query(times("t"), "((t in 0+2n and not t in 0+%dn) or t in 1+%dn)" % (size, size))
    rows = ["(1+%dn)" % size] + ["(%d+%dn)" % (at, size) for at in range(2, size, 2)]
    return canonical_case("", text, size // 2, rows if size <= 5040 else [])


@family(
    "canonical long period",
    "two",
    (10**6, 10**9, 10**12, 10**15, 10**15 + 37, 2**60 - 93),
    "ten cells of period N at uneven distances, whatever N is; the last two have no divisors",
    needs_ask=True,
)
def canonical_long_period(size):
    offsets = [at * at for at in range(10)]
    database = relation("r", times("t"), ["(%d+%dn)" % (at, size) for at in offsets])
    return canonical_case(database, query(times("t"), "r(t)"), 10, ["(%d+%dn)" % (at, size) for at in offsets])


@family(
    "canonical tenths",
    "two",
    (10**6, 10**9, 10**12, 10**15),
    "ten cells of period N at even distances: one row is left",
    needs_ask=True,
)
def canonical_tenths(size):
    step = size // 10
    database = relation("r", times("t"), ["(%d+%dn)" % (7 + step * at, size) for at in range(10)])
    return canonical_case(database, query(times("t"), "r(t)"), 10, ["(7+%dn)" % step])


@family(
    "canonical texts",
    "two",
    (100, 1000, 10000),
    "N texts with times of the periods 2, 3, 4, 6 and 12: rows of period 12",
    needs_ask=True,
)
def canonical_texts(size):
    periods = (2, 3, 4, 6, 12)
    rows = [(i % periods[i % 5], periods[i % 5], "x%05d" % i) for i in range(size)]
    database = relation("r", times("t") + ["d: data"], ['(%d+%dn, "%s")' % row for row in rows])
    wanted = ['  (%d+12n, "%s");\n' % (at, text) for first, step, text in rows for at in range(first, 12, step)]
    units = sum(12 // step for _, step, _ in rows)
    output = "relation answer(t: time, d: data) {\n%s}\n" % "".join(wanted) if size <= 1000 else None
    return Case(["ask", "canon=yes"], database, query(times("t") + ["d: data"], "r(t, d)"), units=units, output=output)


@family("canonical instants", "two", INSTANTS, "N instants of one column, two apart: N rows", needs_ask=True)
def canonical_instants(size):
    rows = ["  (0+1n) where t >= %d, t <= %d;\n" % (at, at) for at in instants(size)] if size <= 14000 else []
    output = "relation answer(t: time) {\n%s}\n" % "".join(rows) if rows else None
    return instants_case(size, ["ask", "canon=yes"], output)


@family(
    "canonical stretch",
    "two",
    (1000, 31623, 1000000, 10**9, 10**17),
    "one row of period 2 that begins and ends: N canonical rows, refused from N = 10^9 on",
    needs_ask=True,
)
def canonical_stretch(size):
    database = relation("r", times("t"), ["(0+2n) where t >= 0, t <= %d" % (2 * size - 2)])
    text, words = query(times("t"), "r(t)"), ["ask", "canon=yes"]
    if size > 1000000:
        output = "refused: more than 1000000 canonical rows\n"
        return Case(words, database, text, units=size, unit="rows", output=output, status=5)
    rows = "".join("  (0+1n) where t >= %d, t <= %d;\n" % (at, at) for at in range(0, 2 * size, 2))
    output = "relation answer(t: time) {\n%s}\n" % rows if size <= 31623 else None
    return Case(words, database, text, units=size, unit="rows", output=output)


def page_case(after):
    database = relation("bus", times("t"), ["(5+60n)"])
    text = query(times("t"), "bus(t)")
    first = after + 1 + (4 - after) % 60
    found = [(first + 60 * i,) for i in range(1001)]
    words = listed(0, 10**17, 1000) + ["after=T1/%d/" % after]
    return Case(words, database, text, units=1000, output=page(database, text, found, 1000))


@family("page", "two", (1, 10**15), "a page of 1,000 after a token of the instant N")
def far_page(size):
    return page_case(size)


@family("equal rows", "two", (4, 16, 64), "a relation whose one row stands N times, named three times")
def equal_rows(size):
    database = relation("r", [], ["()"] * size)
    return Case(["decide"], database, query([], "(r() and r() and r())"), units=1, output="Nonempty\n()\n")


@family("nested drops", "two", (4, 8, 12, 16, 32, 62), "N quantifiers within one another over a sort of two texts")
def nested_drops(size):
    database = relation("l", ["d: line"], ['("a")', '("b")'])
    text = query([], "".join("exists d%d: line " % i for i in range(size)) + "0 < 1")
    return Case(["decide"], database, text, units=2, output="Nonempty\n()\n")


@family(
    "cap told",
    "two",
    (10, 100, 1000),
    "a difference of periods N and N + 1 in three columns, refused for its cells from N = 100 on",
    by_units=True,
)
def cap_told(size):
    free = lambda period: ["(%s)" % ", ".join(["0+%dn" % period] * 3)]
    database = relation("a", times("t", "u", "v"), free(size)) + relation("b", times("t", "u", "v"), free(size + 1))
    text = query(times("t", "u", "v"), "(a(t, u, v) and not b(t, u, v))")
    cells = (size + 1) ** 3 - 1
    if cells > 1000000:
        return Case(
            ["decide"], database, text, units=cells, output="refused: more than 1000000 cells at step 3\n", status=5
        )
    holds = lambda *x: all(at % size == 0 for at in x) and not all(at % (size + 1) == 0 for at in x)
    return Case(
        ["decide"],
        database,
        text,
        units=cells,
        output=nearest(3, holds) if size == 10 else "Nonempty\n0, 0, %d\n" % size,
    )


@family("start", "two", (1,), "the empty database, and a query without an answer")
def start(size):
    return Case(["decide"], "", query([], "0 < 0"), units=1, output="Empty\n")


# Differences whose sides meet in windows


def spread_over(size, span, start):
    """Different numbers below span, one after another far apart."""
    step = next(step for step in range(7919, span + 7920) if math.gcd(step, span) == 1)
    return [(start + step * i) % span for i in range(size)]


def apart_case(left, right, names, words):
    database = relation("a", times(*names), left) + relation("b", times(*names), right)
    atoms = ", ".join(names)
    return words, database, query(times(*names), "(a(%s) and not b(%s))" % (atoms, atoms))


def instants_less(size, words):
    """N instants and N others, spread over 4 N numbers."""
    all_of = spread_over(2 * size, 4 * size, 0)
    left, right = all_of[:size], all_of[size // 2 : size // 2 + size]
    words, database, text = apart_case(["(%d)" % t for t in left], ["(%d)" % t for t in right], ["t"], words)
    return words, database, text, [(t,) for t in set(left) - set(right)]


@family("instants less others", "two", (1000, 4000, 10000), "N instants spread over 4 N, less N of which half are among them")
def instants_less_others(size):
    words, database, text, found = instants_less(size, ["decide"])
    return Case(words, database, text, units=size, output="Nonempty\n%d\n" % min(found))


@family("instants less others, listed", "two", (1000, 4000, 10000), "the same, each that is left listed")
def instants_less_others_listed(size):
    words, database, text, found = instants_less(size, listed(0, 4 * size))
    return Case(words, database, text, units=size, unit="rows", output=whole_page(found))


@family("rides less cancelled ones", "two", (1000, 4000, 10000), "N dated rides of which each tenth is cancelled, the others listed")
def rides_less_cancelled(size):
    rides = [(30 * t, 30 * t + 25 + t % 3) for t in spread_over(size, 2 * size + 1, 0)]
    rows = lambda these: ["(%d, %d)" % ride for ride in these]
    words, database, text = apart_case(rows(rides), rows(rides[::10]), ["t", "u"], listed(0, 100 * size))
    found = set(rides) - set(rides[::10])
    return Case(words, database, text, units=size, unit="rows", output=whole_page(found))


@family("boxes less boxes", "two", (250, 1000, 4000), "N boxes of two columns in one cell, less N that overlap corners of them")
def boxes_less_boxes(size):
    wide = math.isqrt(size - 1) + 1
    at = [(100 * (i % wide), 100 * (i // wide)) for i in range(size)]
    box = lambda t, u: "(0+1n, 0+1n) where t >= %d, t <= %d, u >= %d, u <= %d" % (t, t + 50, u, u + 50)
    left = [box(t, u) for t, u in at]
    right = [box(t + 25, u + 25) for t, u in at]
    words, database, text = apart_case(left, right, ["t", "u"], ["decide"])
    return Case(words, database, text, units=size, output="Nonempty\n0, 0\n")


@family("shifts", "two", (3, 6, 12), "minutes that none of N shifts of eight hours covers, in cycles of 5, 6, 7 and 8 days")
def shifts(size):
    days = (5, 6, 7, 8)
    rows = [(1440 * (i % days[i % 4]) + 480 * (i // 4), 1440 * days[i % 4]) for i in range(size)]
    database = relation(
        "shift",
        times("begin", "till"),
        ["(%d+%dn, %d+%dn) where till = begin + 480" % (begin, every, (begin + 480) % every, every) for begin, every in rows],
    )
    text = query(times("t"), "not exists b: time exists e: time (shift(b, e) and b <= t and t < e)")
    free = lambda t: all((t - begin) % every >= 480 for begin, every in rows)
    return Case(["decide"], database, text, units=size, output=nearest(1, free))
