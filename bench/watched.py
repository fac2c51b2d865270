"""Families of `watch` over relations of many rows, of which few have something in common."""

from inputs import DAY, WEEK, Case, family, query, relation, times


def shift(number, drivers):
    """The start, the end and the driver of a shift of a week."""
    start = 37 * number % WEEK
    return (start, start + 240 + number % 240, "d%d" % (number % drivers))


def shift_row(row):
    return '(%d, %d, "%s")' % row


def overlaps(row, rows):
    """The starts of the row and of those that begin within it, or within which it begins."""
    start, end, driver = row
    for first, last, other in rows:
        if other == driver and start < first < end:
            yield (start, first, driver)
        if other == driver and first < start < last:
            yield (first, start, driver)


def shifts_of_drivers(size, edits):
    """Shifts of which one driver's overlap, 50 for each driver; half of the edits add one, and half take one out."""
    drivers = max(size // 50, 1)
    held = [shift(number, drivers) for number in range(size)]
    added = [shift(size + number, drivers) for number in range(edits // 2)]
    return shifts_case(held, added, least_overlaps(held, added))


def shifts_of_one(size, edits):
    """Shifts of one driver, one after another, of which each tenth ends after the next begins; edits of later ones."""
    held = [(30 * at, 30 * at + (20 if at % 10 else 35), "d") for at in range(size)]
    added = [(30 * at, 30 * at + 20, "d") for at in range(size, size + edits // 2)]
    return shifts_case(held, added, ['0, 30, "d"'] * (1 + edits))


def least_overlaps(rows, added):
    """The first overlap of the rows, and after each of the edits that add some and then take them out."""
    held = list(rows)
    of = lambda driver: [row for row in held if row[2] == driver]
    found = sorted(
        {it for driver in {row[2] for row in held} for row in of(driver) for it in overlaps(row, of(driver))}
    )
    lines = ['%d, %d, "%s"' % found[0]]
    for row in added:
        found = sorted({*found, *overlaps(row, of(row[2]))})
        held.append(row)
        lines.append('%d, %d, "%s"' % found[0])
    for row in added:
        held.remove(row)
        gone = set(overlaps(row, of(row[2])))
        kept = {it for other in of(row[2]) for it in overlaps(other, of(row[2]))}
        found = [it for it in found if it not in gone or it in kept]
        lines.append('%d, %d, "%s"' % found[0])
    return lines


def shifts_case(held, added, lines):
    """A watch of the overlaps of one driver's shifts, and edits that add some and then take them out."""
    return Case(
        ["watch"],
        relation("shift", [*times("s", "e"), "d: data"], [shift_row(row) for row in held]),
        query(
            [*times("s", "u"), "d: data"],
            "exists e: time exists v: time (shift(s, e, d) and shift(u, v, d) and s < u and u < e)",
        ),
        units=2 * len(added) or len(held),
        unit="edits" if added else "rows",
        output="\n".join([*lines, ""]),
        edits="".join("%s shift %s;\n" % (sign, shift_row(row)) for sign in "+-" for row in added),
    )


@family(
    "shifts watched", "two", (625, 2500, 10000), "opening of a watch of N shifts, of which those of one driver overlap"
)
def shifts_watched(size):
    return shifts_of_drivers(size, 0)


@family("shifts edited", "two", (625, 2500, 10000), "200 edits of N shifts, of which those of one driver overlap")
def shifts_edited(size):
    return shifts_of_drivers(size, 200)


@family(
    "shifts of one driver",
    "two",
    (625, 2500, 10000),
    "opening of a watch of N shifts of one driver, of which a tenth overlap",
)
def one_driver_watched(size):
    return shifts_of_one(size, 0)


@family(
    "shifts of one driver edited",
    "two",
    (625, 2500, 10000),
    "200 edits of N shifts of one driver, of which a tenth overlap",
)
def one_driver_edited(size):
    return shifts_of_one(size, 200)


@family(
    "instants watched",
    "two",
    (625, 2500, 10000),
    "opening of a watch of N instants beside N others, a tenth of them in common",
)
def instants_watched(size):
    first = range(0, 2 * size, 2)
    second = [at + (at % 20 != 10) for at in first]
    instants = lambda name, these: relation(name, times("t"), ["(%d)" % at for at in these])
    least = min(set(first) & set(second))
    return Case(
        ["watch"],
        instants("a", first) + instants("b", second),
        query(times("t"), "(a(t) and b(t))"),
        units=2 * size,
        unit="rows",
        output="%d\n" % least,
    )


@family(
    "texts watched",
    "two",
    (625, 2500, 10000),
    "opening of a watch of N rows of a day, each with a text of its own, beside N others",
)
def texts_watched(size):
    rows = lambda step: ['(%d+%dn, "x%d")' % (step * number % DAY, DAY, number) for number in range(size)]
    text = query([*times("t"), "d: data"], "(r(t, d) and s(t, d))")
    columns = [*times("t"), "d: data"]
    return Case(
        ["watch"],
        relation("r", columns, rows(7)) + relation("s", columns, rows(11)),
        text,
        units=2 * size,
        unit="rows",
        output='0, "x0"\n',
    )


SHIFT = 480  # minutes


def week_point(at):
    """The times of every week at a minute of one."""
    return "%d+%dn" % (at % WEEK, WEEK)


def duty_row(start):
    """A shift of eight hours in every week."""
    return "(%s, %s) where e >= s, e <= s + %d" % (week_point(start), week_point(start + SHIFT), SHIFT)


def rides(name, rows):
    """A relation of the times of vehicles in every week."""
    return relation(name, [*times("t"), "v: data"], ['(%s, "v%d")' % (week_point(at), vehicle) for at, vehicle in rows])


def uncovered(wanted, starts):
    """Of minutes of a week the one nearest to 0 that no shift covers, in whatever week."""
    left = [time for time in wanted if all((time - start) % WEEK >= SHIFT for start in starts)]
    weeks = [at for time in left for at in (time, time - WEEK)]
    return str(min(weeks, key=lambda at: (abs(at), at < 0), default="none"))


@family(
    "uncovered edited",
    "two",
    (625, 2500, 10000),
    "20 edits of shifts beside N trips and N buses, which stay: the trips with a bus soon that no shift covers",
)
def uncovered_edited(size):
    vehicles = size // 5
    trips = [(997 * number % WEEK, number % vehicles) for number in range(size)]
    buses = [((1409 * number + 11) % WEEK, number % vehicles) for number in range(size)]
    leaving = {}
    for bus, vehicle in buses:
        leaving.setdefault(vehicle, []).append(bus)
    wanted = {at for at, vehicle in trips if any((bus - at) % WEEK <= 30 for bus in leaving[vehicle])}
    held = [SHIFT * number for number in range(20)]
    added = [(SHIFT * 20 + 17 * number) % WEEK for number in range(10)]
    lines = [uncovered(wanted, held)]
    for start in added:
        lines += [uncovered(wanted, [*held, start]), lines[0]]
    return Case(
        ["watch", "kept=auto"],
        rides("trip", trips) + rides("bus", buses) + relation("shift", times("s", "e"), [duty_row(at) for at in held]),
        query(
            times("t"),
            "(exists v: data exists u: time (trip(t, v) and bus(u, v) and t <= u and u <= t + 30)"
            " and not exists s: time exists e: time (shift(s, e) and s <= t and t < e))",
        ),
        units=2 * len(added),
        unit="edits",
        output="\n".join([*lines, ""]),
        edits="".join("%s shift %s;\n" % (sign, duty_row(at)) for at in added for sign in "+-"),
    )
