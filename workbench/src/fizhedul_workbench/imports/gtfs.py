"""GTFS feeds as databases: `stop`, `ride`, `runs`, `trip`, `stop_name`, `line_name`, in steps since 1970-01-01."""

from collections import Counter
from collections.abc import Iterable, Iterator
from dataclasses import replace

from ..days import Run, covering_runs
from ..lrp import (
    MOST_BYTES,
    Point,
    Relation,
    Row,
    Value,
    distance,
    fault_of_text,
    shown,
    written_row,
)
from ..words import Refused
from ..zones import zone_of
from .gtfs_feed import Feed, read_feed
from .gtfs_services import service_days
from .gtfs_trips import Trip, feed_trips
from .gtfs_wanted import DAY_SECONDS, Wanted
from .imported import Imported

COLUMNS: dict[str, list[tuple[str, str]]] = {
    "stop": [("trip", "trip"), ("stop", "stop"), ("arr", "time"), ("dep", "time")],
    "ride": [
        ("from", "stop"),
        ("to", "stop"),
        ("dep", "time"),
        ("arr", "time"),
        ("line", "line"),
    ],
    "runs": [("day", "time"), ("service", "service")],
    "trip": [("trip", "trip"), ("line", "line"), ("service", "service")],
    "stop_name": [("stop", "stop"), ("name", "name")],
    "line_name": [("line", "line"), ("name", "name")],
}


def timed(run: Run, day: int, steps: list[int], names: list[str]) -> tuple[list[Value], list[str]]:
    """The time values of a row on the days of a run, with their bounds; `steps` count from the start of a day."""
    begins = [day * run.first + step for step in steps]
    if run.first == run.last:
        return list(begins), []
    period = day * run.step
    last = day * run.last + steps[0]
    bounds = [f"{names[0]} >= {begins[0]}", f"{names[0]} <= {last}"]
    for name, step in zip(names[1:], steps[1:]):
        bounds.append(distance(name, names[0], step - steps[0]))
    return [Point(begin, period) for begin in begins], bounds


def stop_rows(trip: Trip, runs: list[Run], day: int) -> Iterator[Row]:
    for halt in trip.halts:
        for run in runs:
            values, bounds = timed(run, day, [halt.arrival, halt.departure], ["arr", "dep"])
            yield Row((trip.name, halt.stop, *values), tuple(bounds))


def ride_rows(trip: Trip, runs: list[Run], day: int) -> Iterator[Row]:
    """From each halt to the next one."""
    for here, there in zip(trip.halts, trip.halts[1:]):
        for run in runs:
            values, bounds = timed(run, day, [here.departure, there.arrival], ["dep", "arr"])
            yield Row((here.stop, there.stop, *values, trip.line), tuple(bounds))


def runs_rows(service: str, runs: list[Run], day: int) -> Iterator[Row]:
    """The first steps of a service's days."""
    for run in runs:
        values, bounds = timed(run, day, [0], ["day"])
        yield Row((*values, service), tuple(bounds))


def name_rows(feed: Feed, file: str, column: str, names: list[str], used: set[str]) -> list[Row]:
    """The name of each used stop or line, where the feed gives one that is a data text."""
    rows = []
    without = 0
    for record in feed.table(file).records:
        if record.get(column) not in used:
            continue
        name = next((record.get(key) for key in names if record.get(key)), "")
        if name and fault_of_text(name) is None:
            rows.append(Row((record.get(column), name)))
        else:
            without += 1
    if without:
        feed.leave(f"names of {without} records of {file} that are empty or no data text")
    return rows


def refuse_changes(feed: Feed, first: int, last: int, wanted: Wanted) -> str:
    """The feed's zone; one whose offset changes between the two steps is refused, but for local time."""
    names = {record.need("agency_timezone"): record for record in feed.table("agency.txt").records}
    if len(names) != 1:
        raise Refused(f"agency.txt: there are {len(names)} zones, and one is asked for")
    name, record = next(iter(names.items()))
    zone = zone_of(name)
    place = f"agency.txt:{record.line}"
    if zone is None:
        raise Refused(f"{place}: there is no zone {name[:40]!r}")
    seconds = wanted.clock.seconds
    changes = zone.changes_within(seconds * first - DAY_SECONDS, seconds * last + DAY_SECONDS)
    if changes and not wanted.local:
        raise Refused(
            f"{place}: the offset of {name} changes while the feed runs, so that its minutes are no"
            " steady count; with local=yes the minutes of the local clock are meant"
        )
    if changes:
        feed.leave(f"the changes of the clock of {name}: minutes are those of the local clock")
    return name


def span(trips: list[Trip], runs: dict[str, list[Run]], day: int) -> tuple[int, int]:
    """The first and the last step of all trips."""
    firsts, lasts = [], []
    for trip in trips:
        if trip.halts and runs[trip.service]:
            firsts.append(day * min(run.first for run in runs[trip.service]))
            last = max(run.last for run in runs[trip.service])
            lasts.append(day * last + trip.halts[-1].departure)
    if not firsts:
        raise Refused("no trip of the feed runs on any day")
    return min(firsts), max(lasts)


def refuse_unknown(what: str, asked: Iterable[str], there: Iterable[str]) -> None:
    unknown = sorted(set(asked) - set(there))
    if unknown:
        raise Refused(f"there is no {what} {shown(unknown[0])!r}")


def refuse_large(trips: list[Trip], relations: list[Relation], runs: dict[str, list[Run]], day: int) -> None:
    """Refuses a database that is too long, and says how much of it each line and each service makes."""
    total = sum(len(written_row(row).encode()) for each in relations for row in each.rows)
    if total < MOST_BYTES - 65_536:
        return
    lines: Counter[str] = Counter()
    services: Counter[str] = Counter()
    for trip in trips:
        rows = [*stop_rows(trip, runs[trip.service], day), *ride_rows(trip, runs[trip.service], day)]
        size = sum(len(written_row(row).encode()) for row in rows)
        lines[trip.line] += size
        services[trip.service] += size
    told = [
        f"{what}=.. of " + ", ".join(f"{shown(n)} ({size} bytes)" for n, size in sizes.most_common())
        for what, sizes in (("line", lines), ("service", services))
    ]
    raise Refused(
        f"the database would have about {total} bytes, and {MOST_BYTES} are allowed;"
        f" choose some of {told[0]}; or some of {told[1]}; or relation=ride or relation=stop"
    )


def rows_of(name: str, feed: Feed, trips: list[Trip], runs: dict[str, list[Run]], day: int) -> Iterable[Row]:
    """The rows of one relation."""
    if name == "stop":
        return (row for trip in trips for row in stop_rows(trip, runs[trip.service], day))
    if name == "ride":
        return (row for trip in trips for row in ride_rows(trip, runs[trip.service], day))
    if name == "runs":
        return (row for service in runs for row in runs_rows(service, runs[service], day))
    if name == "trip":
        return (Row((trip.name, trip.line, trip.service)) for trip in trips)
    if name == "stop_name":
        halts = {halt.stop for trip in trips for halt in trip.halts}
        return name_rows(feed, "stops.txt", "stop_id", ["stop_name"], halts)
    names = ["route_short_name", "route_long_name"]
    return name_rows(feed, "routes.txt", "route_id", names, {trip.line for trip in trips})


def lines_of(feed: Feed, asked: frozenset[str]) -> frozenset[str]:
    """The identifiers of the lines that are asked for, by these or by their short names."""
    names = {record.get("route_id"): record.get("route_short_name") for record in feed.table("routes.txt").records}
    found = set()
    for name in sorted(asked):
        those = {name} & set(names) or {line for line, short in names.items() if short == name}
        if not those:
            there = [f"{shown(line)} ({shown(short)})" if short else shown(line) for line, short in names.items()]
            raise Refused(f"there is no line {shown(name)!r}; the lines are {', '.join(there)}")
        found |= those
    return frozenset(found)


def read_gtfs(path: str, wanted: Wanted) -> Imported:
    """The relations of a feed."""
    refuse_unknown("relation", wanted.relations, COLUMNS)
    feed = read_feed(path)
    services = service_days(feed)
    refuse_unknown("service", wanted.services, services)
    refuse_unknown("trip", wanted.skipped, (record.get("trip_id") for record in feed.table("trips.txt").records))
    trips = feed_trips(feed, services, replace(wanted, lines=lines_of(feed, wanted.lines)))
    used = {trip.service for trip in trips}
    runs = {name: covering_runs(days) for name, days in services.items() if name in used}
    day = wanted.clock.day
    first, last = span(trips, runs, day)
    zone = refuse_changes(feed, first, last, wanted)
    relations = [
        Relation(name, columns, list(dict.fromkeys(rows_of(name, feed, trips, runs, day))))
        for name, columns in COLUMNS.items()
        if not wanted.relations or name in wanted.relations
    ]
    refuse_large(trips, relations, runs, day)
    remarks = [f"{wanted.clock.name} since 1970-01-01 00:00 in {zone}, from {first} to {last}."]
    return Imported(remarks, feed.left, relations)
