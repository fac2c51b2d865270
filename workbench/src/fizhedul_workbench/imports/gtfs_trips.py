"""The trips of a feed: where each one stops, at which minutes or seconds after the start of its service day."""

from collections.abc import Iterable
from dataclasses import dataclass, replace

from ..lrp import fault_of_text
from ..words import refused_at
from .gtfs_feed import Feed
from .gtfs_wanted import Clock, Wanted, seconds_of
from .tables import Record


@dataclass(frozen=True)
class Halt:
    """A stop of a trip; times count from the start of the service day and may pass its end."""

    stop: str
    arrival: int
    departure: int


@dataclass(frozen=True)
class Trip:
    """A trip: its line, its service, and its halts in order."""

    name: str
    line: str
    service: str
    halts: tuple[Halt, ...]


def known(feed: Feed, file: str, column: str) -> set[str]:
    """The names of a file's records, each of which has one of its own."""
    names: set[str] = set()
    for record in feed.table(file).records:
        name = record.text(column)
        if name in names:
            raise refused_at(record.file, record.line, f"the {column} {name!r} stands twice")
        names.add(name)
    return names


def chosen_trips(feed: Feed, services: Iterable[str], wanted: Wanted) -> dict[str, Trip]:
    """The trips of the wanted lines and services (of all, where none is named), still without halts."""
    lines = known(feed, "routes.txt", "route_id")
    known_services = set(services)
    known(feed, "trips.txt", "trip_id")
    trips = {}
    for record in feed.table("trips.txt").records:
        trip = Trip(record.text("trip_id"), record.text("route_id"), record.text("service_id"), ())
        if trip.line not in lines:
            raise refused_at(record.file, record.line, f"there is no route {trip.line!r}")
        if trip.service not in known_services:
            raise refused_at(record.file, record.line, f"there is no service {trip.service!r}")
        chosen = (wanted.lines, trip.line), (wanted.services, trip.service)
        if trip.name not in wanted.skipped and all(not names or name in names for names, name in chosen):
            trips[trip.name] = trip
    return trips


def halts_of(records: list[Record], stops: set[str], clock: Clock) -> tuple[Halt, ...]:
    """The halts of one trip in order. A stop without times is passed over, and told as such by the caller."""
    records.sort(key=lambda record: record.number("stop_sequence"))
    halts: list[Halt] = []
    for place, record in enumerate(records):
        if place and record.number("stop_sequence") == records[place - 1].number("stop_sequence"):
            raise refused_at(record.file, record.line, "the stop_sequence stands twice in its trip")
        stop = record.text("stop_id")
        if stop not in stops:
            raise refused_at(record.file, record.line, f"there is no stop {stop!r}")
        if not record.get("arrival_time") and not record.get("departure_time"):
            continue
        halt = Halt(stop, clock.step_of(record, "arrival_time"), clock.step_of(record, "departure_time"))
        if halt.departure < halt.arrival or (halts and halt.arrival < halts[-1].departure):
            raise refused_at(record.file, record.line, "the times go back")
        halts.append(halt)
    return tuple(halts)


def with_halts(feed: Feed, trips: dict[str, Trip], clock: Clock) -> dict[str, Trip]:
    """The trips with the halts of stop_times.txt."""
    stops = known(feed, "stops.txt", "stop_id")
    every_trip = {record.get("trip_id") for record in feed.table("trips.txt").records}
    by_trip: dict[str, list[Record]] = {name: [] for name in trips}
    for record in feed.table("stop_times.txt").records:
        name = record.text("trip_id")
        if name not in every_trip:
            raise refused_at(record.file, record.line, f"there is no trip {name!r}")
        if name in trips:
            by_trip[name].append(record)
    found = {}
    untimed = 0
    for name, records in by_trip.items():
        halts = halts_of(records, stops, clock)
        untimed += len(records) - len(halts)
        found[name] = replace(trips[name], halts=halts)
    if untimed:
        feed.leave(f"{untimed} stop times of stop_times.txt that give no time")
    return found


def shifted(trip: Trip, start: int, clock: Clock) -> Trip:
    """The trip that leaves its first stop at this time, named by the trip and the time."""
    shift = start - trip.halts[0].departure
    halts = tuple(Halt(h.stop, h.arrival + shift, h.departure + shift) for h in trip.halts)
    return replace(trip, name=f"{trip.name} {clock.shown(start)}", halts=halts)


def departures(record: Record, trip: Trip, wanted: Wanted) -> list[int]:
    """The departures that one line of frequencies.txt makes of a trip, where it says that its times are exact."""
    if record.get("exact_times") != "1" and not wanted.headway_is_exact:
        choices = f"headway=as-exact takes its times as exact, and skip={trip.name} leaves it out"
        reason = f"the trip {trip.name!r} runs by a headway and not by exact times; {choices}"
        raise refused_at(record.file, record.line, reason)
    headway = record.number("headway_secs")
    if headway == 0 or (headway % wanted.clock.seconds and not wanted.clock.rounds_down):
        choices = "unit=second counts seconds, and round=down takes the minute of each departure"
        raise refused_at(record.file, record.line, f"the headway of {headway} s is no whole minutes; {choices}")
    begin, end = seconds_of(record, "start_time"), seconds_of(record, "end_time")
    what = f"a departure of the trip {trip.name!r}"
    return [wanted.clock.step(record, second, what) for second in range(begin, end, headway)]


def repeated(record: Record, trip: Trip, every_trip: set[str], wanted: Wanted) -> list[Trip]:
    """The trips that one line of frequencies.txt makes of a trip."""
    starts = departures(record, trip, wanted)
    copies = [shifted(trip, start, wanted.clock) for start in dict.fromkeys(starts)] if trip.halts else []
    for copy in copies:
        fault = fault_of_text(copy.name)
        if copy.name in every_trip:
            fault = "stands twice"
        if copy.halts[0].arrival < 0:
            fault = "arrives before its service day"
        if fault is not None:
            raise refused_at(record.file, record.line, f"the trip {copy.name[:40]!r} {fault}")
        every_trip.add(copy.name)
    return copies


def feed_trips(feed: Feed, services: Iterable[str], wanted: Wanted) -> list[Trip]:
    """All trips; one of frequencies.txt is a trip for each of its departures."""
    trips = with_halts(feed, chosen_trips(feed, services, wanted), wanted.clock)
    every_trip = {record.get("trip_id") for record in feed.table("trips.txt").records}
    copies: dict[str, list[Trip]] = {}
    inexact = set()
    for record in feed.table("frequencies.txt").records:
        name = record.text("trip_id")
        if name not in every_trip:
            raise refused_at(record.file, record.line, f"there is no trip {name!r}")
        if name in trips:
            copies.setdefault(name, []).extend(repeated(record, trips[name], every_trip, wanted))
            inexact.update([name] if record.get("exact_times") != "1" else [])
    if inexact:
        feed.leave(f"that the times of {len(inexact)} trips of frequencies.txt are not exact")
    if wanted.clock.rounded:
        feed.leave(f"the seconds of {wanted.clock.rounded} times, which are those of their minutes")
    if wanted.skipped:
        feed.leave("the trips " + ", ".join(sorted(wanted.skipped)))
    return [copy for name, trip in trips.items() for copy in copies.get(name, [trip])]
