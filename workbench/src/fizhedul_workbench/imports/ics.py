"""Calendars as databases: a relation `event`, in minutes since 1970-01-01."""

import re
from collections import Counter
from dataclasses import dataclass, replace

from icalendar.windows_to_olson import WINDOWS_TO_OLSON

from ..civil import dated
from ..lrp import MOST_BYTES, Point, Relation, Row, Value, distance, shown, written_row
from ..words import FAILED_READ, Refused
from ..zones import Zone, zone_of
from .ics_events import Event, local_shift, read_event, starts_of
from .ics_lines import Component, read_components
from .ics_rules import Progression
from .imported import Imported

COLUMNS = [("start", "time"), ("end", "time"), ("uid", "event"), ("name", "name")]
OFFSET = re.compile(r"([+-])(\d{2})(\d{2})", re.ASCII)
DAY = 86400


@dataclass(frozen=True)
class Wanted:
    """What of a calendar is asked for; without names, all events."""

    uids: frozenset[str] = frozenset()
    zone: str | None = None
    local: bool = False
    first: int | None = None
    last: int | None = None


def fixed_zone(calendar: Component, name: str) -> Zone | None:
    """The zone that a calendar itself defines, where its offset never changes."""
    for part in calendar.parts:
        if part.name == "VTIMEZONE" and any(each.value == name for each in part.all("TZID")):
            found = [each for rule in part.parts for each in rule.all("TZOFFSETTO")]
            offset = OFFSET.fullmatch(found[0].value) if len(found) == 1 else None
            if offset:
                sign = -1 if offset.group(1) == "-" else 1
                seconds = sign * (3600 * int(offset.group(2)) + 60 * int(offset.group(3)))
                return Zone(name, ((None, seconds),), False)
    return None


def named_zones(calendars: list[Component]) -> dict[str, Zone | None]:
    """Every zone that an event names, by name; None where its offsets are not known."""
    zones: dict[str, Zone | None] = {"UTC": zone_of("UTC")}
    for calendar in calendars:
        for event in calendar.parts:
            for each in event.properties if event.name == "VEVENT" else []:
                name = each.parameters.get("TZID")
                if name and name not in zones:
                    known = zone_of(WINDOWS_TO_OLSON.get(name, name))
                    zones[name] = known or fixed_zone(calendar, name)
    return zones


def read_events(file: str, calendars: list[Component], left: list[str]) -> tuple[list[Event], dict[str, Zone | None]]:
    """The events of all calendars of a file, and the zones that they name."""
    zones = named_zones(calendars)
    parts = [part for calendar in calendars for part in calendar.parts]
    others = Counter(part.name for part in parts if part.name not in ("VEVENT", "VTIMEZONE"))
    others.update(inner.name for part in parts if part.name == "VEVENT" for inner in part.parts)
    left += [f"{count} components {shown(name)}" for name, count in others.items()]
    return [read_event(file, part, zones) for part in parts if part.name == "VEVENT"], zones


def zone_for(events: list[Event], wanted: Wanted) -> str | None:
    """The one zone of the calendar, or None where no event has any."""
    if wanted.zone is not None:
        if all(event.start.zone != wanted.zone for event in events):
            raise Refused(f"no event is in the zone {shown(wanted.zone)!r}")
        return wanted.zone
    repeating = {event.start.zone for event in events if event.rules} - {None}
    named = {event.start.zone for event in events} - {None, "UTC"}
    if len(named) > 1 or len(named | repeating) > 1:
        names = ", ".join(sorted(shown(name) for name in named | repeating if name))
        raise Refused(f"the events are in the zones {names}; choose one by zone=..")
    return next(iter(named | repeating), None) or ("UTC" if events_in_utc(events) else None)


def events_in_utc(events: list[Event]) -> bool:
    return any(event.start.zone == "UTC" for event in events)


def in_calendar(event: Event, zone: str | None, zones: dict[str, Zone | None]) -> Event | None:
    """The event in the calendar's zone, or None where it isn't of this zone. A single event in UTC is carried over."""
    if event.start.zone in (None, zone):
        return event
    known = zones.get(zone) if zone else None
    single = not event.rules and not event.added and not event.left_out and event.replaces is None
    if event.start.zone != "UTC" or known is None or not single:
        return None
    minute = event.start.minute
    shift = local_shift(known, minute)
    shifted = replace(event.start, minute=minute + shift, zone=zone)
    length = event.length + local_shift(known, minute + event.length) - shift
    return replace(event, start=shifted, length=length)


def chosen(events: list[Event], wanted: Wanted, zones: dict[str, Zone | None], left: list[str]) -> list[Event]:
    """The events that are asked for, in one zone."""
    unknown = sorted(wanted.uids - {event.uid for event in events})
    if unknown:
        raise Refused(f"there is no event of the UID {shown(unknown[0])!r}")
    asked = [event for event in events if not wanted.uids or event.uid in wanted.uids]
    zone = zone_for(asked, wanted)
    found, away = [], 0
    for event in asked:
        placed = in_calendar(event, zone, zones)
        if placed is not None:
            found.append(placed)
        elif wanted.zone is not None:
            away += 1
        else:
            raise Refused(f"{event.file}:{event.line}: the event repeats in another zone; choose one by zone=..")
    if away:
        left.append(f"{away} events of other zones than {shown(wanted.zone or '')}")
    return found


def row_of(start: Progression, length: int, event: Event) -> Row:
    """The row of starts that repeat, or of one start."""
    names = (event.uid, event.name)
    if start.period == 0:
        return Row((start.first, start.first + length, *names))
    values: tuple[Value, ...] = (
        Point(start.first, start.period),
        Point(start.first + length, start.period),
    )
    bounds = [f"start >= {start.first}"]
    if start.last is not None:
        bounds.append(f"start <= {start.last}")
    return Row((*values, *names), (*bounds, distance("end", "start", length)))


def refuse_changes(
    events: list[Event],
    starts: list[tuple[Progression, int]],
    zones: dict[str, Zone | None],
    wanted: Wanted,
) -> str:
    """What the minutes count; a zone whose offset changes meanwhile is refused, but for local minutes."""
    name = next((event.start.zone for event in events if event.start.zone), None)
    if name is None or not starts:
        return "a local clock, since no event has a zone"
    zone = zones.get(name)
    first = min(start.first for start, _ in starts)
    ends = [start.last if start.period else start.first for start, _ in starts]
    longest = max(length for _, length in starts)
    last = None if None in ends else 60 * (max(end for end in ends if end is not None) + longest) + DAY
    if (zone is None or zone.changes_within(60 * first - DAY, last)) and not wanted.local:
        raise Refused(
            f"the offset of {shown(name)} changes while the events run, or is not known, so that its minutes are"
            " no steady count; with local=yes the minutes of the local clock are meant"
        )
    return shown(name)


def read_ics(path: str, wanted: Wanted) -> Imported:
    """The relation of a calendar's events."""
    try:
        with open(path, "rb") as file:
            content = file.read()
    except OSError as fault:
        raise Refused(f"{path}: {fault.strerror}", FAILED_READ) from fault
    left: list[str] = []
    everything, zones = read_events(path, read_components(path, content), left)
    events = chosen(everything, wanted, zones, left)
    cancelled = sum(event.is_cancelled for event in events)
    if cancelled:
        left.append(f"{cancelled} events that are cancelled")
    replacing: dict[str, list[Event]] = {}
    for event in everything:
        if event.replaces is not None:
            replacing.setdefault(event.uid, []).append(event)
    rows: list[Row] = []
    starts: list[tuple[Progression, int]] = []
    for event in events:
        if event.is_cancelled:
            continue
        everywhere = starts_of(event, replacing.get(event.uid, []), zones)
        inside = ((start.within(wanted.first, wanted.last), length) for start, length in everywhere)
        found = [(start, length) for start, length in inside if start is not None]
        starts += found
        rows += [row_of(start, length, event) for start, length in found]
    clock = refuse_changes(events, starts, zones, wanted)
    size = sum(len(written_row(row).encode()) for row in rows)
    if size > MOST_BYTES - 65_536:
        raise Refused(f"the database would have about {size} bytes, and {MOST_BYTES} are allowed; choose by uid=..")
    if wanted.first is not None or wanted.last is not None:
        ends = [dated(end) if end is not None else "" for end in (wanted.first, wanted.last)]
        left.append("starts that are not" + " from " * bool(ends[0]) + ends[0] + " to " * bool(ends[1]) + ends[1])
    remarks = [f"Minutes since 1970-01-01 00:00 of {clock}."]
    return Imported(remarks, left, [Relation("event", COLUMNS, list(dict.fromkeys(rows)))])
