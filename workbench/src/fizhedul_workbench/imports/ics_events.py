"""The events of a calendar: when each one starts, how long it is, what it is called."""

from dataclasses import dataclass, field, replace
from datetime import timedelta

from icalendar import vDuration, vText

from ..lrp import fault_of_text
from ..words import Refused, refused_at
from ..zones import Zone
from .ics_lines import Component, Moment, Property, moment_of
from .ics_rules import Progression, Rule, progressions, read_rule


@dataclass
class Event:
    """An event as it is written; moments are in their own zones still."""

    file: str
    line: int
    uid: str
    name: str
    start: Moment
    length: int
    rules: list[tuple[Property, Rule]] = field(default_factory=list)
    added: list[tuple[Moment, int]] = field(default_factory=list)
    left_out: list[Moment] = field(default_factory=list)
    replaces: tuple[Property, Moment] | None = None
    is_cancelled: bool = False


def text_of(component: Component, file: str, name: str) -> str | None:
    """The text of a property as a data text."""
    each = component.one(name)
    if each is None:
        return None
    text = str(vText.from_ical(each.value))
    fault = fault_of_text(text)
    if fault is not None:
        raise each.fault(f"the text {text[:40]!r} {fault}")
    return text


def duration_of(each: Property, text: str) -> int:
    """The minutes of a duration, which are whole and not below 0."""
    try:
        length: timedelta = vDuration.from_ical(text)
    except ValueError as fault:
        raise each.fault(f"{text[:40]!r} is no duration") from fault
    minutes, rest = divmod(length, timedelta(minutes=1))
    if rest or minutes < 0:
        raise each.fault(f"{text[:40]!r} is no duration in whole minutes")
    return minutes


def in_zone(each: Property, moment: Moment, zone: str | None, zones: dict[str, Zone | None]) -> Moment:
    """The moment in the zone of its event; only a moment in UTC is carried to another zone."""
    if moment.zone == zone:
        return moment
    if moment.zone == "UTC" and zone is not None:
        found = zones.get(zone)
        if found is None:
            raise each.fault(f"the offset of the zone {zone!r} is not known")
        return replace(moment, minute=moment.minute + local_shift(found, moment.minute), zone=zone)
    raise each.fault("its zone is not that of DTSTART")


def local_shift(zone: Zone, minute: int) -> int:
    """The minutes by which the zone's clock is ahead of UTC at this minute of UTC."""
    seconds = zone.offset_at(60 * minute)
    if seconds % 60:
        raise Refused(f"the clock of {zone.name} is not ahead of UTC by whole minutes")
    return seconds // 60


def length_of(component: Component, start: Moment, zones: dict[str, Zone | None]) -> int:
    """The minutes from the start to the end; without either property a date has its day, a time nothing."""
    end, duration = component.one("DTEND"), component.one("DURATION")
    if end is not None and duration is not None:
        raise duration.fault("DTEND and DURATION stand together")
    if duration is not None:
        return duration_of(duration, duration.value)
    if end is None:
        return 1440 if start.is_date else 0
    moment = moment_of(end, end.value)
    if moment.is_date != start.is_date:
        raise end.fault("a date beside a time")
    length = in_zone(end, moment, start.zone, zones).minute - start.minute
    if length < 0:
        raise end.fault("it is before DTSTART")
    return length


def moments(component: Component, name: str, start: Moment, zones: dict[str, Zone | None]) -> list[Moment]:
    """The moments of all properties of a name, in the zone of the start."""
    found = []
    for each in component.all(name):
        for text in each.value.split(","):
            moment = in_zone(each, moment_of(each, text), start.zone, zones)
            if moment.is_date != start.is_date:
                raise each.fault("a date beside a time")
            found.append(moment)
    return found


def added_of(
    component: Component, start: Moment, length: int, zones: dict[str, Zone | None]
) -> list[tuple[Moment, int]]:
    """The starts of RDATE with their lengths; one of the form START/END or START/DURATION has its own."""
    found = []
    for each in component.all("RDATE"):
        is_period = each.parameters.get("VALUE", "").upper() == "PERIOD"
        plain = replace(each, parameters={k: v for k, v in each.parameters.items() if k != "VALUE"})
        for text in each.value.split(","):
            head, slash, tail = text.partition("/")
            if bool(slash) != is_period:
                raise each.fault(f"{text[:40]!r} is not what VALUE says")
            moment = in_zone(each, moment_of(plain if is_period else each, head), start.zone, zones)
            if moment.is_date != start.is_date:
                raise each.fault("a date beside a time")
            own = length
            if is_period and tail.startswith(("P", "+")):
                own = duration_of(each, tail)
            elif is_period:
                own = in_zone(each, moment_of(plain, tail), start.zone, zones).minute - moment.minute
            if own < 0:
                raise each.fault(f"{text[:40]!r} ends before it starts")
            found.append((moment, own))
    return found


def read_event(file: str, component: Component, zones: dict[str, Zone | None]) -> Event:
    """The event of a component VEVENT."""
    begin = component.one("DTSTART")
    if begin is None:
        raise refused_at(file, component.line, "the event has no DTSTART")
    for each in component.all("EXRULE"):
        raise each.fault("the standard has dropped it")
    uid = text_of(component, file, "UID")
    if not uid:
        raise refused_at(file, component.line, "the event has no UID")
    start = moment_of(begin, begin.value)
    length = length_of(component, start, zones)
    event = Event(file, component.line, uid, text_of(component, file, "SUMMARY") or uid, start, length)
    event.rules = [(each, read_rule(each, start.is_date)) for each in component.all("RRULE")]
    event.added = added_of(component, start, length, zones)
    event.left_out = moments(component, "EXDATE", start, zones)
    status = component.one("STATUS")
    event.is_cancelled = status is not None and status.value.upper() == "CANCELLED"
    replaced = component.one("RECURRENCE-ID")
    if replaced is not None:
        if "RANGE" in replaced.parameters:
            raise replaced.fault("RANGE: only single starts are replaced here")
        if event.rules:
            raise replaced.fault("the event that replaces a start repeats itself")
        event.replaces = replaced, moment_of(replaced, replaced.value)
    return event


def until_minute(each: Property, rule: Rule, start: Moment, zones: dict[str, Zone | None]) -> int | None:
    """The last minute of a rule in the zone of the start."""
    if rule.until is None:
        return None
    if rule.until.is_date != start.is_date:
        raise each.fault("UNTIL is a date beside a time, or a time beside a date")
    if start.zone is None and rule.until.zone is not None:
        raise each.fault("UNTIL is in UTC, and DTSTART has no zone")
    if start.zone is not None and rule.until.zone is None:
        raise each.fault("UNTIL is not in UTC, and DTSTART has a zone")
    return in_zone(each, rule.until, start.zone, zones).minute


def starts_of(event: Event, replacing: list[Event], zones: dict[str, Zone | None]) -> list[tuple[Progression, int]]:
    """All starts of an event with their lengths, without those that are left out or that other events replace."""
    plain = [Progression(event.start.minute, 0, None)] if not event.rules else []
    for each, rule in event.rules:
        until = until_minute(each, rule, event.start, zones)
        plain += progressions(each, rule, event.start.minute, until)
    starts = [(start, event.length) for start in plain]
    starts += [(Progression(moment.minute, 0, None), own) for moment, own in event.added]
    left_out = {moment.minute for moment in event.left_out}
    for other in replacing if event.replaces is None else []:
        if other.replaces is not None:
            left_out.add(in_zone(*other.replaces, event.start.zone, zones).minute)
    return [(rest, own) for start, own in starts for rest in start.without(left_out)]
