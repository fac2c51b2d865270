"""The components and properties of an iCalendar text (RFC 5545), each with its line."""

from collections.abc import Iterator
from dataclasses import dataclass, field
from datetime import date

from icalendar.parser import Contentline

from ..days import MINUTES, day_number
from ..words import Refused, refused_at
from .tables import decoded


@dataclass(frozen=True)
class Property:
    """One property: its line, its name, its parameters and its value, as they are written."""

    file: str
    line: int
    name: str
    parameters: dict[str, str]
    value: str

    def fault(self, reason: str) -> Refused:
        return refused_at(self.file, self.line, f"{self.name}: {reason}")


@dataclass
class Component:
    """A component with its properties and the components in it."""

    name: str
    line: int
    properties: list[Property] = field(default_factory=list)
    parts: list["Component"] = field(default_factory=list)

    def all(self, name: str) -> list[Property]:
        return [each for each in self.properties if each.name == name]

    def one(self, name: str) -> Property | None:
        """The property of a name that stands at most once."""
        found = self.all(name)
        if len(found) > 1:
            raise found[1].fault("it stands twice")
        return found[0] if found else None


def unfolded(file: str, content: bytes) -> Iterator[tuple[int, str]]:
    """The lines with their continuations, which begin with a blank, and the number at which each begins."""
    pending: list[str] = []
    begin = 1
    for number, line in enumerate(decoded(file, content).replace("\r\n", "\n").split("\n"), 1):
        if line[:1] in (" ", "\t"):
            if not pending:
                raise refused_at(file, number, "a continuation begins here, and there is no line before it")
            pending.append(line[1:])
            continue
        if pending:
            yield begin, "".join(pending)
        pending, begin = ([line] if line else []), number
    if pending:
        yield begin, "".join(pending)


def property_of(file: str, line: int, text: str) -> Property:
    try:
        name, parameters, value = Contentline(text).parts()
    except (TypeError, ValueError) as fault:
        raise refused_at(file, line, "the line is no property NAME:VALUE") from fault
    flat = {key.upper(): each if isinstance(each, str) else ",".join(each) for key, each in parameters.items()}
    return Property(file, line, name.upper(), flat, value)


def read_components(file: str, content: bytes) -> list[Component]:
    """The calendars of a file."""
    outer = Component("", 0)
    open_ones = [outer]
    for line, text in unfolded(file, content):
        each = property_of(file, line, text)
        if each.name == "BEGIN":
            inner = Component(each.value.upper(), line)
            open_ones[-1].parts.append(inner)
            open_ones.append(inner)
        elif each.name == "END":
            if len(open_ones) < 2 or open_ones.pop().name != each.value.upper():
                raise each.fault(f"no {each.value} is open here")
        elif len(open_ones) < 2:
            raise each.fault("it stands outside of a calendar")
        else:
            open_ones[-1].properties.append(each)
    if len(open_ones) > 1:
        raise refused_at(file, open_ones[-1].line, f"the {open_ones[-1].name} has no end")
    if not outer.parts or any(part.name != "VCALENDAR" for part in outer.parts):
        raise refused_at(file, 1, "there is no VCALENDAR")
    return outer.parts


@dataclass(frozen=True)
class Moment:
    """A time as it is written: minutes since 1970-01-01 in its zone; a date, or a time without zone, has none."""

    minute: int
    zone: str | None
    is_date: bool


def minute_of_text(text: str) -> tuple[int, bool]:
    """The minute of YYYYMMDD or YYYYMMDDTHHMMSS, and whether it is a date; seconds are refused by ValueError."""
    if not (text[:8].isdigit() and text.isascii() and len(text) in (8, 15)):
        raise ValueError("it is no date and no time")
    day = day_number(date(int(text[:4]), int(text[4:6]), int(text[6:8])))
    if len(text) == 8:
        return MINUTES * day, True
    if text[8] != "T" or not text[9:].isdigit():
        raise ValueError("it is no date and no time")
    hour, minute, second = int(text[9:11]), int(text[11:13]), int(text[13:])
    if hour > 23 or minute > 59 or second > 60:
        raise ValueError("it is no time of a day")
    if second:
        raise ValueError("it is no whole minute")
    return MINUTES * day + 60 * hour + minute, False


def moment_of(each: Property, text: str) -> Moment:
    """The moment that a text of the property says."""
    zone = each.parameters.get("TZID")
    kind = each.parameters.get("VALUE", "").upper()
    if text.endswith("Z"):
        text, zone = text[:-1], "UTC"
    try:
        minute, is_date = minute_of_text(text)
    except ValueError as fault:
        raise each.fault(f"{text[:40]!r}: {fault}") from fault
    if kind and is_date != (kind == "DATE"):
        raise each.fault(f"{text[:40]!r} is no {kind}")
    if is_date:
        zone = None
    return Moment(minute, zone, is_date)
