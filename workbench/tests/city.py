"""A feed of the shape of a city's, made by arithmetic: lines, stops, a school year with holidays, night trips."""

import csv
from datetime import date, timedelta
from pathlib import Path

FIRST, LAST = date(2026, 8, 10), date(2027, 8, 8)
SCHOOL_HOLIDAYS = [
    (date(2026, 10, 12), date(2026, 10, 23)),
    (date(2026, 12, 21), date(2027, 1, 1)),
    (date(2027, 3, 22), date(2027, 4, 2)),
    (date(2027, 7, 5), date(2027, 8, 6)),
]
PUBLIC_HOLIDAYS = [date(2026, 12, 25), date(2027, 1, 1), date(2027, 4, 5), date(2027, 5, 13)]
LINES, STOPS, PER_LINE = 30, 200, 12
# Of each line: a service, the minute of its first trip, the minutes between trips, and the number of trips.
TRIPS = [
    ("school", 330, 45, 12),
    ("free", 360, 75, 7),
    ("saturday", 420, 120, 4),
    ("sunday", 540, 180, 3),
    ("night", 1430, 55, 2),
]


def days(first: date, last: date) -> list[date]:
    return [first + timedelta(days=number) for number in range((last - first).days + 1)]


def write(folder: Path, name: str, header: str, rows: list[list[object]]) -> None:
    with open(folder / name, "w", encoding="utf-8", newline="") as file:
        writer = csv.writer(file)
        writer.writerow(header.split(","))
        writer.writerows(rows)


def clock(minute: int) -> str:
    return f"{minute // 60:02}:{minute % 60:02}:00"


def calendar() -> tuple[list[list[object]], list[list[object]]]:
    """The lines of calendar.txt and of calendar_dates.txt."""
    ends = [FIRST.strftime("%Y%m%d"), LAST.strftime("%Y%m%d")]
    weeks = {"school": "1111100", "saturday": "0000010", "sunday": "0000001", "night": "0000110"}
    regular: list[list[object]] = [[name, *week, *ends] for name, week in weeks.items()]
    changes: list[list[object]] = []
    for first, last in SCHOOL_HOLIDAYS:
        for day in days(first, last):
            if day.weekday() < 5:
                changes.append(["school", day.strftime("%Y%m%d"), 2])
                if day not in PUBLIC_HOLIDAYS:
                    changes.append(["free", day.strftime("%Y%m%d"), 1])
    for day in PUBLIC_HOLIDAYS:
        if ["school", day.strftime("%Y%m%d"), 2] not in changes:
            changes.append(["school", day.strftime("%Y%m%d"), 2])
        changes.append(["sunday", day.strftime("%Y%m%d"), 1])
    return regular, changes


def make_city(folder: Path, lines: int = LINES) -> int:
    """Writes the feed, and gives the number of its stop times."""
    folder.mkdir(parents=True, exist_ok=True)
    write(
        folder,
        "agency.txt",
        "agency_id,agency_name,agency_url,agency_timezone",
        [["c", "City", "http://city.example", "Asia/Tokyo"]],
    )
    write(
        folder, "stops.txt", "stop_id,stop_name,stop_lat,stop_lon", [[f"S{n}", f"Stop {n}", 0, 0] for n in range(STOPS)]
    )
    write(folder, "routes.txt", "route_id,route_short_name,route_type", [[f"L{n}", str(n), 3] for n in range(lines)])
    regular, changes = calendar()
    week = "monday,tuesday,wednesday,thursday,friday,saturday,sunday"
    write(folder, "calendar.txt", f"service_id,{week},start_date,end_date", regular)
    write(folder, "calendar_dates.txt", "service_id,date,exception_type", changes)
    trips: list[list[object]] = []
    times: list[list[object]] = []
    for line in range(lines):
        for service, begin, headway, count in TRIPS:
            for number in range(count):
                trip = f"{line}{service[:2]}{number}"
                trips.append([f"L{line}", service, trip])
                for place in range(PER_LINE):
                    minute = begin + line + headway * number + 3 * place
                    waits = 1 if place == 5 else 0
                    stop = f"S{(line * 7 + place * (1 + line % 3)) % STOPS}"
                    times.append([trip, clock(minute), clock(minute + waits), stop, place + 1])
    write(folder, "trips.txt", "route_id,service_id,trip_id", trips)
    write(folder, "stop_times.txt", "trip_id,arrival_time,departure_time,stop_id,stop_sequence", times)
    return len(times)
