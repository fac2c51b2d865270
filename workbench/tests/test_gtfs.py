"""Feeds, against a reading of their files that goes day by day in plain Python."""

import csv
import shutil
import zipfile
from collections.abc import Iterator
from datetime import date, datetime, timedelta
from pathlib import Path

import city
import pytest
from tools import listed, program, tool

STOPS = "{ trip: trip, stop: stop, arr: time, dep: time | (stop(trip, stop, arr, dep) and arr >= A and arr <= B) }"
RIDES = "{ f: stop, t: stop, d: time, a: time, l: line | (ride(f, t, d, a, l) and d >= A and d <= B) }"


def records(folder: Path, name: str) -> list[dict[str, str]]:
    with open(folder / name, encoding="utf-8", newline="") as file:
        return list(csv.DictReader(file))


def runs_on(folder: Path, day: date) -> set[str]:
    """The services of one day."""
    text = day.strftime("%Y%m%d")
    name = day.strftime("%A").lower()
    regular = {
        line["service_id"]
        for line in records(folder, "calendar.txt")
        if line["start_date"] <= text <= line["end_date"] and line[name] == "1"
    }
    for line in records(folder, "calendar_dates.txt"):
        if line["date"] == text:
            change = regular.add if line["exception_type"] == "1" else regular.discard
            change(line["service_id"])
    return regular


def minute(day: date, text: str) -> int:
    hours, minutes, _ = (int(part) for part in text.split(":"))
    begin = datetime(day.year, day.month, day.day) - datetime(1970, 1, 1)
    return (begin + timedelta(hours=hours, minutes=minutes)) // timedelta(minutes=1)


def halts(folder: Path, lines: set[str], services: set[str]) -> Iterator[tuple[str, str, list[dict[str, str]]]]:
    """The trips of some lines and services, each with its line, its service, and its stop times in order."""
    times: dict[str, list[dict[str, str]]] = {}
    for record in records(folder, "stop_times.txt"):
        times.setdefault(record["trip_id"], []).append(record)
    for trip in records(folder, "trips.txt"):
        if trip["route_id"] in lines and trip["service_id"] in services:
            order = sorted(times[trip["trip_id"]], key=lambda record: int(record["stop_sequence"]))
            yield trip["route_id"], trip["service_id"], order


def expected(
    folder: Path, lines: set[str], services: set[str], first: date, count: int
) -> tuple[list[str], list[str], int, int]:
    """The lines of `stop` and of `ride` in a window of days, and the window's minutes."""
    begin, end = minute(first, "00:00:00"), minute(first, "00:00:00") + 1440 * count - 1
    stops, rides = set(), set()
    trips = list(halts(folder, lines, services))
    for number in range(-2, count + 1):
        day = first + timedelta(days=number)
        today = runs_on(folder, day)
        for line, service, order in trips:
            if service not in today:
                continue
            places = [(h["stop_id"], minute(day, h["arrival_time"]), minute(day, h["departure_time"])) for h in order]
            stops.update((a, d, order[0]["trip_id"], s) for s, a, d in places)
            rides.update((d, a, s, t, line) for (s, _, d), (t, a, _) in zip(places, places[1:]))
    inside = [(a, d, *rest) for a, d, *rest in sorted(stops) if begin <= a and d <= end]
    between = [(d, a, *rest) for d, a, *rest in sorted(rides) if begin <= d and a <= end]
    stop_lines = [f'"{trip}", "{stop}", {a}, {d}' for a, d, trip, stop in inside]
    ride_lines = [f'"{s}", "{t}", {d}, {a}, "{line}"' for d, a, s, t, line in between]
    return stop_lines, ride_lines, begin, end


@pytest.fixture(scope="module")
def feed(tmp_path_factory: pytest.TempPathFactory) -> Path:
    folder = tmp_path_factory.mktemp("city")
    assert city.make_city(folder) == 10_080
    return folder


ALL_LINES = {f"L{number}" for number in range(city.LINES)}


@pytest.mark.parametrize(
    "lines, services, first, count",
    [
        ({"L7"}, {"school", "free", "saturday", "sunday", "night"}, date(2026, 12, 17), 20),
        ({"L0"}, {"school", "free", "saturday", "sunday", "night"}, date(2026, 8, 6), 9),
        (ALL_LINES, {"sunday", "night"}, date(2027, 1, 1), 3),
    ],
)
def test_a_window_is_what_the_days_say(
    feed: Path, tmp_path: Path, lines: set[str], services: set[str], first: date, count: int
) -> None:
    made = tmp_path / "city.lrp"
    chosen = ["line=" + ",".join(sorted(lines)), "service=" + ",".join(sorted(services))]
    done = tool("import", "gtfs", str(feed), f"out={made}", *chosen)
    assert done.returncode == 0, done.stderr
    stops, rides, begin, end = expected(feed, lines, services, first, count)
    assert len(stops) > 50
    for query, lines_wanted in ((STOPS, stops), (RIDES, rides)):
        text = query.replace("A and", f"{begin} and").replace("<= B", f"<= {end}")
        assert listed(made, text, begin, end) == lines_wanted


def test_the_whole_feed_says_what_to_choose(feed: Path, tmp_path: Path) -> None:
    made = tmp_path / "whole.lrp"
    done = tool("import", "gtfs", str(feed), f"out={made}")
    assert done.returncode == 3 and not made.exists() and list(tmp_path.iterdir()) == []
    assert "16777216 are allowed; choose some of line=.. of" in done.stderr
    assert "L29 (" in done.stderr and "school (" in done.stderr


ALL_SERVICES = {"school", "free", "saturday", "sunday", "night"}


def whole_feed(feed: Path, folder: Path, relation: str) -> Path:
    """A relation of all lines and services."""
    made = folder / f"{relation}.lrp"
    done = tool("import", "gtfs", str(feed), f"out={made}", f"relation={relation},runs")
    assert done.returncode == 0, done.stderr
    assert program("check", f"db={made}").count("\n") > 100_000
    return made


@pytest.fixture(scope="module")
def stops_of_all(feed: Path, tmp_path_factory: pytest.TempPathFactory) -> Path:
    return whole_feed(feed, tmp_path_factory.mktemp("whole"), "stop")


def test_every_stop_of_the_year_is_what_the_days_say(feed: Path, stops_of_all: Path) -> None:
    first, count = city.FIRST - timedelta(days=2), (city.LAST - city.FIRST).days + 5
    stops, _, begin, end = expected(feed, ALL_LINES, ALL_SERVICES, first, count)
    query = "{ trip: trip, stop: stop, arr: time, dep: time | stop(trip, stop, arr, dep) }"
    assert listed(stops_of_all, query, begin, end) == stops and len(stops) > 1_000_000


def test_the_rides_of_all_lines_are_what_the_days_say(feed: Path, tmp_path: Path) -> None:
    made = whole_feed(feed, tmp_path, "ride")
    query = "{ f: stop, t: stop, d: time, a: time, l: line | ride(f, t, d, a, l) }"
    for first, count in ((date(2026, 8, 8), 6), (date(2026, 12, 23), 10), (date(2027, 8, 5), 6)):
        _, rides, begin, end = expected(feed, ALL_LINES, ALL_SERVICES, first, count)
        assert listed(made, query, begin, end) == rides and len(rides) > 5_000


GAPS = """{ t: time | (t >= BEGIN and t <= END
  and exists day: time (day in 0+1440n and t >= day + 360 and t <= day + 1320)
  and not exists trip: trip exists a: time exists d: time exists b: time exists e: time
    (stop(trip, "S0", a, d) and stop(trip, "S3", b, e) and d >= t and b <= t + 40 and b >= d)) }"""


def test_a_connection_is_missed_where_the_days_miss_it(feed: Path, stops_of_all: Path) -> None:
    first, count = date(2026, 9, 26), 10
    begin = minute(first, "00:00:00")
    end = begin + 1440 * count - 1
    missed = {t for t in range(begin, end + 1) if 360 <= t % 1440 <= 1320}
    for number in range(-2, count + 1):
        day = first + timedelta(days=number)
        for _, service, order in halts(feed, ALL_LINES, ALL_SERVICES & runs_on(feed, day)):
            leaves = [minute(day, halt["departure_time"]) for halt in order if halt["stop_id"] == "S0"]
            comes = [minute(day, halt["arrival_time"]) for halt in order if halt["stop_id"] == "S3"]
            missed -= {t for d in leaves for b in comes if d <= b for t in range(b - 40, d + 1)}
    query = GAPS.replace("BEGIN", str(begin)).replace("END", str(end))
    assert listed(stops_of_all, query, begin, end) == [str(t) for t in sorted(missed)]
    assert 0 < len(missed) < 960 * count


def test_an_archive_is_read_as_its_folder(feed: Path, tmp_path: Path) -> None:
    archive = tmp_path / "city.zip"
    with zipfile.ZipFile(archive, "w", zipfile.ZIP_DEFLATED) as packed:
        for file in feed.iterdir():
            packed.write(file, file.name)
    words = ["line=L3", "service=night"]
    one, two = tool("import", "gtfs", str(feed), *words), tool("import", "gtfs", str(archive), *words)
    assert one.returncode == two.returncode == 0 and one.stdout == two.stdout
    assert "not carried over: columns of stops.txt: stop_lat, stop_lon" in one.stderr


FILES = {
    "agency.txt": "agency_timezone\nAsia/Tokyo\n",
    "stops.txt": "stop_id,stop_name\nA,Alpha\nB,Beta\n",
    "routes.txt": "route_id,route_short_name\nU,U1\n",
    "calendar.txt": "service_id,monday,tuesday,wednesday,thursday,friday,saturday,sunday,start_date,end_date\n"
    "w,1,0,0,0,0,0,0,20260105,20260119\n",
    "trips.txt": "route_id,service_id,trip_id\nU,w,t\n",
    "stop_times.txt": "trip_id,arrival_time,departure_time,stop_id,stop_sequence\n"
    "t,23:50:00,23:55:00,A,1\nt,24:10:00,24:10:00,B,2\n",
}


def small(folder: Path, **changes: str) -> Path:
    """A feed of one trip on Mondays, with some files changed."""
    shutil.rmtree(folder / "small", ignore_errors=True)
    (folder / "small").mkdir()
    named = {name.replace("__", "."): text for name, text in changes.items()}
    for name, text in {**FILES, **named}.items():
        (folder / "small" / name).write_text(text, encoding="utf-8")
    return folder / "small"


def test_a_small_feed_is_written_as_worked_out_by_hand(tmp_path: Path) -> None:
    # 2026-01-05 is day 20458, a Monday; its minute 0 is 29459520, which is 5760 modulo 10080.
    done = tool("import", "gtfs", str(small(tmp_path)))
    assert done.stdout == (
        "# Minutes since 1970-01-01 00:00 in Asia/Tokyo, from 29459520 to 29481130.\n"
        "relation stop(trip: trip, stop: stop, arr: time, dep: time) {\n"
        '  ("t", "A", 7190+10080n, 7195+10080n) where arr >= 29460950, arr <= 29481110, dep = arr + 5;\n'
        '  ("t", "B", 7210+10080n, 7210+10080n) where arr >= 29460970, arr <= 29481130, dep = arr;\n'
        "}\n\n"
        "relation ride(from: stop, to: stop, dep: time, arr: time, line: line) {\n"
        '  ("A", "B", 7195+10080n, 7210+10080n, "U") where dep >= 29460955, dep <= 29481115, arr = dep + 15;\n'
        "}\n\n"
        "relation runs(day: time, service: service) {\n"
        '  (5760+10080n, "w") where day >= 29459520, day <= 29479680;\n'
        "}\n\n"
        'relation trip(trip: trip, line: line, service: service) {\n  ("t", "U", "w");\n}\n\n'
        'relation stop_name(stop: stop, name: name) {\n  ("A", "Alpha");\n  ("B", "Beta");\n}\n\n'
        'relation line_name(line: line, name: name) {\n  ("U", "U1");\n}\n'
    )


def test_frequencies_with_exact_times_are_trips(tmp_path: Path) -> None:
    header = "trip_id,start_time,end_time,headway_secs,exact_times\n"
    folder = small(tmp_path, frequencies__txt=header + "t,08:00:00,08:30:00,900,1\n")
    done = tool("import", "gtfs", str(folder), "relation=trip")
    assert '("t 08:00", "U", "w");\n  ("t 08:15", "U", "w");\n}' in done.stdout
    folder = small(tmp_path, frequencies__txt=header + "t,08:00:00,08:30:00,900,0\n")
    done = tool("import", "gtfs", str(folder))
    assert done.returncode == 3 and done.stdout == ""
    assert done.stderr == (
        "refused: frequencies.txt:2: the trip 't' runs by a headway and not by exact times;"
        " headway=as-exact takes its times as exact, and skip=t leaves it out\n"
    )


def test_a_clock_that_changes_is_refused(tmp_path: Path) -> None:
    changes = FILES["calendar.txt"].replace("20260119", "20260419")
    berlin = {"agency__txt": "agency_timezone\nEurope/Berlin\n"}
    winter = tool("import", "gtfs", str(small(tmp_path, **berlin)))
    assert winter.returncode == 0
    folder = small(tmp_path, calendar__txt=changes, **berlin)
    done = tool("import", "gtfs", str(folder))
    assert done.returncode == 3 and "agency.txt:2: the offset of Europe/Berlin changes" in done.stderr
    local = tool("import", "gtfs", str(folder), "local=yes")
    assert local.returncode == 0 and "minutes are those of the local clock" in local.stderr


@pytest.mark.parametrize(
    "changes, wanted",
    [
        (
            {"stop_times__txt": FILES["stop_times.txt"].replace("24:10:00,B", "24:10,B")},
            "stop_times.txt:3: the departure",
        ),
        (
            {"stop_times__txt": FILES["stop_times.txt"].replace("24:10:00", "23:54:00")},
            "stop_times.txt:3: the times go back",
        ),
        ({"stop_times__txt": FILES["stop_times.txt"].replace("B,2", "C,2")}, "stop_times.txt:3: there is no stop 'C'"),
        (
            {"stop_times__txt": FILES["stop_times.txt"].replace("B,2", "B,1")},
            "stop_times.txt:3: the stop_sequence stands twice",
        ),
        ({"stop_times__txt": FILES["stop_times.txt"].replace("24:10:00", "24:10:30")}, "is no whole minute"),
        ({"trips__txt": "route_id,service_id,trip_id\nU,x,t\n"}, "trips.txt:2: there is no service 'x'"),
        ({"trips__txt": "route_id,service_id,trip_id\nU,w,t\nU,w,t\n"}, "trips.txt:3: the trip_id 't' stands twice"),
        ({"stops__txt": "stop_id\nA\nB\nB\n"}, "stops.txt:4: the stop_id 'B' stands twice"),
        ({"stops__txt": "stop_id\nA\n" + "B" * 256 + "\n"}, "has 256 bytes, more than 255"),
        ({"stops__txt": "stop_id\nA\nB\x07\n"}, "has a control character"),
        ({"stops__txt": "name\nA\n"}, "stops.txt:1: there is no column 'stop_id'"),
        (
            {"calendar__txt": FILES["calendar.txt"].replace("20260105", "20260230")},
            "calendar.txt:2: the start_date '20260230' is no date",
        ),
        ({"calendar__txt": FILES["calendar.txt"].replace("w,1", "w,2")}, "calendar.txt:2: the monday '2' is none of"),
        ({"routes__txt": 'route_id,route_short_name\n"U,U1\n'}, "routes.txt:2: the fields cannot be told apart"),
        ({"routes__txt": "route_id,route_short_name\nU\n"}, "routes.txt:2: there are 1 fields, and 2 columns"),
        ({"agency__txt": "agency_timezone\nMars/Base\n"}, "agency.txt:2: there is no zone 'Mars/Base'"),
    ],
)
def test_a_broken_feed_is_refused_with_its_line(tmp_path: Path, changes: dict[str, str], wanted: str) -> None:
    made = tmp_path / "made.lrp"
    done = tool("import", "gtfs", str(small(tmp_path, **changes)), f"out={made}")
    assert done.returncode == 3 and done.stderr.startswith("refused: ") and done.stderr.count("\n") == 1
    assert wanted in done.stderr and not made.exists()
