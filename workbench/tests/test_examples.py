"""The examples from end to end; what is wanted is worked out by the calendar."""

from datetime import date, timedelta
from pathlib import Path

from tools import TOP, program, tool

EXAMPLES = TOP / "workbench" / "examples"
EPOCH = date(1970, 1, 1)


def minute(day: date, hours: int = 0) -> int:
    return (day - EPOCH).days * 1440 + 60 * hours


def days(first: date, last: date) -> list[date]:
    return [first + timedelta(days=number) for number in range((last - first).days + 1)]


def test_there_is_a_connection_but_on_one_day(tmp_path: Path) -> None:
    made = tmp_path / "harbour.lrp"
    feed = EXAMPLES / "harbour" / "feed"
    assert tool("import", "gtfs", str(feed), "line=1", f"out={made}").returncode == 0
    words = [f"db={made}", f"query={EXAMPLES / 'harbour' / 'gaps.lrq'}"]
    # On 20 March 2026 nothing runs; on every other day a ride leaves every 20 minutes and takes 18.
    begin = minute(date(2026, 3, 20), 6)
    assert program("decide", *words) == f"Nonempty\n{begin}\n"
    listed = program("list", *words, f"from={begin - 5000}", f"to={begin + 5000}", "limit=2000")
    assert listed.splitlines() == [str(begin + number) for number in range(16 * 60 + 1)] + ["end"]


def test_there_is_always_a_connection_where_that_day_is_mended(tmp_path: Path) -> None:
    feed = tmp_path / "feed"
    feed.mkdir()
    for file in (EXAMPLES / "harbour" / "feed").iterdir():
        if file.name != "calendar_dates.txt":
            (feed / file.name).write_bytes(file.read_bytes())
    made = tmp_path / "mended.lrp"
    assert tool("import", "gtfs", str(feed), "line=1", f"out={made}").returncode == 0
    assert program("decide", f"db={made}", f"query={EXAMPLES / 'harbour' / 'gaps.lrq'}") == "Empty\n"


def test_holidays_on_a_weekend(tmp_path: Path) -> None:
    made = tmp_path / "holidays.lrp"
    assert tool("import", "ics", str(EXAMPLES / "holidays" / "holidays.ics"), f"out={made}").returncode == 0
    wanted = []
    names = {(1, 1): "New Year", (5, 1): "Labour Day", (12, 25): "Christmas"}
    for day in days(date(2026, 1, 1), date(2425, 12, 31)):
        if day.weekday() >= 5 and (day.month, day.day) in names:
            wanted.append(f'{minute(day)}, "{names[day.month, day.day]}"')
    window = [f"from={minute(date(2026, 1, 1))}", f"to={minute(date(2425, 12, 31))}", "limit=10000"]
    words = [f"db={made}", f"query={EXAMPLES / 'holidays' / 'weekend.lrq'}", *window]
    assert program("list", *words).splitlines() == [*wanted, "end"]


def test_two_machines_on_one_day(tmp_path: Path) -> None:
    made = tmp_path / "upkeep.lrp"
    assert tool("import", "ics", str(EXAMPLES / "upkeep" / "upkeep.ics"), f"out={made}").returncode == 0
    first, last = date(2026, 1, 1), date(2075, 12, 31)
    ends = [date(year, month, last_day) for year in range(2026, 2076) for month, last_day in ((6, 30), (12, 31))]
    wanted = [str(minute(day, 6)) for day in ends if day.weekday() == 4]
    window = [f"from={minute(first)}", f"to={minute(last)}"]
    words = [f"db={made}", f"query={EXAMPLES / 'upkeep' / 'both.lrq'}", *window]
    assert program("list", *words).splitlines() == [*wanted, "end"] and len(wanted) > 10


def test_the_first_picture_is_that_of_the_first_page(tmp_path: Path) -> None:
    folder = TOP / "examples" / "guide"
    words = [f"db={folder / 'clock.lrp'}", f"query={folder / 'trips.lrq'}", "civil=yes"]
    out = tmp_path / "line.svg"
    window = ["from=2026-12-24T00:00", "to=2026-12-24T23:59"]
    assert tool("draw", *words, *window, f"out={out}").returncode == 0
    assert out.read_bytes() == (TOP / "docs" / "pictures" / "line.svg").read_bytes()
    assert "(docs/pictures/line.svg)" in (TOP / "README.md").read_text()
