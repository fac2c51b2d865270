"""Calendars, against rules as dateutil expands them, in windows of fifty years."""

import random
from datetime import datetime, timedelta
from pathlib import Path

import pytest
from dateutil import rrule
from tools import listed, tool

EPOCH = datetime(1970, 1, 1)
EVENTS = "{ s: time, e: time | exists u: event exists v: name event(s, e, u, v) }"
MOST = 3_000
DAYS = ["MO", "TU", "WE", "TH", "FR", "SA", "SU"]


def calendar(*lines: str) -> str:
    return "\r\n".join(["BEGIN:VCALENDAR", "VERSION:2.0", *lines, "END:VCALENDAR", ""])


def event(*lines: str, uid: str = "1@x") -> list[str]:
    return ["BEGIN:VEVENT", f"UID:{uid}", "SUMMARY:Event", *lines, "END:VEVENT"]


def written(moment: datetime) -> str:
    return moment.strftime("%Y%m%dT%H%M%S")


def minutes(moment: datetime) -> int:
    return (moment - EPOCH) // timedelta(minutes=1)


def numbers(chance: random.Random, least: int, most: int, count: int, back: bool = False) -> str:
    found = sorted(chance.sample(range(least, most + 1), count))
    return ",".join(str(-number if back and chance.random() < 0.4 and number else number) for number in found)


def random_rule(chance: random.Random) -> str:
    """A rule of one of the frequencies that repeat by a constant period."""
    frequency = chance.choice(
        ["MINUTELY", "HOURLY", "DAILY", "DAILY", "WEEKLY", "WEEKLY", "MONTHLY", "YEARLY", "YEARLY"]
    )
    parts = [f"FREQ={frequency}"]
    most = {"MINUTELY": 700, "HOURLY": 50, "DAILY": 20, "WEEKLY": 9, "MONTHLY": 3, "YEARLY": 4}[frequency]
    if chance.random() < 0.6 or frequency in ("MINUTELY", "HOURLY"):
        least = {"MINUTELY": 300, "HOURLY": 3}.get(frequency, 1)
        parts.append(f"INTERVAL={chance.randint(least, most)}")
    if frequency in ("MINUTELY", "HOURLY") and chance.random() < 0.5:
        parts.append("BYHOUR=" + numbers(chance, 0, 23, 5))
    if frequency in ("HOURLY", "DAILY") and chance.random() < 0.3:
        parts.append("BYMINUTE=" + numbers(chance, 0, 59, 2))
    if frequency in ("HOURLY", "DAILY", "WEEKLY") and chance.random() < 0.6:
        parts.append("BYDAY=" + ",".join(chance.sample(DAYS, 3)))
    if frequency == "WEEKLY" and chance.random() < 0.5:
        parts.append("WKST=" + chance.choice(DAYS))
    if frequency == "YEARLY":
        parts.append(yearly_part(chance))
    if frequency == "MONTHLY":
        parts.append(monthly_part(chance))
    return ";".join(parts)


def yearly_part(chance: random.Random) -> str:
    return chance.choice(
        [
            "BYMONTH=" + numbers(chance, 1, 12, 2),
            "BYYEARDAY=" + numbers(chance, 1, 366, 2, back=True),
            "BYMONTH=2;BYMONTHDAY=29",
            f"BYMONTH={chance.randint(1, 12)};BYDAY={chance.choice(['1', '2', '-1'])}{chance.choice(DAYS)}",
            f"BYDAY={chance.randint(1, 50)}{chance.choice(DAYS)}",
            f"BYMONTH={chance.randint(1, 12)};BYDAY=MO,TU,WE,TH,FR;BYSETPOS=-1",
        ]
    )


def monthly_part(chance: random.Random) -> str:
    return chance.choice(
        [
            "BYMONTHDAY=" + numbers(chance, 1, 31, 1, back=True),
            f"BYDAY={chance.choice(['1', '3', '-1', '-2'])}{chance.choice(DAYS)}",
            "BYDAY=FR;BYMONTHDAY=13",
            "BYMONTH=3,6,9,12;BYDAY=MO,TU,WE,TH,FR;BYSETPOS=-1",
        ]
    )


def first_of(rule: str, begin: datetime) -> datetime:
    """A start from which the rule is one that DTSTART meets."""
    first = next(iter(rrule.rrulestr(rule, dtstart=begin)))
    assert next(iter(rrule.rrulestr(rule, dtstart=first))) == first
    return first


def window_lines(rule: rrule.rrulebase, length: int, first: datetime, last: datetime) -> list[str]:
    found = []
    for start in rule.xafter(first, inc=True):
        if start > last:
            break
        if start + timedelta(minutes=length) <= last:
            found.append(f"{minutes(start)}, {minutes(start) + length}")
    return found


def windows(rule: rrule.rrulebase, first: datetime) -> list[tuple[datetime, datetime]]:
    """Fifty years from before the first start on, and fifty years that begin three centuries later; where these
    have too many starts for one page, the first and the last days of the fifty years."""
    begin, end = first - timedelta(days=400), first + timedelta(days=18_262 - 400)
    count = sum(1 for _, _ in zip(range(MOST), rule))
    dense = count == MOST and rule[MOST - 1] < end
    if dense:
        return [(begin, first + timedelta(days=30)), (end - timedelta(days=30), end)]
    later = begin.replace(year=begin.year + 300, day=1)
    return [(begin, end), (later, later + timedelta(days=18_262))]


@pytest.mark.parametrize("seed", range(24))
def test_random_rules_are_what_dateutil_expands(tmp_path: Path, seed: int) -> None:
    chance = random.Random(seed)
    rule = random_rule(chance)
    begin = datetime(chance.randint(1900, 2090), chance.randint(1, 12), chance.randint(1, 28))
    first = first_of(rule, begin + timedelta(minutes=chance.randint(0, 1439)))
    starts = [start for start, _ in zip(rrule.rrulestr(rule, dtstart=first), range(9))]
    left_out = chance.sample(starts[1:], 2) if chance.random() < 0.5 else []
    added = [first + timedelta(days=11, minutes=3)] if chance.random() < 0.3 else []
    length = chance.randint(0, 200)
    lines = [f"DTSTART:{written(first)}", f"DURATION:PT{length}M", f"RRULE:{rule}"]
    lines += [f"EXDATE:{written(each)}" for each in left_out] + [f"RDATE:{written(each)}" for each in added]
    (tmp_path / "rule.ics").write_text(calendar(*event(*lines)), newline="")
    made = tmp_path / "rule.lrp"
    done = tool("import", "ics", str(tmp_path / "rule.ics"), f"out={made}")
    assert done.returncode == 0, (rule, done.stderr)
    whole = rrule.rruleset(cache=True)
    whole.rrule(rrule.rrulestr(rule, dtstart=first, cache=True))
    for each in left_out:
        whole.exdate(each)
    for each in added:
        whole.rdate(each)
    for begin, end in windows(whole, first):
        assert listed(made, EVENTS, minutes(begin), minutes(end)) == window_lines(whole, length, begin, end), rule


@pytest.mark.parametrize(
    "rule",
    [
        "FREQ=WEEKLY;BYDAY=MO,WE,FR;COUNT=10",
        "FREQ=WEEKLY;INTERVAL=2;UNTIL=20261231T000000",
        "FREQ=DAILY;INTERVAL=3;COUNT=1000",
        "FREQ=HOURLY;INTERVAL=5;UNTIL=20240301T101500",
        "FREQ=MONTHLY;BYDAY=-1MO;COUNT=7",
        "FREQ=YEARLY;COUNT=30",
        "FREQ=MINUTELY;INTERVAL=25;BYHOUR=9,10;COUNT=500",
    ],
)
def test_rules_with_an_end_end_where_dateutil_ends(tmp_path: Path, rule: str) -> None:
    first = datetime(2024, 1, 29, 9, 15)
    (tmp_path / "rule.ics").write_text(calendar(*event(f"DTSTART:{written(first)}", f"RRULE:{rule}")))
    made = tmp_path / "rule.lrp"
    done = tool("import", "ics", str(tmp_path / "rule.ics"), f"out={made}")
    assert done.returncode == 0, done.stderr
    wanted = [f"{minutes(start)}, {minutes(start)}" for start in rrule.rrulestr(rule, dtstart=first)]
    assert listed(made, EVENTS, -(10**9), 10**9) == wanted


def test_month_ends_are_worked_out_by_hand(tmp_path: Path) -> None:
    # The days 31 January, 29 February and 31 March 2024 are the days 19753, 19782 and 19813 since 1970.
    text = calendar(*event("DTSTART;VALUE=DATE:20240131", "RRULE:FREQ=MONTHLY;BYMONTHDAY=-1"))
    (tmp_path / "ends.ics").write_text(text)
    made = tmp_path / "ends.lrp"
    assert tool("import", "ics", str(tmp_path / "ends.ics"), f"out={made}").returncode == 0
    wanted = [f"{1440 * day}, {1440 * day + 1440}" for day in (19753, 19782, 19813)]
    assert listed(made, EVENTS, 0, 1440 * 19813 + 1440) == wanted


def test_a_replaced_start_is_moved_and_a_cancelled_one_is_gone(tmp_path: Path) -> None:
    text = calendar(
        *event("DTSTART:20240101T090000", "DURATION:PT30M", "RRULE:FREQ=WEEKLY;COUNT=4"),
        *event("DTSTART:20240108T140000", "DURATION:PT45M", "RECURRENCE-ID:20240108T090000"),
        *event("DTSTART:20240115T090000", "STATUS:CANCELLED", "RECURRENCE-ID:20240115T090000"),
    )
    (tmp_path / "moved.ics").write_text(text)
    made = tmp_path / "moved.lrp"
    done = tool("import", "ics", str(tmp_path / "moved.ics"), f"out={made}")
    assert done.returncode == 0 and "not carried over: 1 events that are cancelled" in done.stderr
    # Monday 2024-01-01 is day 19723.
    begin = 1440 * 19723
    wanted = [(540, 570), (7 * 1440 + 840, 7 * 1440 + 885), (21 * 1440 + 540, 21 * 1440 + 570)]
    assert listed(made, EVENTS, 0, 10**8) == [f"{begin + s}, {begin + e}" for s, e in wanted]


def test_zones_whose_clock_changes_are_refused(tmp_path: Path) -> None:
    file = tmp_path / "zone.ics"
    file.write_text(calendar(*event("DTSTART;TZID=Europe/Berlin:20240101T090000", "RRULE:FREQ=DAILY")))
    done = tool("import", "ics", str(file))
    assert done.returncode == 3 and "the offset of Europe/Berlin changes" in done.stderr and done.stdout == ""
    local = tool("import", "ics", str(file), "local=yes")
    assert "where start >= 28401660, end = start;" in local.stdout
    file.write_text(
        calendar(*event("DTSTART;TZID=Asia/Tokyo:20240101T090000", "RRULE:FREQ=DAILY;UNTIL=20240105T000000Z"))
    )
    # The fifth start at 9 h in Tokyo is at 0 h in UTC, so it is the last one.
    tokyo = tool("import", "ics", str(file))
    assert "start >= 28401660, start <= 28407420," in tokyo.stdout and "of Asia/Tokyo" in tokyo.stdout


@pytest.mark.parametrize(
    "lines, wanted",
    [
        (["DTSTART:20240101T090000", "RRULE:FREQ=SECONDLY"], ":7: RRULE: FREQ=SECONDLY: times here are whole minutes"),
        (["DTSTART:20240101T090030"], ":6: DTSTART: '20240101T090030': it is no whole minute"),
        (["DTSTART:20240230T090000"], ":6: DTSTART: '20240230T090000': day is out of range for month"),
        (["RRULE:FREQ=DAILY"], ":3: the event has no DTSTART"),
        (["DTSTART:20240101T090000", "RRULE:FREQ=WEEKLY;BYDAY=TU"], ":7: RRULE: DTSTART is no start of the rule"),
        (
            ["DTSTART:20240101T090000", "RRULE:FREQ=DAILY;COUNT=2;UNTIL=20250101T000000"],
            "COUNT and UNTIL stand together",
        ),
        (["DTSTART:20240101T090000", "RRULE:FREQ=DAILY;INTERVAL=0"], "INTERVAL=0 is no number from 1 on"),
        (["DTSTART:20240101T090000", "RRULE:FREQ=WEEKLY;BYMONTHDAY=1"], "BYMONTHDAY has no meaning with FREQ=WEEKLY"),
        (["DTSTART:20240101T090000", "RRULE:FREQ=YEARLY;BYWEEKNO=1"], "BYWEEKNO asks for weekdays"),
        (["DTSTART:20240101T090000", "RRULE:FREQ=DAILY;UNTIL=20250101"], "UNTIL is a date beside a time"),
        (["DTSTART:20240101T090000", "RRULE:FREQ=MINUTELY;BYMONTH=1"], "more than 100000 starts before it repeats"),
        (["DTSTART:20240101T090000", "DTEND:20240101T080000"], ":7: DTEND: it is before DTSTART"),
        (["DTSTART:20240101T090000", "SUMMARY:Two"], ":7: SUMMARY: it stands twice"),
        (["DTSTART:20240101T090000", "no property"], ":7: the line is no property"),
    ],
)
def test_a_broken_calendar_is_refused_with_its_line(tmp_path: Path, lines: list[str], wanted: str) -> None:
    file, made = tmp_path / "broken.ics", tmp_path / "broken.lrp"
    file.write_text("\n".join(["BEGIN:VCALENDAR", "VERSION:2.0", *event(*lines), "END:VCALENDAR"]))
    done = tool("import", "ics", str(file), f"out={made}")
    assert done.returncode == 3 and wanted in done.stderr and done.stderr.count("\n") == 1, done.stderr
    assert not made.exists()


def test_texts_that_are_no_data_texts_are_refused(tmp_path: Path) -> None:
    file = tmp_path / "text.ics"
    lines = event("DTSTART:20240101T090000")
    for text, wanted in (("a\\nb", "has a control character"), ("x" * 256, "has 256 bytes, more than 255")):
        file.write_text(calendar(*lines).replace("SUMMARY:Event", f"SUMMARY:{text}"))
        done = tool("import", "ics", str(file))
        assert done.returncode == 3 and "SUMMARY: the text" in done.stderr and wanted in done.stderr
