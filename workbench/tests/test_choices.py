"""What an import is asked for: seconds, rounding, headways, trips that are left out, lines by name, and windows."""

from datetime import date, datetime
from pathlib import Path

from fizhedul_workbench.imports.ics_rules import Progression
from test_gtfs import FILES, small
from test_ics import calendar, event
from tools import listed, program, tool

HEADER = "trip_id,start_time,end_time,headway_secs,exact_times\n"
SECONDS = {"stop_times__txt": FILES["stop_times.txt"].replace("23:55:00", "23:55:30").replace("24:10:00", "24:10:45")}
TIMES = "{ a: time, d: time | exists t: trip exists s: stop stop(t, s, a, d) }"


def test_seconds_are_counted_where_that_is_asked_for(tmp_path: Path) -> None:
    feed = str(small(tmp_path, **SECONDS))
    done = tool("import", "gtfs", feed)
    assert done.returncode == 3 and "stop_times.txt:2: the departure_time 23:55:30 is no whole minute; " in done.stderr
    assert "unit=second counts seconds, and round=down takes the minute" in done.stderr
    made = tmp_path / "made.lrp"
    done = tool("import", "gtfs", feed, "unit=second", "relation=stop", f"out={made}")
    assert done.returncode == 0 and made.read_text().startswith("# Seconds since 1970-01-01 00:00 in Asia/Tokyo")
    # The service runs on 5, 12 and 19 January 2026, which are Mondays.
    begin = (datetime(2026, 1, 5) - datetime(1970, 1, 1)).days * 86_400
    wanted = []
    for week in range(3):
        monday = begin + week * 7 * 86_400
        wanted += [(monday + 85_800, monday + 86_130), (monday + 87_045, monday + 87_045)]
    assert listed(made, TIMES, begin, begin + 30 * 86_400) == [f"{a}, {d}" for a, d in wanted]
    done = tool("import", "gtfs", feed, "unit=second", "civil=yes")
    assert done.returncode == 2 and "civil=yes counts minutes, and unit=second seconds" in done.stderr


def test_times_are_rounded_down_where_that_is_asked_for_and_counted(tmp_path: Path) -> None:
    rounded = tool("import", "gtfs", str(small(tmp_path, **SECONDS)), "round=down")
    whole = tool("import", "gtfs", str(small(tmp_path)))
    assert "not carried over: the seconds of 3 times, which are those of their minutes\n" in rounded.stderr
    assert rounded.stdout.replace(
        "# Not carried over: the seconds of 3 times, which are those of their minutes.\n", ""
    ) == (whole.stdout)


def test_headways_are_taken_as_exact_where_that_is_asked_for(tmp_path: Path) -> None:
    folder = str(small(tmp_path, frequencies__txt=HEADER + "t,08:00:00,08:30:00,900,0\n"))
    done = tool("import", "gtfs", folder, "relation=trip", "headway=as-exact")
    assert '("t 08:00", "U", "w");\n  ("t 08:15", "U", "w");\n}' in done.stdout
    assert "not carried over: that the times of 1 trips of frequencies.txt are not exact\n" in done.stderr
    folder = str(small(tmp_path, frequencies__txt=HEADER + "t,08:00:00,08:05:00,90,1\n"))
    assert "the headway of 90 s is no whole minutes; unit=second" in tool("import", "gtfs", folder).stderr
    done = tool("import", "gtfs", folder, "relation=trip", "unit=second")
    assert all(f'("t 08:0{time}", ' in done.stdout for time in ("0:00", "1:30", "3:00", "4:30"))
    done = tool("import", "gtfs", folder, "relation=trip", "round=down")
    named = [line.split('"')[1] for line in done.stdout.splitlines() if '("' in line]
    assert named == ["t 08:00", "t 08:01", "t 08:03", "t 08:04"]


def test_trips_are_left_out_by_name(tmp_path: Path) -> None:
    two = {
        "trips__txt": FILES["trips.txt"] + "U,w,odd\n",
        "stop_times__txt": FILES["stop_times.txt"] + "odd,08:00:30,08:00:30,A,1\n",
    }
    folder = str(small(tmp_path, **two))
    assert tool("import", "gtfs", folder).returncode == 3
    done = tool("import", "gtfs", folder, "skip=odd")
    assert done.returncode == 0 and "odd" not in done.stdout.replace("# Not carried over: the trips odd.\n", "")
    assert "not carried over: the trips odd\n" in done.stderr
    done = tool("import", "gtfs", folder, "skip=even")
    assert done.returncode == 3 and done.stderr == "refused: there is no trip 'even'\n"


def test_lines_are_chosen_by_short_names_and_listed_where_there_is_none(tmp_path: Path) -> None:
    routes = {"routes__txt": "route_id,route_short_name\nU,7\nV,\n"}
    folder = str(small(tmp_path, **routes))
    by_name, by_id = (tool("import", "gtfs", folder, f"line={name}") for name in ("7", "U"))
    assert by_name.returncode == 0 and by_name.stdout == by_id.stdout and '"t"' in by_name.stdout
    done = tool("import", "gtfs", folder, "line=8")
    assert done.returncode == 3 and done.stderr == "refused: there is no line '8'; the lines are U (7), V\n"


def test_a_window_of_a_calendar_keeps_periods_small(tmp_path: Path) -> None:
    lines = event("DTSTART:20200101T080000", "RRULE:FREQ=MINUTELY;INTERVAL=20", uid="bus@x")
    lines += event("DTSTART:20200301T000000", "DURATION:PT1H", "RRULE:FREQ=YEARLY", uid="yearly@x")
    lines += event("DTSTART:20200104T000000", "RRULE:FREQ=WEEKLY", uid="weekly@x")
    (tmp_path / "a.ics").write_text(calendar(*lines))
    made = tmp_path / "made.lrp"
    done = tool("import", "ics", str(tmp_path / "a.ics"), "from=2026-01-01", "to=2026-12-31", f"out={made}")
    assert done.returncode == 0 and "starts that are not from 2026-01-01 00:00 to 2026-12-31 23:59" in done.stderr
    text = made.read_text()
    yearly = [line for line in text.splitlines() if "yearly@x" in line]
    begin = (date(2026, 3, 1) - date(1970, 1, 1)).days * 1440
    assert yearly == [f'  ({begin}, {begin + 60}, "yearly@x", "Event");']
    assert "+10080n" in text and "+20n" in text and "210379680n" not in text
    first = (date(2026, 1, 1) - date(1970, 1, 1)).days * 1440
    # The rules begin at 08:00, at midnight and on a Saturday, of which 3 January 2026 is the first one.
    wanted = {"bus@x": range(first, first + 525_600, 20), "yearly@x": [begin]}
    wanted["weekly@x"] = range(first + 2 * 1440, first + 525_600, 10_080)
    for uid, starts in wanted.items():
        query = f'{{ s: time | exists e: time exists v: name event(s, e, "{uid}", v) }}'
        assert listed(made, query, first - 1_000_000, first + 1_000_000) == [str(start) for start in starts]
    done = tool("import", "ics", str(tmp_path / "a.ics"), "from=2026-02-30")
    assert done.returncode == 2 and "from=2026-02-30 is no date" in done.stderr


def test_what_of_a_progression_lies_in_a_window() -> None:
    every = Progression(5, 10, None)
    assert every.within(None, None) == every and every.within(6, 40) == Progression(15, 10, 40)
    assert every.within(6, 15) == Progression(15, 0, None) and every.within(6, 14) is None
    assert Progression(5, 10, 25).within(26, None) is None and Progression(5, 10, 25).within(20, None) == Progression(
        25, 0, None
    )
    assert Progression(5, 0, None).within(5, 5) == Progression(5, 0, None)
    assert Progression(5, 0, None).within(6, 9) is None and Progression(5, 0, None).within(0, 4) is None


def test_answers_are_exported_with_tabs_and_without_an_end(tmp_path: Path) -> None:
    (tmp_path / "a.lrp").write_text('relation r(t: time, d: data) { (0+60n, "a \\"b\\", c"); }')
    words = [f"db={tmp_path / 'a.lrp'}", "query={ t: time, d: data | r(t, d) }", "from=0", "to=60"]
    (tmp_path / "all.lrq").write_text(words[1].removeprefix("query="))
    words[1] = f"query={tmp_path / 'all.lrq'}"
    assert program("list", *words).endswith("end\n")
    assert tool("export", "tsv", *words).stdout == 't: time\td: data\n0\ta "b", c\n60\ta "b", c\n'
    assert tool("export", "csv", *words).stdout.splitlines()[1] == '0,"a ""b"", c"'
    done = tool("export", "xml", *words)
    assert done.returncode == 2 and "fizhedul export csv|tsv" in done.stderr
