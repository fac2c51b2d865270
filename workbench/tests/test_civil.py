"""Civil times in every tool: windows by dates, times shown as dates, values of the calendar in databases."""

import re
from datetime import datetime, timedelta
from pathlib import Path

import pytest
from fizhedul_workbench.civil import FIRST, LAST, dated, minute_of
from fizhedul_workbench.imports.civil_values import written_civil
from fizhedul_workbench.lrp import Point
from tools import TOP, program, shell, tool

ROSTER = """# Minutes since 1970-01-01 00:00, to be read with civil=yes.
relation shift(begin: time, end: time, who: driver) {
  (weekly mon 08:15, weekly mon 16:15, "Ada") where end = begin + 480;
  (on 2024-02-29 22:00, on 2024-03-01 06:00, "Zoë") where end = begin + 480;
}
"""
SHIFTS = "{ b: time, w: driver, e: time | shift(b, e, w) }"
WINDOW = ("from=2024-02-26T00:00", "to=2024-03-10T23:59")
BEGINS = ["2024-02-26 08:15", "2024-02-29 22:00", "2024-03-04 08:15"]


@pytest.fixture
def roster(tmp_path: Path) -> Path:
    (tmp_path / "roster.lrp").write_text(ROSTER, encoding="utf-8")
    (tmp_path / "shifts.lrq").write_text(SHIFTS)
    return tmp_path


def piped(folder: Path, text: str, *words: str) -> tuple[str, int]:
    return shell(folder, text, "db=roster.lrp", *words)


def test_times_are_shown_as_dates(roster: Path) -> None:
    out, status = piped(roster, SHIFTS + "\n.next\n.next\n", *WINDOW, "civil=yes", "limit=2")
    assert status == 0 and out == (
        "b                 w    e\n----------------  ---  ----------------\n"
        "2024-02-26 08:15  Ada  2024-02-26 16:15\n2024-02-29 22:00  Zoë  2024-03-01 06:00\n"
        "(2 answers; more with .next)\n"
        "b                 w    e\n----------------  ---  ----------------\n"
        "2024-03-04 08:15  Ada  2024-03-04 16:15\n"
        "(1 answer; the last from 2024-02-26 00:00 to 2024-03-10 23:59)\n"
        "there is no next page\n"
    )


def test_the_least_answer_is_shown_by_its_date(roster: Path) -> None:
    out, status = piped(roster, ".window 2024-02-27T00:00 2024-02-27T23:59\n" + SHIFTS + "\n.decide\n", "civil=yes")
    least = '1969-12-29 08:15, "Ada", 1969-12-29 16:15'
    where = "no answer from 2024-02-27 00:00 to 2024-02-27 23:59"
    assert status == 0 and out == f"({where}; the least answer of all is {least})\nNonempty\n{least}\n"


def test_civil_times_are_turned_on_and_off(roster: Path) -> None:
    (roster / "plain.lrp").write_text('relation shift(begin: time, end: time, who: driver) { (0+1440n, 9, "Bo"); }')
    text = ".open plain.lrp\n" + SHIFTS + "\n.civil on\n.civil\n.window 1970-01-01T00:00 1970-01-01T00:08\n"
    text += ".window 0 8\n.civil off\n.window 0 9\n.window 0 99999999999\n.civil on\n.civil maybe\n"
    out, status = piped(roster, text, "to=9")
    # Without the word, the file that the session begins with is refused.
    assert status == 3 and "refused: database Syntax at 3:4" in out
    for line in (
        "0  Bo  9\n(1 answer; the last from 0 to 9)",
        "1970-01-01 00:00  Bo  1970-01-01 00:09\n(1 answer; the last from 1970-01-01 00:00 to 1970-01-01 00:09)",
        "civil times are on; .civil on and .civil off change that",
        '(no answer from 1970-01-01 00:00 to 1970-01-01 00:08; the least answer of all is 1970-01-01 00:00, "Bo", '
        "1970-01-01 00:09)",
        "a window is two dates, as in .window 2024-02-26T00:00 2024-02-26T23:59",
        "the window is not within the years 1 to 9999; .window A B gives another one",
        "civil times are off; .civil on and .civil off change that",
    ):
        assert line in out, out


def test_words_of_windows_are_checked(roster: Path) -> None:
    words = ["db=roster.lrp", "query=shifts.lrq", "civil=yes"]
    for name in (["draw"], ["export", "csv"]):
        done = tool(*name, *words, "from=2024-02-30T00:00", "to=2024-03-01T00:00", folder=roster)
        assert done.returncode == 2 and "from=2024-02-30T00:00 is no date as 2024-02-26T08:15" in done.stderr
        done = tool(*name, *words[:2], "from=0", "to=1", "civil=1", folder=roster)
        assert done.returncode == 2 and "civil=1 is none of yes, no" in done.stderr
    done = tool("draw", *words, *WINDOW, "hour=1", folder=roster)
    assert done.returncode == 2 and "with civil=yes an hour has 60 steps of time" in done.stderr


def test_a_picture_is_labelled_with_dates(roster: Path) -> None:
    words = ["db=roster.lrp", "query=shifts.lrq", *WINDOW, "civil=yes"]
    picture = tool("draw", *words, "format=svg", folder=roster).stdout
    titles = re.findall(r"<title>(b = [^<]*)</title>", picture)
    assert [title[4:20] for title in titles] == BEGINS and titles[1].endswith("w = Zoë, e = 2024-03-01 06:00")
    assert "3 answers from 2024-02-26 00:00 to 2024-03-10 23:59, in 2 lanes." in picture
    assert ">2024-03-04</text>" in picture
    width = int(re.findall(r'data-width="(\d+)"', picture)[0])
    bars = re.findall(r'<rect class="mark"[^>]* x="([\d.]+)" y="\d+" width="([\d.]+)"', picture)
    span = 14 * 1440 - 1
    wanted = [(495, 480), (3 * 1440 + 1320, 480), (7 * 1440 + 495, 480)]
    found = [(float(x) / width * span, float(wide) / width * span) for x, wide in bars]
    assert found == [pytest.approx(each, abs=0.5) for each in wanted]
    page = tool("draw", *words, folder=roster).stdout
    assert '<td>2024-02-29 22:00</td><td class="text">Zoë</td><td>2024-03-01 06:00</td>' in page
    assert '"dates": true' in page
    assert tool("draw", *words, "grid=numbers", folder=roster).stdout.count('"dates": false') == 1


def test_an_exported_window_has_dates_and_is_imported_again(roster: Path) -> None:
    words = ["db=roster.lrp", "query=shifts.lrq", *WINDOW, "civil=yes"]
    done = tool("export", "csv", *words, "out=table.csv", folder=roster)
    assert done.returncode == 0, done.stderr
    lines = (roster / "table.csv").read_text(encoding="utf-8").splitlines()
    assert lines[0] == "b: time,w: driver,e: time" and lines[2] == "2024-02-29 22:00,Zoë,2024-03-01 06:00"
    tool("import", "csv", "table.csv", "out=again.lrp", "civil=yes", folder=roster)
    again = (roster / "again.lrp").read_text(encoding="utf-8")
    assert again.startswith("# To be read with civil=yes.\n")
    assert '  (on 2024-02-29 22:00, "Zoë", on 2024-03-01 06:00);\n' in again
    (roster / "again.lrq").write_text("{ b: time, w: driver, e: time | table(b, w, e) }")
    words = [f"db={roster / 'again.lrp'}", f"query={roster / 'again.lrq'}", *WINDOW, "civil=yes"]
    assert [line[:16] for line in program("list", *words).splitlines()[:-1]] == BEGINS


def test_a_feed_is_the_same_with_civil_values(tmp_path: Path) -> None:
    feed = str(TOP / "workbench" / "examples" / "harbour" / "feed")
    plain = tool("import", "gtfs", feed, "out=plain.lrp", folder=tmp_path)
    civil = tool("import", "gtfs", feed, "civil=yes", "out=civil.lrp", folder=tmp_path)
    assert (plain.returncode, civil.returncode, plain.stderr) == (0, 0, civil.stderr)
    text = (tmp_path / "civil.lrp").read_text()
    assert "weekly sat " in text and "daily " in text
    assert program("check", f"db={tmp_path / 'plain.lrp'}") == program(
        "check", f"db={tmp_path / 'civil.lrp'}", "civil=yes"
    )
    done = tool("import", "gtfs", feed, "civil=on", folder=tmp_path)
    assert done.returncode == 2 and "civil=on is none of yes, no" in done.stderr


def test_values_are_written_by_the_calendar() -> None:
    for minute in (0, 495, 1440, 6255, 10079, -1, 28_481_760 + 495):
        moment = datetime(1970, 1, 1) + timedelta(minutes=minute)
        day = ("mon", "tue", "wed", "thu", "fri", "sat", "sun")[moment.weekday()]
        assert written_civil(Point(minute, 10080)) == f"weekly {day} {moment:%H:%M}"
        assert written_civil(Point(minute, 1440)) == f"daily {moment:%H:%M}"
        assert written_civil(minute) == f"on {moment:%Y-%m-%d %H:%M}"
    assert written_civil(Point(5, 60)) == "5+60n" and written_civil("daily 08:15") == '"daily 08:15"'
    assert written_civil(LAST + 1) == str(LAST + 1) and written_civil(FIRST) == "on 0001-01-01 00:00"


def test_dates_are_read_in_both_spellings_and_no_other() -> None:
    assert minute_of("2024-02-26T08:15") == minute_of("2024-02-26 08:15") == 28_481_760 + 495
    assert minute_of("0001-01-01T00:00") == FIRST and minute_of("9999-12-31T23:59") == LAST
    for text in ("2023-02-29T00:00", "2024-02-26", "2024-02-26T8:15", "2024-02-26T24:00", "20240226T0815", "495", ""):
        assert minute_of(text) is None
    assert dated(LAST) == "9999-12-31 23:59" and dated(LAST + 1) == str(LAST + 1)


def test_the_shell_opens_on_this_week(roster: Path) -> None:
    today = datetime.now()
    monday = today - timedelta(days=today.weekday())
    week = f"from {monday:%Y-%m-%d} 00:00 to {monday + timedelta(days=6):%Y-%m-%d} 23:59"
    query = "{ t: time | not t = t }\n"
    assert week in shell(roster, query, "db=roster.lrp", "civil=yes")[0]
    assert week in shell(roster, query + ".civil on\n", "db=roster.lrp")[0]
    out, _ = shell(roster, query, "db=roster.lrp", "civil=yes", "from=2024-02-26T00:00", "to=2024-02-26T23:59")
    assert "from 2024-02-26 00:00 to 2024-02-26 23:59" in out
