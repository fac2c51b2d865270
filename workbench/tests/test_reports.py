"""Numbers and ranges: in the shell, in pictures and in tables."""

from pathlib import Path

import pytest
from test_draw import question, titles
from tools import TOP, program, shell, tool

GUIDE = TOP / "examples/guide"
WAITS = "{ t: time | not bus(t) }"
# The minutes at which no bus leaves, counted here.
RANGES = [[5 + 60 * hour + 1, 5 + 60 * hour + 59] for hour in range(4)]


@pytest.fixture
def bus(tmp_path: Path) -> Path:
    (tmp_path / "bus.lrp").write_text('relation bus(t: time) { (5+60n); } relation line(l: line) { ("7"); ("9"); }')
    return tmp_path


def piped(folder: Path, text: str, *words: str) -> tuple[str, int]:
    out, status = shell(folder, text, "db=bus.lrp", "limit=3", *words)
    # The first page of each query ends with a line in parentheses.
    return out.split(")\n", 1)[-1], status


def test_the_shell_counts_and_shows_ranges_some_at_a_time(bus: Path) -> None:
    text = f"{WAITS}\n.count\n.ranges\n.next\n.next\n"
    assert piped(bus, text, "from=6", "to=244") == (
        "236 answers from 6 to 244\n"
        "from   to\n----  ---\n   6   64\n  66  124\n 126  184\n(3 ranges; more with .next)\n"
        "from   to\n----  ---\n 186  244\n(1 range; the last from 6 to 244)\n"
        "there is no next page\n",
        0,
    )


def test_another_window_begins_anew(bus: Path) -> None:
    text = f"{WAITS}\n.ranges\n.window 5 5\n.next\n.count\n.ranges\n.window 6 6\n.count\n"
    out, status = piped(bus, text, "from=6", "to=244")
    nothing = "(no answer from 5 to 5; the least answer of all is 0)\n"
    assert status == 0 and out.endswith(
        f"more with .next)\n{nothing}there is no next page\n0 answers from 5 to 5\n{nothing}"
        "t\n-\n6\n(1 answer; the last from 6 to 6)\n1 answer from 6 to 6\n"
    )


def test_queries_of_other_heads(bus: Path) -> None:
    assert piped(bus, "{ l: line | line(l) }\n.count\n")[0] == "2 answers\n"
    out, status = piped(bus, "{ l: line | line(l) }\n.ranges\n{ t: time, u: time | t = u }\n.count\n")
    assert status == 4
    assert "refused: ranges needs one time column\nFor '.ranges', the head of the query has to be" in out
    assert "refused: count needs at most one time column\nFor '.count', the head of the query may have" in out
    # Also where a line ends within these words.
    told = " ".join(out.split())
    assert "a text for each call; a query by itself has any head." in told and "'list'" not in told
    assert piped(bus, ".count\n.ranges\n") == ("there is no query yet\nthere is no query yet\n", 0)


def test_ranges_by_dates() -> None:
    text = (GUIDE / "nobody.lrq").read_text() + ".ranges\n.next\n"
    words = ["db=clock.lrp", "civil=yes", "from=2026-12-24T00:00", "to=2026-12-25T23:59", "limit=1"]
    out, status = shell(GUIDE, text, *words)
    rule = "----------------  ----------------\n"
    assert status == 0 and out.split(")\n", 1)[1] == (
        f"from              to\n{rule}2026-12-24 20:00  2026-12-24 20:09\n(1 range; more with .next)\n"
        f"from              to\n{rule}2026-12-25 20:00  2026-12-25 20:09\n"
        "(1 range; the last from 2026-12-24 00:00 to 2026-12-25 23:59)\n"
    )


def test_a_range_is_a_bar_and_the_picture_says_the_number(bus: Path) -> None:
    words = question(bus, WAITS, 6, 244, bus / "bus.lrp")
    done = tool("draw", *words, "ranges=yes", "format=svg")
    assert done.returncode == 0, done.stderr
    assert titles(done.stdout) == [f"from = {first}, to = {last}" for first, last in RANGES]
    assert "236 answers from 6 to 244, in 4 ranges." in done.stdout
    cut = tool("draw", *words, "ranges=yes", "format=svg", "marks=3").stdout
    assert titles(cut) == [f"from = {first}, to = {last}" for first, last in RANGES[:3]]
    assert "236 answers from 6 to 244; the first 3 ranges of them." in cut
    whole = tool("draw", *words, "ranges=yes", "format=svg", "marks=4").stdout
    assert "236 answers from 6 to 244, in 4 ranges." in whole
    nothing = tool("draw", *question(bus, WAITS, 5, 5, bus / "bus.lrp"), "ranges=yes", "format=svg")
    assert "No answer from 5 to 5." in nothing.stdout
    pair = tool("draw", *question(bus, "{ t: time, u: time | t = u }", 0, 5, bus / "bus.lrp"), "ranges=yes")
    assert (pair.returncode, pair.stderr) == (4, "refused: ranges needs one time column\n")


def test_ranges_as_a_table(bus: Path) -> None:
    words = question(bus, WAITS, 6, 244, bus / "bus.lrp")
    lines = "".join(f"{first},{last}\n" for first, last in RANGES)
    assert tool("export", "csv", *words, "ranges=yes").stdout == f"from: time,to: time\n{lines}"
    assert tool("export", "tsv", *words, "ranges=yes").stdout == f"from: time,to: time\n{lines}".replace(",", "\t")
    # A table of ranges is a relation.
    tool("export", "csv", *words, "ranges=yes", f"out={bus / 'waits.csv'}")
    tool("import", "csv", str(bus / "waits.csv"), f"out={bus / 'waits.lrp'}")
    assert program("check", f"db={bus / 'waits.lrp'}").count("from >= ") == len(RANGES)
    dated = tool(
        "export",
        "csv",
        f"db={GUIDE / 'clock.lrp'}",
        f"query={GUIDE / 'nobody.lrq'}",
        "ranges=yes",
        "civil=yes",
        "from=2026-12-24T00:00",
        "to=2026-12-24T23:59",
    )
    assert dated.stdout == "from: time,to: time\n2026-12-24 20:00,2026-12-24 20:09\n"
