"""Why a tuple is an answer or is none, and how edits move the least answer, as the page tells it."""

import re
from collections.abc import Iterator
from pathlib import Path
from typing import Any

import pytest
from pages import CONNECTIONS, EXAMPLES, WEEK, Served, of_program, week_served

LINE = (EXAMPLES / "guide/line.lrp").read_text()
RIDES = (EXAMPLES / "dates/rides.lrp").read_text()
BOATS = (EXAMPLES / "dates/boats.lrq").read_text()
DATE = r"\d{4}-\d\d-\d\d \d\d:\d\d"


@pytest.fixture(scope="module")
def page(tmp_path_factory: pytest.TempPathFactory) -> Iterator[Served]:
    with week_served(tmp_path_factory.mktemp("asked")) as found:
        yield found


def said_of(way: dict[str, Any]) -> dict[str, list[str]]:
    """The rows behind each conjunct of a way."""
    return {each["here"]: [row["row"] for row in each["rows"]] for each in way["conjuncts"]}


def test_why_tells_the_rows(page: Served) -> None:
    found = page.ask("why", WEEK, CONNECTIONS, answer=["425", "495"], near=1440)
    assert found["holds"] and len(found["ways"]) == 1
    assert found["ways"][0]["values"] == {"d": 425, "a": 495, "b": 450, "c": 460, "h": "Main"}
    assert said_of(found["ways"][0]) == {
        'trip(425, 450, "Airport", "Main")': ['(5+60n, 30+60n, "Airport", "Main") where arr = dep + 25;'],
        'trip(460, 495, "Main", "Zoo")': ['(460+1440n, 495+1440n, "Main", "Zoo") where arr = dep + 35;'],
        "460 >= 455": [],
        "460 <= 480": [],
    }
    row = found["ways"][0]["conjuncts"][1]["rows"][0]
    assert WEEK[row["begin"] : row["end"]] == row["row"] and WEEK.splitlines()[row["line"]].strip() == row["row"]


def test_why_finds_all_rows_and_the_part_that_holds(page: Served) -> None:
    db = "relation r(t: time) { (0+2n); (1); (0+3n); } relation s(t: time) { (5); }"
    query = "{ t: time | (s(t) or exists u: time (r(t) and r(u) and u = t - 6)) }"
    found = page.ask("why", db, query, answer=["6"], near=10)
    assert said_of(found["ways"][0]) == {"r(6)": ["(0+2n);", "(0+3n);"], "r(0)": ["(0+2n);", "(0+3n);"], "0 = 0": []}
    found = page.ask("why", db, query, answer=["5"], near=10)
    assert said_of(found["ways"][0]) == {"s(5)": ["(5);"]}


WIDE = """define leaves(t: time, h: stop) as trip(t, *, "Airport", h);
define soon(b: time, c: time) as b + 5 <= c and c <= b + 30;
{ d: time, a: time |
  exists b, c: time exists h: stop trip(d, b, "Airport", h) and trip(c, a, h, "Zoo") and soon(b, c) and leaves(d, *) }
"""


def test_why_in_the_wide_language(page: Served) -> None:
    db = WEEK.replace("data", "stop")
    found = page.ask("why", db, WIDE, wide=True, answer=["425", "495"], near=1440)
    assert found["holds"] and found["ways"][0]["values"] == {"d": 425, "a": 495, "b": 450, "c": 460, "h": "Main"}
    assert said_of(found["ways"][0]) == {
        'trip(425, 450, "Airport", "Main")': ['(5+60n, 30+60n, "Airport", "Main") where arr = dep + 25;'],
        'trip(460, 495, "Main", "Zoo")': ['(460+1440n, 495+1440n, "Main", "Zoo") where arr = dep + 35;'],
        "soon(450, 460)": [],
        "leaves(425, *)": [],
    }
    assert page.ask("why", db, WIDE, wide=True, answer=["425", "496"], near=1440)["parts"][0]["together"] == 1


def test_stars_and_lists_of_the_wide_language_have_rows(page: Served) -> None:
    db = 'relation r(t: time, l: line) { (0+2n, "7"); (1, "8"); } relation s(t: time) { (5); }'
    query = "{ t: time | r(t, *) and t != 3 or s(t) and not r(t, *) }"
    found = page.ask("why", db, query, wide=True, answer=["1"], near=10)
    assert said_of(found["ways"][0]) == {"r(1, *)": ['(1, "8");'], "1 != 3": []}
    found = page.ask("why", db, query, wide=True, answer=["5"], near=10)
    assert said_of(found["ways"][0]) == {"s(5)": ["(5);"], "not r(5, *)": []}
    found = page.ask("why", db, query, wide=True, answer=["3"], near=10)
    assert not found["holds"] and [len(each["conjuncts"]) for each in found["parts"]] == [2, 2]


def test_why_with_dates(page: Served) -> None:
    query = BOATS.split("\n", 1)[1]
    found = page.ask("why", RIDES, query, civil=True, answer=["2026-12-24 23:20"], near=1440)
    assert found["holds"] and found["ways"][0]["values"]["d"] == "2026-12-24 23:20"
    rows = [row["row"] for each in found["ways"][0]["conjuncts"] for row in each["rows"]]
    assert rows == ['(weekly thu 23:20, weekly thu 23:40, "Main", "Port") where arr = dep + 20;']
    first = found["ways"][0]["conjuncts"][0]
    assert first["shown"] == 'trip(2026-12-24 23:20, 2026-12-24 23:40, "Main", "Port")'
    assert re.fullmatch(r'trip\(\d{8}, \d{8}, "Main", "Port"\)', first["here"])
    # Far from the window, the way that is nearest to 0 has dates, too.
    some = '{ d: data | exists t: time exists a: time (trip(t, a, "Main", d) and t >= 7 and t in 0+5n) }'
    way = page.ask("why", RIDES, some, civil=True, answer=["Port"], near=0)["ways"][0]
    assert re.fullmatch(DATE, str(way["values"]["t"])) and way["values"]["d"] == "Port"
    assert [each["shown"] for each in way["conjuncts"]] == [
        f'trip({way["values"]["t"]}, {way["values"]["a"]}, "Main", "Port")',
        f'{way["values"]["t"]} >= 1970-01-01 00:07',
        f'{way["values"]["t"]} in 0+5n',
    ]
    found = page.ask("why", RIDES, query, civil=True, answer=["2026-12-25 23:20"], near=1440)
    assert not found["holds"] and [each["alone"] for each in found["parts"][0]["conjuncts"]] == [True, False]


def test_civil_edits_move_the_least_answer_by_dates(page: Served) -> None:
    query = '{ d: time | exists a: time trip(d, a, "Main", "Port") }'
    new = RIDES.replace("weekly thu 23:20, weekly thu 23:40", "weekly thu 23:25, weekly thu 23:45")
    found = page.ask("moves", new, query, base=RIDES, civil=True)
    assert found["by"] == "decide" and len(found["edits"]) == 2
    assert all(re.fullmatch(DATE, each) for each in found["least"])


def test_why_not_tells_the_part_that_fails(page: Served) -> None:
    found = page.ask("why", WEEK, CONNECTIONS, answer=["425", "496"], near=1440)
    (part,) = found["parts"]
    assert not found["holds"] and part["together"] == 1
    assert [each["alone"] for each in part["conjuncts"]] == [True, False, True, True]
    found = page.ask("why", WEEK, CONNECTIONS, answer=["305", "435"], near=1440)
    (part,) = found["parts"]
    assert part["together"] == 3 and all(each["alone"] for each in part["conjuncts"])
    query = "{ d: data | exists t: time exists a: time exists s: data trip(t, a, s, d) }"
    assert page.ask("why", WEEK, query, answer=["Moon"], near=0)["unknown"] == "Moon"
    assert page.ask("why", WEEK, query, answer=["Zoo"], near=0)["holds"]


def test_every_answer_of_the_examples_has_its_reasons(page: Served) -> None:
    """The conjuncts of each way hold by themselves, as the program says of the same values."""
    for db, query in (
        ("guide/line.lrp", "guide/trips.lrq"),
        ("maintenance/maintenance.lrp", "maintenance/unattended.lrq"),
    ):
        texts = (EXAMPLES / db).read_text(), (EXAMPLES / query).read_text()
        found = page.ask("look", *texts, to="2000", limit=3)
        assert found["answers"]
        for answer in found["answers"]:
            told = page.ask("why", *texts, to="2000", answer=answer, near=2000)
            assert told["holds"], (query, answer)
            for each in told["ways"][0]["conjuncts"]:
                holds = page.ask("look", texts[0], f"{{ | {each['here']} }}")
                assert holds["answers"] == [[]], each
                if re.fullmatch(r"\w+\(.*\)", each["here"]):
                    assert each["rows"], each


def test_edits_move_the_least_answer(page: Served, tmp_path: Path) -> None:
    query = "{ d: time, a: time | (bus(d, a) and d >= 100) }"
    new = LINE.replace("(5+60n, 30+60n)", "(20+60n, 45+60n)")
    found = page.ask("moves", new, query, base=LINE)
    (tmp_path / "moves.lre").write_text("\n".join(found["edits"]))
    wanted = of_program(tmp_path, "watch", LINE, query, f"edits={tmp_path / 'moves.lre'}").splitlines()
    assert found["by"] == "watch" and found["least"] == wanted == ["125, 150", "none", "140, 165"]
    # A query that isn't in kept form is watched, too: a bus leaves at 5, none does, and then one does at 20.
    query = "{ d: time | (not exists a: time bus(d, a) and d >= 5) }"
    found = page.ask("moves", new, query, base=LINE)
    assert found["by"] == "watch" and found["least"] == ["6", "5", "5"] and len(found["edits"]) == 2
    found = page.ask("moves", new, "{ d: time | once d (-5, 0) exists a: time bus(d, a) }", base=LINE, tense=True)
    assert found["by"] == "decide" and len(found["least"]) == 2
    assert page.ask("moves", "relation bus(", query, base=LINE)["fault"]["which"] == "db"
