"""What the page tells of a question: answers, pictures, plans and notes, against what the program writes."""

import asyncio
import json
import re
import shlex
import subprocess
from collections.abc import Iterator
from pathlib import Path
from typing import Any

import pytest
from fizhedul_workbench.page.desk import Desk, Superseded
from pages import CONNECTIONS, EXAMPLES, WEEK, Served, of_program, week_served
from tools import PROGRAM, TIME, TOP

LINE = (EXAMPLES / "guide/line.lrp").read_text()
RIDES = (EXAMPLES / "dates/rides.lrp").read_text()
BOATS = (EXAMPLES / "dates/boats.lrq").read_text()


@pytest.fixture(scope="module")
def page(tmp_path_factory: pytest.TempPathFactory) -> Iterator[Served]:
    with week_served(tmp_path_factory.mktemp("asked")) as found:
        yield found


def lines(answers: list[list[str]]) -> list[str]:
    return [", ".join(answer) for answer in answers]


def test_the_window_is_what_list_writes(page: Served, tmp_path: Path) -> None:
    found = page.ask("look", WEEK, CONNECTIONS)
    wanted = of_program(tmp_path, "list", WEEK, CONNECTIONS, "from=0", "to=1439").splitlines()
    assert lines(found["answers"]) == wanted[:-1] and wanted[-1] == "end" and found["more"] is None
    titles = re.findall(r"<title>(d = .*?)</title>", found["svg"])
    assert titles == [f"d = {d}, a = {a}" for d, a in found["answers"]] and len(titles) == 18
    assert 'style="' not in found["svg"] and "<style" not in found["svg"]


def test_pages_follow_each_other(page: Served, tmp_path: Path) -> None:
    query = "{ t: time | exists a: time exists s: data exists g: data trip(t, a, s, g) }"
    found = page.ask("look", WEEK, query, to="10079", limit=50)
    answers, more = found["answers"], found["more"]
    while more is not None:
        found = page.ask("next", WEEK, query, to="10079", limit=50, after=more)
        answers, more = answers + found["answers"], found["more"]
    wanted = of_program(tmp_path, "list", WEEK, query, "from=0", "to=10079").splitlines()[:-1]
    assert lines(answers) == wanted and len(wanted) > 150


def test_windows_far_away_are_as_near(page: Served) -> None:
    begin = 10**15 - 10**15 % 10080
    found = page.ask("look", WEEK, CONNECTIONS, **{"from": str(begin), "to": str(begin + 1439)})
    here = page.ask("look", WEEK, CONNECTIONS)
    assert [[str(int(time) - begin) for time in answer] for answer in found["answers"]] == here["answers"]
    widest = page.ask("look", WEEK, CONNECTIONS, **{"from": "-" + "9" * 20, "to": "9" * 20, "limit": 3})
    assert len(widest["answers"]) == 3 and int(widest["answers"][0][0]) < -(2**61)


def test_an_empty_window_tells_the_nearest_answer(page: Served, tmp_path: Path) -> None:
    query = '{ t: time | exists a: time exists s: data (trip(t, a, s, "Port") and t >= 5000) }'
    found = page.ask("look", WEEK, query, to="100")
    assert found["answers"] == [] and found["nearest"]["times"] == found["nearest"]["answer"]
    assert of_program(tmp_path, "decide", WEEK, query).splitlines()[1] == found["nearest"]["answer"][0]
    assert page.ask("look", WEEK, "{ t: time | t < t }")["nearest"] is None


def test_civil_times_are_dates(page: Served, tmp_path: Path) -> None:
    ends = {"from": "2026-12-24 00:00", "to": "2026-12-27 23:59"}
    found = page.ask("look", RIDES, BOATS, civil=True, **ends)
    words = ["civil=yes", "from=2026-12-24T00:00", "to=2026-12-27T23:59"]
    assert lines(found["answers"]) == of_program(tmp_path, "list", RIDES, BOATS, *words).splitlines()[:-1]
    assert "2026-12-24 23:05" in lines(found["answers"]) and "2026-12-25" in found["svg"]
    empty = page.ask("look", RIDES, BOATS, civil=True, **{"from": "1970-01-01 00:00", "to": "1970-01-01 01:00"})
    assert re.fullmatch(r"\d{4}-\d\d-\d\d 23:\d5|\d{4}-\d\d-\d\d 23:20", empty["nearest"]["answer"][0])


def test_the_words_give_the_same(page: Served, tmp_path: Path) -> None:
    found = page.ask("look", WEEK, CONNECTIONS, limit=7)
    words = shlex.split(found["words"])
    assert words[:4] == ["./fizhedul", "list", "db=week.lrp", "query=connections.lrq"] and "plan=guarded" in words
    (tmp_path / "week.lrp").write_text(WEEK)
    changed = CONNECTIONS + '# "more"\n'
    found = page.ask("look", WEEK, changed.replace("30", "31"), limit=7)
    words = shlex.split(found["words"])[1:]
    launcher = str(TOP / "fizhedul")
    env = {"FIZHEDUL_PROGRAM": PROGRAM, "PATH": "/usr/bin:/bin"}
    done = subprocess.run([launcher, *words], cwd=tmp_path, capture_output=True, text=True, timeout=TIME, env=env)
    assert done.stdout.splitlines()[:-1] == lines(found["answers"]), (words, done.stderr)


def test_a_fault_has_its_place_and_its_sentences(page: Served) -> None:
    fault = page.ask("look", LINE, "# \N{PILE OF POO}\n{ t: time | (t = 0 and not exists a: time buss(t, a)) }")[
        "fault"
    ]
    assert fault["line"] == "refused: query UnknownRelation at 2:43"
    assert (fault["which"], fault["place"]) == ("query", [1, 42, 46])
    assert "The nearest name is 'bus'." in " ".join(fault["means"])
    fault = page.ask("look", 'relation r(d: data) { ("\N{PILE OF POO}\N{PILE OF POO}" 5); }', "{ | 0 = 0 }")["fault"]
    assert fault["which"] == "db" and fault["place"] == [0, 30, 31] and "Here may stand" in " ".join(fault["means"])
    fault = page.ask("look", LINE, "{ t: time | once t (0, 5) exists a: time bus(t, a) }")["fault"]
    assert "read with temporal operators switched on" in " ".join(fault["means"])
    assert "answers" in page.ask("look", LINE, "{ t: time | once t (0, 5) exists a: time bus(t, a) }", tense=True)


def test_a_cap_that_is_hit_says_what_to_change(page: Served) -> None:
    fault = page.ask("look", WEEK, CONNECTIONS, cap=5)["fault"]
    assert fault["is_cap"] and fault["line"] == "refused: more than 5 cells at step 1"
    said = " ".join(fault["means"])
    assert "The step is '1 scan trip(" in said and "cap=" not in said and "plan=" not in said
    # What is done already isn't asked for.
    assert "See the steps" in said and "under guards" not in said
    fault = page.ask("look", WEEK, CONNECTIONS, cap=5, written=True)["fault"]
    assert "Plan under guards; see the steps" in " ".join(fault["means"])


def test_ranges_are_bars(page: Served, tmp_path: Path) -> None:
    db = "relation shift(t: time) { (0+10n); (1+10n); (2+10n); (5+10n); }"
    query = "{ t: time | shift(t) }"
    found = page.ask("look", db, query, bars=True, limit=3, to="99")
    wanted = of_program(tmp_path, "ranges", db, query, "from=0", "to=99", "limit=3").splitlines()
    assert [", ".join(each) for each in found["answers"]] == wanted[:-1] == ["0, 2", "5, 5", "10, 12"]
    assert found["columns"] == [["from", "time"], ["to", "time"]] and found["head"] == [["t", "time"]]
    assert found["summary"] == "40 answers from 0 to 99; the first 3 ranges of them." and found["more"] == "13"
    assert found["svg"].count('class="mark"') == 3 and " ranges " in found["words"]
    rest = page.ask("next", db, query, bars=True, limit=3, to="99", after=found["more"])
    assert rest["answers"] == [["15", "15"], ["20", "22"], ["25", "25"]]
    # A query with more columns has no ranges.
    assert page.ask("look", db, "{ t: time, u: time | (shift(t) and t = u) }", bars=True)["answers"][0] == ["0", "0"]


def test_the_plan_is_what_explain_writes(page: Served, tmp_path: Path) -> None:
    steps = page.ask("plan", WEEK, CONNECTIONS)["steps"]
    wanted = of_program(tmp_path, "explain", WEEK, CONNECTIONS, "plan=guarded").splitlines()
    told = []
    for step in steps:
        operation, _, rest = step["said"].partition(" ")
        words = [str(step["step"]), operation, *map(str, step["of"]), *([rest] if rest else [])]
        told.append(f"{' '.join(words)} [period {step['period']}, reach {step['reach']}]")
    assert told == wanted and len(wanted) == 7


def test_measured_cells_are_the_least_caps(page: Served, tmp_path: Path) -> None:
    found = page.ask("cells", WEEK, CONNECTIONS)
    assert found["whole"] and found["cells"]
    for step, count in found["cells"].items():
        (tmp_path / "db.lrp").write_text(WEEK)
        (tmp_path / "query.lrq").write_text(CONNECTIONS)
        words = [f"db={tmp_path / 'db.lrp'}", f"query={tmp_path / 'query.lrq'}", "plan=guarded", f"cap={count - 1}"]
        if count > 1:
            done = subprocess.run([PROGRAM, "decide", *words], capture_output=True, text=True, timeout=TIME)
            assert done.stdout == f"refused: more than {count - 1} cells at step {step}\n"
    most = max(found["cells"].values())
    assert of_program(tmp_path, "decide", WEEK, CONNECTIONS, "plan=guarded", f"cap={most}").startswith("Nonempty")


SLIPS = """# 1\n  relation trip(dep: time, arr: time, who: driver) {
  (5+60n, 30+60n, "Ad\N{LATIN SMALL LETTER E WITH ACUTE}") where arr = dep + 25;
  (5+60n, 30+60n, "\N{PILE OF POO}") where arr = dep + 35;
}"""


def test_notes_tell_what_is_seldom_meant(page: Served) -> None:
    found = page.ask("notes", SLIPS, '{ d: time |\n  exists a: time trip(d, a, "Ade") }')
    assert found["others"] == 0 and [(note["which"], note["place"]) for note in found["notes"]] == [
        ("db", [3, 2, 2 + len('(5+60n, 30+60n, "xx") where arr = dep + 35;')]),
        ("query", [1, 28, 33]),
    ]
    assert "did you mean 'arr = dep + 25'?" in found["notes"][0]["said"]
    assert 'Did you mean "Ad\N{LATIN SMALL LETTER E WITH ACUTE}"?' in found["notes"][1]["said"]
    # Nothing is said beside a refusal, and of texts that are as they should be.
    assert page.ask("notes", SLIPS, "{ d: time | tram(d) }")["notes"] == []
    assert page.ask("notes", WEEK, CONNECTIONS)["notes"] == []


def test_notes_follow_the_settings_and_are_few(page: Served) -> None:
    tense = '{ d: time | once d (-5, 0) exists a: time trip(d, a, "Zoe") }'
    assert page.ask("notes", SLIPS, tense)["notes"] == []
    assert [note["place"] for note in page.ask("notes", SLIPS, tense, tense=True)["notes"]][1:] == [[0, 53, 58]]
    civil = "relation r(t: time, u: time) { (daily 08:00, daily 09:00) where u = t + 50; }"
    assert page.ask("notes", civil, "{ t: time | r(t, t) }")["notes"] == []
    (note,) = page.ask("notes", civil, "{ t: time | r(t, t) }", civil=True)["notes"]
    assert "'u = t + 60'" in note["said"]
    many = "relation r(t: time, u: time) { " + "(0+2n, 1+2n) where u = t; " * 9 + "}"
    found = page.ask("notes", many, "{ t: time | r(t, t) }")
    assert len(found["notes"]) == 5 and found["others"] == 4


def test_a_shared_file_needs_no_server(page: Served) -> None:
    texts = {"db": {"version": 1, "text": WEEK}, "query": {"version": 1, "text": CONNECTIONS}}
    body = {"tab": "shared", "lane": "share", "texts": texts, "from": "0", "to": "1439"}
    headers = {"Content-Type": "application/json", "Origin": f"http://{page.host}"}
    status, found, content = page.raw("POST", f"/{page.token}/api/share", json.dumps(body).encode(), headers)
    text = content.decode()
    assert status == 200 and found["content-type"].startswith("text/html")
    assert text.count('<tr id="r') == 18 and text.count('class="mark"') == 18
    assert '(5+60n, 30+60n, "Airport", "Main") where arr = dep + 25;' in text and "scan trip(d, b" in text
    assert "http" not in text.replace("http://www.w3.org/2000/svg", "").replace("http-equiv", "")
    assert page.token not in text and "default-src 'none'" in text and "<textarea" not in text


def test_a_shared_file_has_bars(page: Served) -> None:
    texts = {"db": {"version": 1, "text": WEEK}, "query": {"version": 1, "text": "{ t: time | t = t }"}}
    body = {"tab": "share", "lane": "share", "texts": texts, "from": "0", "to": "1439", "bars": True}
    headers = {"Content-Type": "application/json", "Origin": f"http://{page.host}"}
    _, _, shared = page.raw("POST", f"/{page.token}/api/share", json.dumps(body).encode(), headers)
    assert b"1440 answers from 0 to 1439, in 1 range." in shared and shared.count(b'class="mark"') == 1


def test_two_tabs_have_texts_of_their_own(page: Served) -> None:
    for tab, query in (("one", "{ | 0 = 0 }"), ("two", "{ | 0 = 1 }")):
        page.ask("look", LINE, query, tab=tab)
    texts = {"db": {"version": 1}, "query": {"version": 1}}
    for tab, count in (("one", 1), ("two", 0)):
        body = {"tab": tab, "lane": "look", "texts": texts, "from": "0", "to": "9"}
        assert len(page.post("look", body)[1]["answers"]) == count


def test_a_request_that_comes_late_is_left_out(page: Served) -> None:
    """One that was sent before another neither ends the other's work nor brings older texts back."""

    def sent(number: int, lane: str, version: int, **query: str) -> tuple[int, Any]:
        texts = {"db": {"version": 1, "text": LINE}, "query": {"version": version, **query}}
        body = {"tab": "late", "lane": lane, "number": number, "texts": texts, "from": "0", "to": "9"}
        return page.post("look", body)

    assert sent(2, "one", 2, text="{ | 0 = 0 }")[1]["answers"] == [[]]
    assert sent(1, "one", 1, text="{ | 0 = 1 }") == (409, {"superseded": True})
    assert sent(1, "two", 1, text="{ | 0 = 1 }") == (409, {"missing": ["query"]})
    assert sent(3, "one", 2)[1]["answers"] == [[]]
    assert page.post("stop", {"tab": "late", "lane": "one", "number": 2}) == (200, {})
    assert page.post("look", {"number": -1, "tab": "late", "lane": "one", "texts": {}})[0] == 400


def test_work_is_ended_by_what_was_sent_after_it() -> None:
    async def act() -> None:
        desk = Desk()
        assert desk.takes("tab", "look", 2)
        work = asyncio.ensure_future(desk.alone("tab", "look", asyncio.sleep(3000)))
        await asyncio.sleep(0)
        assert not desk.takes("tab", "look", 1) and desk.takes("tab", "notes", 1) and desk.takes("other", "look", 1)
        assert desk.takes("tab", "look", 3)
        desk.stop("tab", "look")
        with pytest.raises(Superseded):
            await work

    asyncio.run(act())
