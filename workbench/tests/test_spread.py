"""Questions in parts: how windows are cut, how lines are read, and how outputs are put together."""

import io
import random
from pathlib import Path

import pytest
from fizhedul_workbench.spread.lengths import reach_of
from fizhedul_workbench.spread.lines import Form, Head, head_of, least_first, rank
from fizhedul_workbench.spread.merging import (
    is_answered,
    is_number,
    is_page,
    least,
    merge_by_order,
    merge_windows,
    total,
)
from fizhedul_workbench.spread.windows import Reach, Window, cut, seen
from fizhedul_workbench.words import Refused
from tools import tool

TRIP = head_of("{ d: time, l: line, a: time | trip(d, a, l) }")
MADE = random.Random(7)


def files(folder: Path, *contents: str) -> list[Path]:
    """Files with these contents."""
    paths = [folder / f"part-{number}" for number in range(len(contents))]
    for path, content in zip(paths, contents):
        path.write_text(content)
    return paths


def merged(pages: list[tuple[Window, Path]], form: Form) -> str:
    sink = io.BytesIO()
    merge_windows(pages, form, sink)
    return sink.getvalue().decode()


@pytest.mark.parametrize("first, last, parts", [(0, 9, 3), (-7, 7, 4), (5, 5, 9), (0, 2, 3), (-100, -1, 1), (3, 2, 4)])
def test_the_windows_of_a_cut_touch_and_are_the_whole_one(first: int, last: int, parts: int) -> None:
    windows = cut(Window(first, last), parts)
    assert [each.first for each in windows] == [first] + [each.last + 1 for each in windows[:-1]]
    assert windows[-1].last == last
    sizes = [each.last - each.first for each in windows]
    assert max(sizes) - min(sizes) <= 1 and len(windows) == max(1, min(parts, last - first + 1))


def test_a_part_sees_each_answer_that_begins_in_it() -> None:
    whole = Window(0, 99)
    for _ in range(2000):
        times = [MADE.randrange(100) for _ in range(3)]
        reach = Reach(max(times[0] - time for time in times), max(time - times[0] for time in times))
        holders = [part for part in cut(whole, 7) if part.holds(times[0])]
        assert len(holders) == 1
        wide = seen(holders[0], reach, whole)
        assert all(wide.holds(time) for time in times) and 0 <= wide.first and wide.last <= 99


@pytest.mark.parametrize(
    "query, columns",
    [
        ("{ | t = t }", ()),
        ("# { x: time | y }\n{ t: time,l:line|bus(t, l) }", (("t", "time"), ("l", "line"))),
        ("define r(a: time) as bus(a); { t: time | r(t) }", (("t", "time"),)),
        ("no query", ()),
    ],
)
def test_the_head_is_read(query: str, columns: tuple[tuple[str, str], ...]) -> None:
    assert head_of(query) == Head(columns)


def test_lines_are_read_in_each_form() -> None:
    text = 'a, "b" \\ (c)\N{LINE SEPARATOR}'
    order = ((-5, 20), (text.encode(),))
    assert Form(TRIP).order('-5, "a, \\"b\\" \\\\ (c)\N{LINE SEPARATOR}", 20\n') == order
    assert Form(TRIP, is_json=True).order('[-5,"a, \\"b\\" \\\\ (c)\N{LINE SEPARATOR}",20]\n') == order
    dates = ((0, 1500), (b"",))
    assert Form(TRIP, is_civil=True).order('1970-01-01 00:00, "", 1970-01-02 01:00\n') == dates
    assert Form(TRIP, True, True).order('["1970-01-01 00:00","","1970-01-02 01:00"]\n') == dates
    assert Form(Head(())).order("()\n") == ((), ())


def test_the_least_answer_is_nearest_to_0_and_then_first_by_its_texts() -> None:
    assert sorted(range(-3, 4), key=rank) == [0, 1, -1, 2, -2, 3, -3]
    orders = [((1, 5), (b"a",)), ((1, -1), (b"b",)), ((1, -1), (b"ab",)), ((-1, 0), (b"a",))]
    assert min(orders, key=least_first) == ((1, -1), (b"ab",))


@pytest.mark.parametrize(
    "rows, reach",
    [
        ("Empty\n", Reach(0, 0)),
        ('  (5+60n, "x <= 7", 30+60n) where d <= a - 25, a <= d + 25;\n', Reach(0, 25)),
        (
            '  (0+1n, "", 0+1n) where d <= a + 3, a <= d + 9;\n  (0+1n, "", 0+1n) where a <= d - 4, d <= a + 7;\n',
            Reach(7, 9),
        ),
        ('  (0+1n, "", 0+1n) where d >= 10, d <= 20, a >= 5, a <= 30;\n', Reach(15, 20)),
        ('  (0+1n, "", 0+1n) where d <= a;\n', None),
        ('  (0+1n, "", 0+1n);\n', None),
    ],
)
def test_the_rows_of_an_answer_tell_how_long_answers_are(rows: str, reach: Reach | None) -> None:
    text = f"relation answer(d: time, l: line, a: time) {{\n{rows}}}\n" if rows != "Empty\n" else rows
    assert reach_of(text.split("\n"), TRIP) == reach


def test_pages_of_windows_are_one_page(tmp_path: Path) -> None:
    form = Form(head_of("{ t: time | bus(t) }"))
    pages = files(tmp_path, "5\n8\nend\n", "end\n", "20\nend\n")
    windows = [Window(0, 9), Window(10, 19), Window(20, 29)]
    assert merged(list(zip(windows, pages)), form) == "5\n8\n20\nend\n"
    with pytest.raises(Refused, match="an answer lies outside its part: 8"):
        merged([(Window(0, 7), pages[0])], form)


def test_an_answer_of_several_times_is_taken_once(tmp_path: Path) -> None:
    form = Form(TRIP)
    pages = files(tmp_path, '5, "a", 8\n8, "a", 11\n10, "b", 12\nend\n', '8, "a", 11\n10, "b", 12\n19, "a", 10\nend\n')
    windows = [Window(0, 9), Window(10, 19)]
    assert merged(list(zip(windows, pages)), form) == '5, "a", 8\n8, "a", 11\n10, "b", 12\n19, "a", 10\nend\n'


@pytest.mark.parametrize(
    "text, is_whole", [("end\n", True), ("5\nend\n", True), ("5\n", False), ("", False), ("5\nlegend\n", False)]
)
def test_a_page_is_whole_by_its_last_line(tmp_path: Path, text: str, is_whole: bool) -> None:
    [page] = files(tmp_path, text)
    assert is_page(page, Form(head_of("{ t: time | bus(t) }"))) == is_whole


def test_pages_of_one_window_are_merged_by_order(tmp_path: Path) -> None:
    form = Form(head_of("{ l: line, t: time | bus(t, l) }"))
    sink = io.BytesIO()
    merge_by_order(files(tmp_path, '"b", -5\n"a", 7\nend\n', '"a", -5\n"b", -5\n"c", 7\nend\n', "end\n"), form, sink)
    assert sink.getvalue().decode() == '"a", -5\n"b", -5\n"a", 7\n"c", 7\nend\n'


def test_the_least_of_parts_is_the_least_of_all(tmp_path: Path) -> None:
    form = Form(head_of("{ t: time | bus(t) }"))
    assert least(files(tmp_path, "Nonempty\n-7\n", "Empty\n", "Nonempty\n7\n"), form) == b"Nonempty\n7\n"
    assert least(files(tmp_path, "Empty\n", "Empty\n"), form) == b"Empty\n"


def test_questions_are_answered_each_in_its_order(tmp_path: Path) -> None:
    [output] = files(tmp_path, "a.lrq\tEmpty\nb.lrq\tNonempty\nb.lrq\t7\n")
    assert is_answered(output, ["a.lrq", "b.lrq"])
    assert not is_answered(output, ["a.lrq"]) and not is_answered(output, ["a.lrq", "b.lrq", "c.lrq"])


@pytest.fixture
def rides(tmp_path: Path) -> Path:
    (tmp_path / "rides.lrp").write_text("relation ride(d: time, a: time) { (5+60n, 30+60n) where a = d + 25; }")
    (tmp_path / "rides.lrq").write_text("{ d: time, a: time | ride(d, a) }")
    (tmp_path / "pairs.lrq").write_text(
        "{ d: time, a: time | exists b: time exists c: time (ride(d, b) and ride(a, c)) }"
    )
    return tmp_path


def asked(folder: Path, query: str, *more: str) -> str:
    words = [
        "list",
        "db=rides.lrp",
        f"query={query}",
        "from=0",
        "to=599",
        "parts=4",
        "engine=parallel",
        "out=out",
        *more,
    ]
    done = tool("spread", *words, folder=folder)
    assert done.stdout == "" and list(folder.glob("out*")) == [] and done.returncode > 0
    return done.stderr.splitlines()[-1]


def test_an_overlap_is_checked_by_the_answers(rides: Path) -> None:
    assert asked(rides, "rides.lrq", "overlap=24") == "refused: overlap=24 is too little: answers may be 25 long"
    told = "refused: answers have no greatest length, so each part has to see the whole window: say overlap=599"
    assert asked(rides, "pairs.lrq") == told and asked(rides, "pairs.lrq", "overlap=598") == told


@pytest.mark.parametrize(
    "words, wanted",
    [
        ([], "what is spread is one of"),
        (["ask"], "what is spread is one of"),
        (["list", "db=a"], "the key 'engine' is missing"),
        (["list", "db=a", "engine=make"], "the key 'out' is missing"),
        (["decide", "db=a", "engine=parallel", "out=o"], "'decide' is spread over queries=FOLDER"),
        (["decide", "db=a", "engine=parallel", "out=o", "query=q", "parts=2"], "query=FILE goes with by=SORT"),
        (["decide", "db=a", "engine=parallel", "out=o", "queries=q", "by=s"], "a folder of queries without 'by'"),
        (["decide", "db=a", "engine=make", "out=o", "queries=q"], "engine=make is none of parallel, slurm, dask"),
        (["decide", "db=a", "engine=dask", "out=o", "queries=q", "after=x"], "there is no key 'after' here"),
        (["decide", "db=a", "engine=dask", "out=o", "queries=q", "hosts=x"], "'hosts' goes with engine=parallel"),
    ],
)
def test_words_are_checked(tmp_path: Path, words: list[str], wanted: str) -> None:
    done = tool("spread", *words, folder=tmp_path)
    assert done.returncode == 2 and done.stderr.startswith("refused: usage: ") and wanted in done.stderr
    assert list(tmp_path.iterdir()) == []


def test_a_file_that_is_not_there_is_told(rides: Path) -> None:
    assert asked(rides, "none.lrq") == "refused: none.lrq: No such file or directory"


def test_numbers_of_windows_are_added_up(tmp_path: Path) -> None:
    numbers = [0, 9, 153_722_867_280_912_930, 9_223_372_036_854_775_809]
    paths = files(tmp_path, *(f"{number}\n" for number in numbers))
    assert total(paths) == b"%d\n" % sum(numbers) and total(paths[:1]) == b"0\n"
    odd = files(tmp_path, "", "5", "05\n", "-5\n", "5\n5\n", "refused: memory\n", "end\n")
    assert not any(map(is_number, odd)) and all(map(is_number, files(tmp_path, "0\n", "10\n")))


def test_only_windows_are_counted_in_parts() -> None:
    words = ["spread", "count", "db=a", "query=b", "from=0", "to=9", "parts=2", "engine=parallel", "out=c"]
    for more, why in (
        ("overlap=5", "there is no key 'overlap' here"),
        ("by=line", "there is no key 'by' here"),
        ("limit=5", "there is no key 'limit' here"),
    ):
        done = tool(*words, more)
        assert done.returncode == 2 and why in done.stderr
    assert "the key 'parts' is missing" in tool(*words[:6], *words[7:]).stderr
