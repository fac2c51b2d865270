"""Pictures: counted against the program's answers, and used in a real browser where one is installed."""

import re
import subprocess
import xml.etree.ElementTree as ElementTree
import zlib
from collections.abc import Iterator
from pathlib import Path

import pytest
from devtools import Tab, tab
from fizhedul_workbench.draw.browser import browser
from fizhedul_workbench.draw.grid import grid_of, label, lines, step_for, steps
from fizhedul_workbench.draw.png import CHANNELS, bytes_of_row, chunks
from tools import program, tool

TOP = Path(__file__).resolve().parents[2]
WEEK = TOP / "examples" / "week" / "week.lrp"
TRIPS = "{ dep: time, arr: time, start: data, goal: data | trip(dep, arr, start, goal) }"


def can_browse() -> bool:
    found = browser()
    return found is not None and subprocess.run([found, "--version"], capture_output=True).returncode == 0


needs_browser = pytest.mark.skipif(not can_browse(), reason="no browser is installed")


def question(folder: Path, query: str, first: int, last: int, database: Path = WEEK) -> list[str]:
    (folder / "query.lrq").write_text(query)
    return [f"db={database}", f"query={folder / 'query.lrq'}", f"from={first}", f"to={last}"]


def titles(picture: str) -> list[str]:
    """The titles of the marks in a picture."""
    tree = ElementTree.fromstring(picture)
    space = "{http://www.w3.org/2000/svg}"
    marks = [each for each in tree.iter() if each.get("class") == "mark"]
    return [each.findtext(f"{space}title") or "" for each in marks]


def test_a_picture_has_a_mark_for_each_answer(tmp_path: Path) -> None:
    words = question(tmp_path, TRIPS, 0, 2880)
    done = tool("draw", *words, "format=svg")
    assert done.returncode == 0, done.stderr
    wanted = []
    for line in program("list", *words).splitlines()[:-1]:
        dep, arr, start, goal = line.replace('"', "").split(", ")
        wanted.append(f"dep = {dep}, arr = {arr}, start = {start}, goal = {goal}")
    assert titles(done.stdout) == wanted and len(wanted) == 90
    assert "90 answers from 0 to 2880, in 3 lanes. These are all in the window." in done.stdout


def test_a_bar_stands_where_its_times_are(tmp_path: Path) -> None:
    database = tmp_path / "one.lrp"
    database.write_text("relation r(a: time, b: time) { (25, 75); (100, 50); }")
    done = tool("draw", *question(tmp_path, "{ a: time, b: time | r(a, b) }", 0, 100, database), "format=svg")
    width = int(re.findall(r'data-width="(\d+)"', done.stdout)[0])
    bars = re.findall(r'<rect class="mark"[^>]* x="([\d.]+)" y="(\d+)" width="([\d.]+)"', done.stdout)
    found = [(float(x) / width * 100, float(wide) / width * 100) for x, _, wide in bars]
    assert found == [pytest.approx((25, 50), abs=0.01), pytest.approx((50, 50), abs=0.01)]
    assert bars[0][1] != bars[1][1]


def test_a_picture_says_when_more_are_left(tmp_path: Path) -> None:
    done = tool("draw", *question(tmp_path, TRIPS, 0, 2880), "format=svg", "marks=7")
    assert len(titles(done.stdout)) == 7 and "More are left in the window." in done.stdout
    empty = tool("draw", *question(tmp_path, TRIPS, 1, 2), "format=svg")
    assert "No answer from 1 to 2." in empty.stdout and titles(empty.stdout) == []


def test_texts_are_no_markup(tmp_path: Path) -> None:
    database = tmp_path / "odd.lrp"
    database.write_text('relation r(t: time, d: data) { (5, "<b>&\\"]]></script>"); }')
    words = question(tmp_path, "{ t: time, d: data | r(t, d) }", 0, 10, database)
    picture = tool("draw", *words, "format=svg").stdout
    assert titles(picture) == ['t = 5, d = <b>&"]]></script>']
    page = tool("draw", *words).stdout
    assert "<b>" not in page and page.count("</script>") == 2
    assert "http" not in page.replace("http://www.w3.org/2000/svg", "").replace("http-equiv", "")


def test_the_page_has_query_period_and_table(tmp_path: Path) -> None:
    page = tool("draw", *question(tmp_path, TRIPS, 0, 100)).stdout
    assert "The query's period is 10080." in page and '<span class="nf">trip</span>' in page
    assert page.count('<tr id="r') == 2 and '<td>5</td><td>30</td><td class="text">Airport</td>' in page


def test_refusals_are_passed_on(tmp_path: Path) -> None:
    out = tmp_path / "page.html"
    done = tool("draw", *question(tmp_path, "{ t: time | bus(t) }", 0, 9), f"out={out}")
    assert done.returncode == 4 and done.stderr == "refused: query UnknownRelation at 1:13\n" and not out.exists()
    done = tool("draw", *question(tmp_path, TRIPS, 0, 9), "format=gif")
    assert done.returncode == 2 and "format=gif is none of html, svg, png" in done.stderr


def test_the_grid_has_hours_and_days() -> None:
    assert steps(60, False)[:11] == [1, 5, 15, 30, 60, 120, 240, 360, 720, 1440, 10080]
    assert steps(60, True)[9:13] == [1440, 2880, 5760, 10080]
    # Hours have a line for each day of two weeks, and from then on one for each week.
    assert grid_of(0, 336, 1, False) == list(range(0, 337, 24)) and grid_of(0, 400, 1, False) == [0, 168, 336]
    assert step_for(2880, 60, False) == 240 and step_for(2880, 60, True) == 360
    assert step_for(12, 60, False) == 1 and step_for(2000, 1, False) == 168
    assert lines(-7, 12, 5) == [-5, 0, 5, 10]
    assert label(29459520, 60, True) == "2026-01-05" and label(29459585, 60, True) == "2026-01-05 01:05"
    years = grid_of(29453760, 34712640, 60, True)
    assert [label(time, 60, True) for time in years] == [f"{year}-01-01" for year in range(2026, 2037, 2)]
    assert 1 < len(grid_of(2**61, 2**62, 60, True)) < 12
    assert label(-719_162 * 1440, 60, True) == "0001-01-01"
    assert label(2**62, 60, True) == str(2**62) and label(-1440, 60, True) == "1969-12-31"


@pytest.fixture(scope="module")
def page(tmp_path_factory: pytest.TempPathFactory) -> Iterator[Tab]:
    """A page with 10,000 marks in 20 lanes."""
    folder = tmp_path_factory.mktemp("page")
    rows = [f'({3 * n}+60n, {4 * n + 20}+60n, "Line {n:02}") where arr = dep + {n + 20};' for n in range(20)]
    (folder / "bus.lrp").write_text("relation bus(dep: time, arr: time, line: line) {" + "\n".join(rows) + "}")
    query = "{ d: time, a: time, l: line | bus(d, a, l) }"
    words = question(folder, query, 0, 40_000, folder / "bus.lrp")
    assert tool("draw", *words, f"out={folder / 'page.html'}").returncode == 0
    with tab() as found:
        found.open((folder / "page.html").as_uri())
        yield found


@needs_browser
def test_the_browser_shows_every_mark(page: Tab) -> None:
    assert page.value("document.querySelectorAll('#marks .mark').length") == 10_000
    assert page.value("document.querySelectorAll('tbody tr').length") == 10_000
    assert page.value("document.getElementById('timeline').dataset.zoom") == "1"
    assert page.value("performance.getEntriesByType('resource').length") == 0
    assert page.errors == []


@needs_browser
def test_a_mark_under_the_pointer_tells_its_tuple(page: Tab) -> None:
    box = page.value(
        "(() => { const b = document.getElementById('m20').getBoundingClientRect();"
        " return [b.x + b.width / 2, b.y + b.height / 2]; })()"
    )
    page.move(*box)
    told = page.value("document.getElementById('told').textContent")
    assert re.fullmatch(r"d = \d+, a = \d+, l = Line \d\d", told)
    assert page.value("document.querySelector('#marks .chosen title').textContent") == told
    assert page.value("[...document.querySelector('tr.chosen').cells].map((c) => c.textContent).join(' ')") == (
        re.sub(r"[dal] = |,", "", told)
    )


@needs_browser
def test_keys_zoom_move_and_go_from_mark_to_mark(page: Tab) -> None:
    # Marks that move under the pointer would be chosen by it.
    page.move(0, 0)
    page.value("document.getElementById('frame').focus()")
    frame = "new Promise((done) => requestAnimationFrame(() => requestAnimationFrame(done)))"
    for key in ("+", "+", "ArrowRight"):
        page.key(key, key if len(key) == 1 else "")
    page.value(frame)
    assert float(page.value("document.getElementById('timeline').dataset.zoom")) == pytest.approx(2.56)
    move = page.value("document.getElementById('marks').getAttribute('transform')")
    assert re.fullmatch(r"translate\(-\d[\d.]* 0\) scale\(2\.56\d* 1\)", move)
    before = page.value("document.querySelector('#marks .chosen').id")
    page.key("n", "n")
    assert page.value("document.querySelector('#marks .chosen').id") == f"m{int(before[1:]) + 1}"
    page.key("0", "0")
    page.value(frame)
    assert page.value("document.getElementById('timeline').dataset.zoom") == "1"
    assert page.errors == []


FRAMES = """(async () => {
  const frame = document.getElementById("frame");
  const box = frame.getBoundingClientRect();
  for (let turn = 0; turn < 24; turn += 1) {
    const deltaY = turn < 12 ? -60 : 60;
    const at = { deltaY, clientX: box.left + 600, clientY: box.top + 60, cancelable: true, bubbles: true };
    frame.dispatchEvent(new WheelEvent("wheel", at));
    await new Promise(requestAnimationFrame);
  }
})()"""


@needs_browser
def test_ten_thousand_marks_are_fluent(page: Tab, blank: Tab) -> None:
    # What a frame of a zoom in and out costs all of the browser, which draws without a graphics card here; the time
    # on a clock would depend on what else the machine does.
    slowness = blank.slowness()
    begin = page.work()
    page.value(FRAMES)
    assert 0 < (page.work() - begin) / 24 / slowness < 0.2
    assert page.errors == []


@needs_browser
def test_the_page_has_the_grid_of_the_picture(tmp_path: Path) -> None:
    database = tmp_path / "one.lrp"
    database.write_text("relation r(t: time) { (29453760); }")
    windows = ((0, 2880, "numbers"), (-500, 3000, "dates"), (29453760, 34712640, "dates"))
    with tab() as page:
        for first, last, grid in windows:
            words = question(tmp_path, "{ t: time | r(t) }", first, last, database)
            svg = tool("draw", *words, f"grid={grid}", "format=svg").stdout
            drawn = re.findall(r'<text x="[\d.]+" y="20">([^<]*)</text>', svg)
            tool("draw", *words, f"grid={grid}", f"out={tmp_path / 'page.html'}")
            page.open((tmp_path / "page.html").as_uri())
            script = "[...document.querySelectorAll('#grid text')].map((each) => each.textContent)"
            assert page.value(script) == drawn and len(drawn) > 3
        assert page.errors == []


def colours(page: Tab) -> tuple[list[int], list[int]]:
    """The colours of the text and of the ground."""
    script = "(() => { const s = getComputedStyle(document.body); return [s.color, s.backgroundColor]; })()"
    ink, ground = (list(map(int, re.findall(r"\d+", each)[:3])) for each in page.value(script))
    return ink, ground


def contrast(one: list[int], two: list[int]) -> float:
    """The contrast of two colours, as the Web Content Accessibility Guidelines count it."""

    def light(colour: list[int]) -> float:
        parts = [c / 255 / 12.92 if c / 255 <= 0.04045 else ((c / 255 + 0.055) / 1.055) ** 2.4 for c in colour]
        return 0.2126 * parts[0] + 0.7152 * parts[1] + 0.0722 * parts[2]

    high, low = sorted((light(one), light(two)), reverse=True)
    return (high + 0.05) / (low + 0.05)


@needs_browser
def test_light_and_dark_have_contrast(page: Tab) -> None:
    grounds = []
    for scheme in ("light", "dark"):
        page.call("Emulation.setEmulatedMedia", features=[{"name": "prefers-color-scheme", "value": scheme}])
        ink, ground = colours(page)
        assert contrast(ink, ground) > 7
        mark = page.value("getComputedStyle(document.querySelector('#marks .mark')).color")
        assert contrast(list(map(int, re.findall(r"\d+", mark)[:3])), ground) > 4.5
        grounds.append(ground)
    assert grounds[0] == [255, 255, 255] and sum(grounds[1]) < 100


def pixels(image: bytes) -> list[bytes]:
    """The rows of an image in PNG, each undone by the one above it."""
    parts = list(chunks(image))
    header = dict(parts)[b"IHDR"]
    told = zlib.decompress(b"".join(content for name, content in parts if name == b"IDAT"))
    size, step = bytes_of_row(header), CHANNELS[header[9]]
    rows: list[bytes] = []
    above = bytes(size - 1)
    for start in range(0, len(told), size):
        row = bytearray(told[start + 1 : start + size])
        for at in range(size - 1):
            left, over = (row[at - step], above[at - step]) if at >= step else (0, 0)
            guess = nearest(left, above[at], over)
            row[at] = (row[at] + (0, left, above[at], (left + above[at]) // 2, guess)[told[start]]) % 256
        above = bytes(row)
        rows.append(above)
    return rows


def nearest(left: int, up: int, over: int) -> int:
    """Of three neighbours the one that their plane comes nearest to."""
    return min((left, up, over), key=lambda each: abs(left + up - over - each))


@needs_browser
def test_an_image_has_all_of_the_picture(tmp_path: Path) -> None:
    words = question(tmp_path, TRIPS, 0, 1440)
    out = tmp_path / "week.png"
    done = tool("draw", *words, "format=png", f"out={out}")
    assert done.returncode == 0, done.stderr
    svg = tool("draw", *words, "format=svg").stdout
    (height,) = re.findall(r'viewBox="0 0 1200 (\d+)"', svg)
    rows = pixels(out.read_bytes())
    assert len(rows) == int(height) and {len(row) for row in rows} == {3 * 1200}
    middles = {int(y) + 4 for y in re.findall(r'<rect class="mark"[^>]* y="(\d+)"', svg)}
    assert len(middles) > 2 and all(len(set(rows[y][x : x + 3] for x in range(0, 3600, 3))) > 2 for y in middles)
    assert all(len(set(rows[y][x : x + 3] for x in range(0, 3600, 3))) == 1 for y in (0, len(rows) - 1))


def test_a_missing_browser_is_named(tmp_path: Path, monkeypatch: pytest.MonkeyPatch) -> None:
    monkeypatch.setenv("FIZHEDUL_BROWSER", "no-such-browser")
    done = tool("draw", *question(tmp_path, TRIPS, 0, 1440), "format=png")
    assert done.returncode == 1 and done.stdout == ""
    assert done.stderr == "refused: the Debian package chromium is missing (apt-get install chromium)\n"
