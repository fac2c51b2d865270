"""The page in a browser: typing, faults, completion, zoom, pages, reasons, edits, saving, and the plan."""

import re
from pathlib import Path

from devtools import Tab
from pages import (
    CONNECTIONS,
    EXAMPLES,
    SHOWN,
    WEEK,
    answered,
    at_rest,
    click,
    drawn,
    editor,
    press,
    rows,
    set_text,
    text_of,
    typed,
    wait_for,
)
from test_draw import needs_browser
from tools import program

pytestmark = needs_browser


NOBODY = "{ t: time | not exists a: time exists s: data exists g: data trip(t, a, s, g) }"


def shown_times(page: Tab) -> list[str]:
    """The titles of the marks in the picture."""
    found: list[str] = page.value(
        "[...document.querySelectorAll('#frame .mark title')].map((each) => each.textContent)"
    )
    return found


def window(page: Tab) -> tuple[int, int]:
    first, last = page.value("['from', 'to'].map((end) => String(fizhedul.state.window[end]))")
    return int(first), int(last)


def test_it_opens_with_query_database_picture_and_table(page: Tab) -> None:
    assert text_of(page, "#query-file") == "connections.lrq" and text_of(page, "#db-file") == "week.lrp"
    assert page.value(f"{editor('db')}.getValue()") == WEEK
    wanted = program(
        "list", f"db={EXAMPLES}/week/week.lrp", f"query={EXAMPLES}/week/connections.lrq", "from=0", "to=1439"
    )
    assert [", ".join(row) for row in rows(page)] == wanted.splitlines()[:-1]
    assert shown_times(page) == [f"d = {d}, a = {a}" for d, a in rows(page)]
    assert "18 answers from 0 to 1439" in text_of(page, "#summary")
    resources = page.value("performance.getEntriesByType('resource').map((each) => new URL(each.name).host)")
    assert set(resources) == {page.value("location.host")}


def test_typing_a_query_is_followed(page: Tab) -> None:
    set_text(page, "query", "")
    page.value(f"{editor('query')}.focus()")
    typed(page, "{ t: time | exists a: time exists s: data exists g: data trip(t, a, s, g) ")
    wait_for(page, "document.querySelectorAll('#answers thead th').length", 1)
    at_rest(page)
    assert rows(page)[0] == ["5"] and page.value(f"{editor('query')}.getValue()").endswith("trip(t, a, s, g) }")
    assert page.value("document.getElementById('query-fault').hidden")
    styles = page.value("[...document.querySelectorAll('#query-editor .cm-keyword')].map((each) => each.textContent)")
    assert styles == ["exists", "exists", "exists"]


def test_a_fault_stands_at_its_place(page: Tab) -> None:
    set_text(page, "query", "{ t: time |\n  trap(t) }")
    wait_for(page, "document.getElementById('query-fault').hidden", False)
    assert text_of(page, "#query-editor .fault-mark") == "trap"
    said = text_of(page, "#query-fault")
    assert "UnknownRelation at 2:3" in said and "The nearest name is 'trip'" in said
    assert page.value("document.querySelector('#frame').classList.contains('stale')")
    click(page, "#query-fault button")
    assert page.value(f"(({{line, ch}}) => [line, ch])({editor('query')}.getCursor())") == [1, 2]
    answered(page, "query", CONNECTIONS)
    assert page.value("document.getElementById('query-fault').hidden && !document.querySelector('.fault-mark')")


def test_a_fault_of_the_database_stands_there(page: Tab) -> None:
    set_text(page, "db", WEEK.replace('"Main") where arr = dep + 25', '"Main" where arr = dep + 25'))
    wait_for(page, "document.getElementById('db-fault').hidden", False)
    assert text_of(page, "#db-editor .fault-mark") == "where"
    assert page.value("document.getElementById('query-fault').hidden")
    page.value(f"{editor('db')}.undo()")
    wait_for(page, "document.getElementById('db-fault').hidden")


def test_what_is_seldom_meant_is_noted_at_its_place(page: Tab) -> None:
    answered(page, "query", CONNECTIONS.replace('"Zoo"', '"Zo"'))
    wait_for(page, "document.getElementById('query-notes').hidden", False)
    assert (
        'Did you mean "Zoo"?' in text_of(page, "#query-notes") and text_of(page, "#query-editor .note-mark") == '"Zo"'
    )
    assert page.value("document.getElementById('db-notes').hidden")
    click(page, "#query-notes button")
    line, column = page.value(f"(({{line, ch}}) => [line, ch])({editor('query')}.getCursor())")
    assert CONNECTIONS.splitlines()[line][column:].startswith('"Zo')
    answered(page, "db", WEEK.replace("where arr = dep + 25", "where arr = dep + 26"))
    wait_for(page, "document.getElementById('db-notes').hidden", False)
    assert "did you mean 'arr = dep + 25'?" in text_of(page, "#db-notes")
    # A refusal stands alone, and what is mended isn't noted.
    set_text(page, "query", "{ t: time | trap(t) }")
    wait_for(page, "document.getElementById('query-fault').hidden", False)
    assert page.value("document.getElementById('query-notes').hidden && document.getElementById('db-notes').hidden")
    set_text(page, "db", WEEK)
    answered(page, "query", CONNECTIONS)
    assert page.value("document.getElementById('query-notes').hidden && !document.querySelector('.note-mark')")


def test_relations_columns_and_texts_complete(page: Tab) -> None:
    set_text(page, "query", "{ when: time | tr")
    script = f"(() => {{ const e = {editor('query')}; e.focus(); e.setCursor(e.lastLine(), 999); }})()"
    page.value(script)
    page.value(f"{editor('query')}.options.extraKeys['Ctrl-Space']()")
    assert page.value("[...document.querySelectorAll('.CodeMirror-hint')].map((e) => e.textContent)") == [
        "trip(dep: time, arr: time, start: data, goal: data)"
    ]
    press(page, "Enter", 13)
    wait_for(page, f"{editor('query')}.getValue()", "{ when: time | trip")
    set_text(page, "query", '{ when: time | exists a: time exists s: data trip(when, a, s, "')
    page.value(script)
    page.value(f"{editor('query')}.options.extraKeys['Ctrl-Space']()")
    hints = page.value("[...document.querySelectorAll('.CodeMirror-hint')].map((e) => e.textContent)")
    assert sorted(hints) == ["Airport", "Main", "Port", "Zoo"]
    press(page, "Escape", 27)


def test_zoom_and_move_by_keys_and_wheel(page: Tab) -> None:
    page.value("document.getElementById('frame').focus()")
    before = page.value(SHOWN)
    page.key("+", "+")
    wait_for(page, f"{SHOWN} > {before}")
    at_rest(page)
    first, last = window(page)
    assert 890 <= last - first <= 910 and abs((first + last) / 2 - 720) < 4
    assert all(first <= int(d) and int(a) <= last for d, a in rows(page)) and len(rows(page)) > 5
    page.key("ArrowRight")
    wait_for(page, "Number(fizhedul.state.window.from)", first + (last - first) // 4)
    page.key("0", "0")
    wait_for(page, "document.getElementById('to').value", "1439")
    at_rest(page)
    assert len(rows(page)) == 18
    box = page.value(
        "(() => { const b = document.getElementById('frame').getBoundingClientRect(); return [b.x, b.y, b.width]; })()"
    )
    page.call(
        "Input.dispatchMouseEvent", type="mouseWheel", x=box[0] + box[2] / 2, y=box[1] + 40, deltaX=0, deltaY=-400
    )
    wait_for(page, "fizhedul.state.window.to - fizhedul.state.window.from < 700n")
    at_rest(page)
    first, last = window(page)
    assert 0 < len(rows(page)) < 12 and all(first <= int(d) and int(a) <= last for d, a in rows(page))
    assert shown_times(page) == [f"d = {d}, a = {a}" for d, a in rows(page)]


def test_a_window_is_typed(page: Tab) -> None:
    begin = 10**15 - 10**15 % 10080
    page.value(
        f"document.getElementById('from').value = '{begin}'; document.getElementById('to').value = '{begin + 1439}'"
    )
    before = page.value(SHOWN)
    click(page, "#window button")
    wait_for(page, f"{SHOWN} > {before}")
    at_rest(page)
    assert rows(page)[0] == [str(begin + 305), str(begin + 375)] and len(rows(page)) == 18
    page.value("document.getElementById('from').value = 'noon'")
    click(page, "#window button")
    assert page.value("document.getElementById('from').getAttribute('aria-invalid')") == "true"
    assert len(rows(page)) == 18


# How many rows the table has, what it tells of their number, and whether there are no more.
TOLD = """[document.querySelectorAll('#answers tbody tr').length,
  document.getElementById('count').textContent, document.getElementById('more').hidden]"""


def test_pages_are_loaded_as_one_goes(page: Tab) -> None:
    page.value("fizhedul.state.settings.limit = 100")
    answered(page, "query", NOBODY)
    # The number of all comes by itself, before the next page or after it.
    wait_for(page, "/^[0-9]+ answers of [0-9]+$/.test(document.getElementById('count').textContent)")
    total = text_of(page, "#count").split()[-1]
    is_all = False
    while not is_all:
        count, told, is_all = page.value(TOLD)
        assert 100 <= count <= int(total) and told == (f"{count} answers" if is_all else f"{count} answers of {total}")
        # The end has to be out of view before it comes into view again.
        drawn(page)
        page.value("(() => { const a = document.getElementById('answers'); a.scrollTop = a.scrollHeight; })()")
        wait_for(page, f"{TOLD}[0] > {count} || {TOLD}[2]")
    times = [int(row[0]) for row in rows(page)]
    trips = "{ t: time | exists a: time exists s: data exists g: data trip(t, a, s, g) }"
    answered(page, "query", trips)
    page.value("fizhedul.state.settings.limit = 500")
    taken = {int(row[0]) for row in rows(page)}
    assert times == [time for time in range(1440) if time not in taken]
    assert total == str(len(times))


def test_an_answer_that_is_clicked_tells_why(page: Tab) -> None:
    click(page, "#answers tbody tr:nth-child(3) td")
    wait_for(page, "document.querySelectorAll('#why .row').length", 2)
    assert "It is an answer, with d = 425, a = 495, b = 450, c = 460, h = Main" in text_of(page, "#why")
    buttons = page.value("[...document.querySelectorAll('#why .row')].map((each) => each.textContent)")
    assert buttons[1] == 'trip, line 6(460+1440n, 495+1440n, "Main", "Zoo") where arr = dep + 35;'
    marked = page.value(f"{editor('db')}.getAllMarks().map((m) => m.find()).map(({{from}}) => from.line)")
    assert marked == [2, 5]
    assert page.value("document.querySelector('#frame .mark.chosen title').textContent") == "d = 425, a = 495"
    click(page, "#frame #m0")
    wait_for(page, "document.querySelector('#why input').value", "305")
    page.value("document.querySelectorAll('#why input')[1].value = '376'")
    click(page, "#why form button")
    wait_for(page, "document.querySelector('#why h3').textContent", "It is no answer")
    fails = page.value("[...document.querySelectorAll('#why li.fails code')].map((each) => each.textContent)")
    assert fails == ['trip(c, a, h, "Zoo")']


def test_edits_move_the_least_answer_and_are_undone(page: Tab) -> None:
    click(page, "#tab-moves")
    new = WEEK.replace("(5+60n, 30+60n", "(6+60n, 31+60n")
    answered(page, "db", new)
    wait_for(page, "document.querySelectorAll('#moves tbody tr').length", 3)
    least = "[...document.querySelectorAll('#moves tbody tr')].map((r) => r.cells[0].textContent).join(' / ')"
    assert page.value(least) == "-115, -45 / none / -114, -45"
    # A query that isn't in kept form is watched, too.
    answered(page, "query", NOBODY)
    wait_for(page, least, "0 / 0 / 0")
    answered(page, "query", CONNECTIONS)
    assert page.value("document.getElementById('db-file').classList.contains('changed')")
    click(page, "#moves button")
    wait_for(page, f"{editor('db')}.getValue() === fizhedul.state.saved.db")
    wait_for(page, "document.querySelectorAll('#moves tbody tr').length", 0)
    # The answers are another question than the edits.
    wait_for(page, "[...document.querySelector('#answers tbody tr').cells].map((c) => c.textContent).join()", "305,375")


def test_saving_is_asked_for(page: Tab, folder: Path) -> None:
    text = CONNECTIONS.replace("+ 30", "+ 10")
    answered(page, "query", text)
    assert (folder / "connections.lrq").read_text() == CONNECTIONS
    page.value("document.getElementById('save').focus()")
    press(page, "s", 83, modifiers=2)
    wait_for(page, "document.getElementById('query-file').classList.contains('changed')", False)
    assert (folder / "connections.lrq").read_text() == text and (folder / "week.lrp").read_text() == WEEK
    (folder / "connections.lrq").write_text("# by somebody else\n")
    answered(page, "query", text + "\n")
    click(page, "#save")
    wait_for(page, "document.getElementById('banner').hidden", False)
    assert "was changed by somebody else" in text_of(page, "#banner")
    assert (folder / "connections.lrq").read_text() == "# by somebody else\n"
    click(page, "#banner .acts button")
    wait_for(page, "document.getElementById('banner').hidden")
    assert (folder / "connections.lrq").read_text() == text + "\n"
    page.errors[:] = [each for each in page.errors if "409" not in each]


def test_two_queries_are_compared(page: Tab) -> None:
    click(page, "#pin")
    wait_for(page, "document.querySelectorAll('#pinned .mark').length", 18)
    answered(page, "query", CONNECTIONS.replace("+ 30", "+ 9"))
    assert len(rows(page)) == 0 and page.value("document.querySelectorAll('#pinned .mark').length") == 18
    lefts = page.value("[...document.querySelectorAll('.frame svg')].map((each) => each.dataset.left)")
    assert len(lefts) == 2 and len(set(lefts)) == 1
    names = page.value("[...document.querySelectorAll('[id]')].map((each) => each.id)")
    assert len(set(names)) == len(names)
    click(page, "#pin")
    wait_for(page, "document.getElementById('pinned').hidden")


def test_the_plan_is_a_tree(page: Tab) -> None:
    click(page, "#tab-plan")
    wait_for(page, "document.querySelectorAll('#plan [role=treeitem]').length", 7)
    at_rest(page)
    page.value("document.querySelector('#plan [role=treeitem]').focus()")
    for key in ("ArrowDown", "ArrowDown", "ArrowLeft"):
        page.key(key)
    assert page.value("document.activeElement.getAttribute('aria-expanded')") == "false"
    assert page.value("document.activeElement.querySelector('code').textContent") == "5 drop c"
    click(page, "#plan button")
    wait_for(page, "document.querySelectorAll('#plan .cells').length", 7)
    told = page.value("[...document.querySelectorAll('#plan .cells')].map((each) => each.textContent)")
    pattern = r"\d+ cells?, after \d+ ms|at most \d+ cells?"
    assert all(re.fullmatch(pattern, each) for each in told)
    assert re.fullmatch(r"The whole query took \d+ ms\.", text_of(page, "#plan p"))
