"""The page over the shared library: it keeps the database, and goes on where its engine is killed."""

import os
import signal
from collections.abc import Iterator
from pathlib import Path

import pytest
from devtools import Tab
from made_library import shared_library
from pages import CONNECTIONS, EXAMPLES, SHOWN, WEEK, Served, answered, at_rest, click, editor, forget, open_page
from pages import rows, served, text_of, wait_for
from test_draw import needs_browser

QUERY = "{ d: time, a: time, l: line | bus(d, a, l) }\n"


@pytest.fixture(scope="module")
def library() -> str:
    return shared_library()


@pytest.fixture(scope="module")
def folder(tmp_path_factory: pytest.TempPathFactory) -> Path:
    found = tmp_path_factory.mktemp("kept")
    (found / "week.lrp").write_text(WEEK)
    (found / "connections.lrq").write_text(CONNECTIONS)
    return found


@pytest.fixture(scope="module")
def site(folder: Path, library: str) -> Iterator[Served]:
    with served(folder, "db=week.lrp", "query=connections.lrq", FIZHEDUL_LIBRARY=library) as found:
        yield found


def test_each_answer_of_the_page_is_the_programs(site: Served, tmp_path: Path) -> None:
    with served(tmp_path_with(tmp_path), "db=week.lrp", "query=connections.lrq") as other:
        for db, query in (("guide/line.lrp", "guide/trips.lrq"), ("week/week.lrp", "week/connections.lrq")):
            texts = [(EXAMPLES / name).read_text() for name in (db, query)]
            for name in ("look", "next", "plan", "schema", "count", "notes"):
                more = {"after": site.ask("look", *texts, limit=1)["more"]} if name == "next" else {}
                assert site.ask(name, *texts, limit=1, **more) == other.ask(name, *texts, limit=1, **more), name
        wrong = [(WEEK, "{ t: time | tram(t) }"), (WEEK.replace(";", ";;", 1), CONNECTIONS), (WEEK, "{ t: time |")]
        for db, query in wrong:
            assert site.ask("look", db, query) == other.ask("look", db, query)
    assert site.post("open", {})[1]["engine"] == "library"


def tmp_path_with(folder: Path) -> Path:
    (folder / "week.lrp").write_text(WEEK)
    (folder / "connections.lrq").write_text(CONNECTIONS)
    return folder


def test_questions_start_no_further_process(site: Served) -> None:
    before = set(site.children())
    for number in range(20):
        site.ask("look", WEEK, CONNECTIONS, **{"from": str(number), "to": "2000"})
    assert set(site.children()) == before


@needs_browser
def test_an_engine_that_is_killed_is_told_and_started_again(browser: Tab, site: Served) -> None:
    open_page(browser, site.link)
    found = rows(browser)
    for process in site.children():
        os.kill(process, signal.SIGKILL)
    before = browser.value(SHOWN)
    browser.value(f"{editor('query')}.replaceRange(' ', {{ line: 0, ch: 0 }})")
    wait_for(browser, f"{SHOWN} > {before}")
    at_rest(browser)
    assert rows(browser) == found
    assert text_of(browser, "#banner p") == "the engine was ended by signal 9; it was started again."
    forget(browser)
    assert browser.errors == []


@needs_browser
def test_a_database_of_12_megabytes_is_kept(browser: Tab, library: str, tmp_path: Path) -> None:
    lines = "".join(
        f'  ({number}+100080n, {number + 7}+100080n, "Line {number % 90}") where arr = dep + 7;\n'
        for number in range(190_000)
    )
    (tmp_path / "city.lrp").write_text(f"relation bus(dep: time, arr: time, line: line) {{\n{lines}}}\n")
    (tmp_path / "all.lrq").write_text(QUERY)
    with served(tmp_path, "db=city.lrp", "query=all.lrq", "to=9999", FIZHEDUL_LIBRARY=library) as site:
        open_page(browser, site.link)
        first = rows(browser)
        assert first[:2] == [["0", "7", "Line 0"], ["1", "8", "Line 1"]] and len(first) == 500
        begin, before = site.work(), site.children()
        click(browser, "#more")
        wait_for(browser, "document.querySelectorAll('#answers tbody tr').length >= 1000")
        at_rest(browser)
        # The next page needs no reading, which takes most of the first one.
        assert site.work() - begin < begin / 4 and site.children() == before
        assert rows(browser)[500] == ["500", "507", "Line 50"]
        answered(browser, "query", QUERY.replace("bus(d, a, l)", '(bus(d, a, l) and l = "Line 5")'))
        assert rows(browser)[0] == ["5", "12", "Line 5"]
        forget(browser)
        assert browser.errors == []
