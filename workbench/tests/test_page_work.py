"""The page while things go wrong or side by side: an engine that ends or waits, two tabs, a server that is gone."""

import re
import signal
from pathlib import Path

from devtools import Tab
from pages import CONNECTIONS, EXAMPLES, SECONDS, WEEK, Served, answered, at_rest, click, editor, ends, forget
from pages import open_page, rows, served, set_text, text_of, wait_for, waiting
from test_draw import needs_browser

pytestmark = needs_browser


def test_an_engine_that_ends_is_told_and_started_again(page: Tab, folder: Path) -> None:
    (folder / "die").touch()
    answered(page, "query", CONNECTIONS + "\n")
    assert text_of(page, "#banner p") == "the engine was ended by signal 9; it was started again."
    assert len(rows(page)) == 18 and not (folder / "die").exists()


def test_long_work_is_stopped(page: Tab, folder: Path) -> None:
    (folder / "wait").touch()
    set_text(page, "query", CONNECTIONS + "\n\n")
    process = waiting(folder)
    wait_for(page, "document.getElementById('stop').hidden", False)
    click(page, "#stop")
    wait_for(page, "document.getElementById('doing').textContent", "Stopped")
    ends(process)
    answered(page, "query", CONNECTIONS)
    assert len(rows(page)) == 18


def test_a_later_question_ends_an_earlier_one(page: Tab, folder: Path) -> None:
    (folder / "wait").touch()
    set_text(page, "query", CONNECTIONS + "\n\n\n")
    process = waiting(folder)
    answered(page, "query", CONNECTIONS)
    ends(process)
    page.errors[:] = [each for each in page.errors if "409" not in each]


def test_two_tabs_go_their_own_ways(page: Tab, site: Served) -> None:
    first = page.session
    target = page.call("Target.createTarget", url="about:blank")["targetId"]
    page.session = None
    second = page.call("Target.attachToTarget", targetId=target, flatten=True)["sessionId"]
    page.session = second
    page.call("Page.enable")
    open_page(page, site.link)
    answered(page, "query", CONNECTIONS.replace("+ 30", "+ 9"))
    page.session = first
    answered(page, "query", CONNECTIONS + "\n")
    assert len(rows(page)) == 18
    page.session = second
    answered(page, "db", WEEK + "\n")
    assert len(rows(page)) == 0
    forget(page)
    page.session = None
    page.call("Target.closeTarget", targetId=target)
    page.session = first


def test_civil_times_are_switched_on(page: Tab) -> None:
    forget(page)
    set_text(page, "db", (EXAMPLES / "dates/rides.lrp").read_text())
    wait_for(page, "document.getElementById('db-fault').hidden", False)
    assert "read with civil times switched on" in text_of(page, "#db-fault")
    click(page, "#tab-settings")
    click(page, "#civil")
    wait_for(page, "document.getElementById('db-fault').hidden")
    at_rest(page)
    assert page.value("document.getElementById('from').value") == "1970-01-01 00:00"
    page.value(
        "document.getElementById('from').value = '2026-12-24'; document.getElementById('to').value = '2026-12-24 23:59'"
    )
    click(page, "#window button")
    wait_for(page, "(document.querySelector('#answers tbody td') || {}).textContent?.startsWith('2026-12-24')")
    at_rest(page)
    click(page, "#answers tbody tr td")
    wait_for(page, "document.querySelectorAll('#why .row').length", 2)
    told = page.value("[...document.querySelectorAll('#why .told code')].map((each) => each.textContent)")
    assert told[0].startswith("trip(2026-12-24 ") and not re.search(r"\d{8}", "".join(told))


def test_a_server_that_is_gone_is_told(browser: Tab, folder: Path) -> None:
    with served(folder, "db=week.lrp") as site:
        browser.errors.clear()
        open_page(browser, site.link)
        assert (
            "trip(dep, arr, start, goal)" in browser.value(f"{editor('query')}.getValue()") and len(rows(browser)) > 40
        )
        assert text_of(browser, "#query-file") == "not in a file"
        site.process.send_signal(signal.SIGINT)
        site.process.wait(SECONDS)
        set_text(browser, "query", CONNECTIONS)
        wait_for(browser, "document.getElementById('banner').hidden", False)
        assert "The server doesn't answer" in text_of(browser, "#banner")
        assert browser.value(f"{editor('query')}.getValue()") == CONNECTIONS
    forget(browser)
    assert all("Failed to load" in each for each in browser.errors)
