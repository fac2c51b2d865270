"""A served page in a browser; its tests are left out where its packages are missing, as `workbench/test` says."""

from collections.abc import Iterator
from importlib.util import find_spec
from pathlib import Path

import pytest
from devtools import Tab, tab
from pages import CONNECTIONS, WEEK, Served, forget, open_page, served
from tools import PROGRAM

EDITOR = Path("/usr/share/javascript/codemirror/lib/codemirror.js")
CAN_SERVE = find_spec("starlette") is not None and find_spec("uvicorn") is not None and EDITOR.exists()

collect_ignore_glob = [] if CAN_SERVE else ["test_page*.py"]

# A program that ends, or waits, where a file says so.
WRAPPER = """#!/bin/sh
if [ -e "{folder}/die" ]; then rm "{folder}/die"; kill -9 $$; fi
if [ -e "{folder}/wait" ]; then echo $$ >"{folder}/told"; mv "{folder}/told" "{folder}/waiting"; exec sleep 3000; fi
exec "{program}" "$@"
"""


@pytest.fixture(scope="module")
def folder(tmp_path_factory: pytest.TempPathFactory) -> Path:
    found = tmp_path_factory.mktemp("page")
    (found / "week.lrp").write_text(WEEK)
    (found / "connections.lrq").write_text(CONNECTIONS)
    wrapper = found / "engine"
    wrapper.write_text(WRAPPER.format(folder=found, program=PROGRAM))
    wrapper.chmod(0o755)
    return found


@pytest.fixture(scope="module")
def site(folder: Path) -> Iterator[Served]:
    with served(folder, "db=week.lrp", "query=connections.lrq", FIZHEDUL_PROGRAM=str(folder / "engine")) as found:
        yield found


@pytest.fixture(scope="module")
def browser() -> Iterator[Tab]:
    with tab(1400, 900) as found:
        yield found


@pytest.fixture(scope="module")
def blank() -> Iterator[Tab]:
    """An empty page, which has done already what is slow at first."""
    with tab(1400, 900) as found:
        for _ in range(3):
            found.slowness()
        yield found


@pytest.fixture
def page(browser: Tab, site: Served, folder: Path) -> Iterator[Tab]:
    """The page, opened anew; no script of it fails."""
    (folder / "week.lrp").write_text(WEEK)
    (folder / "connections.lrq").write_text(CONNECTIONS)
    browser.value("onbeforeunload = null")
    browser.errors.clear()
    open_page(browser, site.link)
    yield browser
    forget(browser)
    assert browser.errors == []
