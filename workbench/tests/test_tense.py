"""Temporal operators in every tool that asks."""

from pathlib import Path

import pytest
from fizhedul_workbench.lexer import LrpLexer
from pygments.token import Keyword
from tools import tool

WAITS = "{ t: time | once t (0, 3) bus(t) }"


@pytest.fixture
def bus(tmp_path: Path) -> Path:
    (tmp_path / "bus.lrp").write_text("relation bus(t: time) { (5+60n); }")
    (tmp_path / "waits.lrq").write_text(WAITS)
    return tmp_path


def test_the_shell_takes_operators_where_they_are_on(bus: Path) -> None:
    text = f"{WAITS}\n.tense on\n{WAITS}\n.decide\n.explain\n.tense\n.tense off\n.decide\n"
    done = tool("shell", "db=bus.lrp", "to=60", text=text, folder=bus)
    before, table, after = done.stdout.partition("t\n-\n2\n3\n4\n5\n(4 answers; the last from 0 to 60)\n")
    assert done.returncode == 4 and table and "refused: query Syntax at 1:18" in before
    assert after.startswith("Nonempty\n2\n1 scan bus(t~1) [period 60, reach 60]\n")
    assert "temporal operators are on; .tense on and .tense off change that" in after
    assert after.count("refused: query Syntax at 1:18") == 1
    again = tool("shell", "db=bus.lrp", "to=60", "tense=yes", text=WAITS, folder=bus)
    assert again.returncode == 0 and again.stdout == table


def test_pictures_and_tables_take_operators(bus: Path) -> None:
    words = ["db=bus.lrp", "query=waits.lrq", "from=0", "to=60"]
    picture = tool("draw", *words, "tense=yes", "format=svg", folder=bus)
    assert picture.returncode == 0 and picture.stdout.count('class="mark"') == 4
    assert tool("export", "csv", *words, "tense=yes", folder=bus).stdout == "t: time\n2\n3\n4\n5\n"
    for name in (["draw"], ["export", "csv"]):
        done = tool(*name, *words, folder=bus)
        assert done.returncode == 4 and done.stderr == "refused: query Syntax at 1:18\n"
        assert "tense=on is none of yes, no" in tool(*name, *words, "tense=on", folder=bus).stderr


def test_operators_are_keywords_before_a_name_alone() -> None:
    text = "once t (0, 1) once(once) until u (once = 1, since)"
    keywords = [word for kind, word in LrpLexer().get_tokens(text) if kind is Keyword]
    assert keywords == ["once", "until"]
