"""Whole answers in their one form, in the shell."""

from pathlib import Path

import pytest
from tools import program, shell, tool

BUS = "relation bus(t: time) { (5+120n); (65+120n); }"
ALL = "{ t: time | bus(t) }"
ROWS = "relation answer(t: time) {\n  (5+120n);\n  (65+120n);\n}\n"
ROW = "relation answer(t: time) {\n  (5+60n);\n}\n"


@pytest.fixture
def bus(tmp_path: Path) -> Path:
    (tmp_path / "bus.lrp").write_text(BUS)
    return tmp_path


def piped(folder: Path, text: str, *words: str) -> tuple[str, int]:
    return shell(folder, text, "db=bus.lrp", "from=0", "to=5", *words)


def test_whole_answers_are_canonical_where_that_is_on(bus: Path) -> None:
    out, status = piped(bus, f"{ALL}\n.ask\n.canon on\n.ask\n.canon\n.canon off\n.ask\n.canon maybe\n")
    page = "t\n-\n5\n(1 answer; the last from 0 to 5)\n"
    on, off = (f"canonical answers are {now}; .canon on and .canon off change that\n" for now in ("on", "off"))
    assert status == 0 and out == page + ROWS + ROW + on + ROWS + off
    assert piped(bus, f"{ALL}\n.ask\n", "canon=yes") == (page + ROW, 0)


def test_only_whole_answers_hang_on_it(bus: Path) -> None:
    text = f"{ALL}\n.decide\n.explain\n.next\n.tables\n"
    assert piped(bus, text, "canon=yes") == piped(bus, text)


def test_a_saved_answer_is_canonical(bus: Path) -> None:
    assert piped(bus, f"{ALL}\n.canon on\n.save one.lrp\n.canon off\n.save two.lrp\n")[1] == 0
    assert (bus / "one.lrp").read_text() == ROW and (bus / "two.lrp").read_text() == ROWS
    assert "5+60n" in program("check", f"db={bus / 'one.lrp'}")


def test_its_refusals_have_a_sentence(bus: Path) -> None:
    pair = "{ t: time, u: time | (bus(t) and bus(u)) }"
    parts = "{ t: time | (t in 0+2n and t >= 0 and t <= 4) }"
    out, status = piped(bus, f".canon on\n.cap 2\n{parts}\n.ask\n.cap 4\n{pair}\n.ask\n")
    assert status == 4
    for line in (
        "refused: more than 2 canonical rows\nThe answer in its one form has more rows than 'cap' allows",
        "or give a higher cap by '.cap N', or say '.canon off'.\n",
        "refused: canon needs one time column\nAfter '.canon on', the head of the query has to have one column",
    ):
        assert line in out, out
    assert "canon=on is none of yes, no" in tool("shell", "db=bus.lrp", "canon=on", text="", folder=bus).stderr
