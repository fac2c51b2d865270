"""Edits that are watched, in the shell."""

import time
from pathlib import Path

import pytest
from test_shell import terminal
from tools import shell

BUS = "relation bus(t: time) { (5+60n); }"
ALL = "{ t: time | bus(t) }"
PAGE = "t\n-\n5\n(1 answer; the last from 0 to 5)\n"


@pytest.fixture
def bus(tmp_path: Path) -> Path:
    (tmp_path / "bus.lrp").write_text(BUS)
    (tmp_path / "moves.lre").write_text("+ bus (0+7n); - bus (0+7n); - bus (65+60n);\n")
    return tmp_path


def piped(folder: Path, text: str, *words: str) -> tuple[str, int]:
    return shell(folder, text, "db=bus.lrp", "from=0", "to=5", *words)


def test_the_least_answer_is_told_at_first_and_after_each_edit(bus: Path) -> None:
    assert piped(bus, f"{ALL}\n.watch moves.lre\n") == (PAGE + "5\n0\n5\nnone\n", 0)
    assert (bus / "bus.lrp").read_text() == BUS


def test_what_is_missing_is_told(bus: Path) -> None:
    assert piped(bus, ".watch moves.lre\n.watch\n") == (
        "there is no query yet\nwhich edits? as in .watch moves.lre\n",
        0,
    )
    told = (
        "edits are watched without temporal operators, civil times and the wide language; "
        ".tense off, .civil off and .wide off\n"
    )
    assert piped(bus, f"{ALL}\n.watch moves.lre\n", "tense=yes") == (PAGE + told, 0)


def test_its_refusals_have_a_sentence_and_a_place(bus: Path) -> None:
    (bus / "tram.lre").write_text("# One edit.\n+ tram (1);\n")
    (bus / "two.lre").write_text("+ bus (0, 1);\n")
    out, status = piped(
        bus,
        f"{ALL}\n.watch tram.lre\n.watch two.lre\n.watch none.lre\n.cap 59\n.watch moves.lre\n"
        "{ t: time | bus(t) }\n.watch moves.lre\n",
    )
    assert status == 5
    for lines in (
        "refused: edits UnknownRelation at 2:3\ntram.lre:2:3\n  + tram (1);\n    ^~~~\nThe database has no",
        "refused: edits Arity at 1:7\ntwo.lre:1:7\n  + bus (0, 1);\n        ^\nThe relation 'bus' has 1 column",
        "refused: read of edits\nThe file that 'edits=' names can't be read: none.lre: No such file or directory.\n",
        "refused: more than 59 cells at edit 1\nWith this edit, some rows of the query's",
    ):
        assert lines in out, out


def test_every_query_is_watched(bus: Path) -> None:
    (bus / "night.lre").write_text("+ bus (0+2n);\n+ bus (1+2n);\n")
    page = "t\n-\n0\n1\n2\n3\n4\n(5 answers; the last from 0 to 5)\n"
    assert piped(bus, "{ t: time | not bus(t) }\n.watch night.lre\n") == (page + "0\n1\nnone\n", 0)


def test_at_a_terminal_a_file_is_followed_as_it_grows(bus: Path) -> None:
    with terminal(bus) as end:
        end.read_until("fizhedul>")
        end.type(b"{ t: time | not bus(t) }\r")
        end.read_until("fizhedul>")
        edits = bus / "night.lre"
        edits.write_text("+ bus (0+2n);\n")
        end.type(b".watch night.lre\r")
        end.read_until("following night.lre; Ctrl-C ends that")
        # Half an edit waits for its end.
        with edits.open("a") as file:
            file.write("+ bus (1+")
            file.flush()
            time.sleep(1)
            file.write("2n);\n")
        assert "refused" not in end.read_until("none")
        edits.write_text("# Anew.\n+ bus (0+2n);\n")
        end.read_until("the edits before have changed; anew:")
        end.type(b"\x03")
        end.read_until("interrupted")
        end.read_until("fizhedul>")
