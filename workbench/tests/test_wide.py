"""The wide language in every tool that asks, and the definitions of a session."""

from pathlib import Path

import pytest
from fizhedul_workbench.imports.plain_csv import read_value
from fizhedul_workbench.lexer import LrpLexer
from fizhedul_workbench.lrp import Point
from fizhedul_workbench.queries import defined_by, head_of, parts_of
from fizhedul_workbench.shell.prompt import Words
from fizhedul_workbench.shell.session import Session
from fizhedul_workbench.shell.tool import is_whole
from fizhedul_workbench.words import Refused
from prompt_toolkit.completion import CompleteEvent
from prompt_toolkit.document import Document
from pygments.token import Keyword
from tools import shell, tool

LEAVES = "define leaves(t: time) as bus(t, *);"
LATE = "{ t: time | leaves(t) and t != 5 }"


@pytest.fixture
def bus(tmp_path: Path) -> Path:
    (tmp_path / "bus.lrp").write_text("relation bus(dep: time, arr: time) { (5+60n, 30+60n) where arr = dep + 25; }")
    (tmp_path / "late.lrq").write_text(f"{LEAVES}\n{LATE}\n")
    return tmp_path


def test_a_definition_holds_from_then_on(bus: Path) -> None:
    text = f"{LEAVES}\n{LATE}\n.definitions\n.save late.lrq\n.wide\n"
    out, status = shell(bus, text, "db=bus.lrp", "to=120")
    assert status == 0 and out == (
        "definitions are in the wide language, which is on now; .wide off ends it\nleaves is defined\n"
        " t\n--\n65\n(1 answer; the last from 0 to 120)\n"
        f"{LEAVES}\nsaved: late.lrq\nthe wide language is on; .wide on and .wide off change that\n"
    )
    assert (bus / "late.lrq").read_text() == f"{LEAVES}\n{LATE}\n"
    again, status = shell(bus, ".read late.lrq\n", "db=bus.lrp", "to=120", "wide=yes")
    assert status == 0 and again == "leaves is defined\n t\n--\n65\n(1 answer; the last from 0 to 120)\n"


def test_a_later_definition_takes_the_place_of_an_earlier_one(bus: Path) -> None:
    text = f"{LEAVES}\ndefine leaves(t: time) as bus(*, t);\n{LATE}\n.forget leaves\n.forget leaves\n.definitions\n"
    out, _ = shell(bus, text, "db=bus.lrp", "to=60", "wide=yes")
    assert out == (
        "leaves is defined\nleaves is defined anew\n t\n--\n30\n(1 answer; the last from 0 to 60)\n"
        "'leaves' is not defined; .definitions lists what is\n"
        "nothing is defined; as in define leaves(t: time) as bus(t, *);\n"
    )


def test_faults_stand_where_they_were_typed(bus: Path) -> None:
    text = f"{LEAVES}\n{{ t: time |\n  leaves(t) and tram(t) }}\ndefine x(t: time) as\n  tram(t);\n"
    out, status = shell(bus, text, "db=bus.lrp", "wide=yes")
    assert status == 4
    assert "refused: query UnknownRelation at 2:17\nquery:2:17\n    leaves(t) and tram(t) }\n" in out
    assert "refused: query UnknownRelation at 2:3 of 'x'\nx:2:3\n    tram(t);\n    ^~~~\n" in out
    assert shell(bus, "define x() as tram();\n.definitions\n", "db=bus.lrp")[0].endswith("as bus(t, *);\n")


def test_an_entry_ends_with_the_last_definition_or_the_query() -> None:
    assert not is_whole("define x(t: time) as") and not is_whole("define x() as s()") and is_whole(LEAVES)
    assert is_whole(f"{LEAVES} {LATE}") and not is_whole(f"{LEAVES} {{ t: time |") and is_whole("{ | s() }")
    assert parts_of(f'{LEAVES} define x() as "a;" = ";"; {LATE}') == [LEAVES, 'define x() as "a;" = ";";', LATE]
    assert defined_by(LEAVES) == ("leaves", ["t"]) and defined_by("define x() as 0 = 0;") == ("x", [])
    assert head_of(f"{LEAVES} {LATE}") == [("t", "time")]


def test_definitions_and_their_columns_are_completed(tmp_path: Path) -> None:
    session = Session(
        "bus.lrp", tmp_path, names=["bus"], definitions={"leaves": "define leaves(moment: time) as bus(moment, *);"}
    )
    words = Words(session, [])

    def completed(text: str) -> list[str]:
        return [found.text for found in words.get_completions(Document(text), CompleteEvent())]

    assert completed("{ t: time | le") == []
    session.is_wide = True
    assert completed("{ t: time | le") == ["leaves"] and completed("{ t: time | mo") == ["moment"]


def test_other_tools_take_the_wide_language(bus: Path) -> None:
    words = ["db=bus.lrp", "query=late.lrq", "from=0", "to=130", "wide=yes"]
    picture = tool("draw", *words, "format=svg", folder=bus)
    assert picture.returncode == 0 and picture.stdout.count('class="mark"') == 2
    assert tool("export", "csv", *words, folder=bus).stdout == "t: time\n65\n125\n"
    assert tool("export", "csv", *words[:-1], folder=bus).returncode == 4
    assert "wide=on is none of yes, no" in tool("draw", *words[:-1], "wide=on", folder=bus).stderr


def test_tables_have_civil_values() -> None:
    column = ("t", "time")
    assert read_value("a.csv", 2, column, "every 3 days from 2026-01-05 08:15") == Point(1935, 4320)
    assert read_value("a.csv", 2, column, "daily 08:15") == Point(495, 1440)
    assert read_value("a.csv", 2, column, "weekly thu 00:00") == Point(0, 10080)
    assert read_value("a.csv", 2, column, "on 1970-01-02 00:00") == 1440
    with pytest.raises(Refused, match="Hours are 00 to 23"):
        read_value("a.csv", 2, column, "daily 24:00")


def test_the_words_of_definitions_are_keywords() -> None:
    text = "define as(as: time) as as(define, *)"
    assert [word for kind, word in LrpLexer().get_tokens(text) if kind is Keyword] == ["define", "as"]
