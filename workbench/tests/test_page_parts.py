"""What the page does with texts: queries in parts, rows by their places, edits between databases."""

import subprocess
from pathlib import Path

import pytest
from database import relations_of
from fizhedul_workbench.page.formulas import in_the_head, joined, written_query
from fizhedul_workbench.page.languages import taken_apart
from fizhedul_workbench.page.rows import edits_between, numbered
from tools import PROGRAM, TIME, TOP, program

EXAMPLES = TOP / "examples"
CONNECTIONS = (EXAMPLES / "week/connections.lrq").read_text()


def parts(text: str, is_tense: bool = False) -> list[tuple[list[str], list[str]]]:
    """The variables and the conjuncts of each part."""
    taken = taken_apart(text, is_tense)
    return [
        ([v.name for v in part.variables], [joined(leaf.pieces) for leaf in part.conjuncts]) for part in taken.parts
    ]


def test_open_quantifiers_and_conjuncts_are_parts() -> None:
    assert parts(CONNECTIONS) == [
        (
            ["b", "c", "h"],
            ['trip(d, b, "Airport", h)', 'trip(c, a, h, "Zoo")', "c >= b + 5", "c <= b + 30"],
        )
    ]


@pytest.mark.parametrize(
    "formula, found",
    [
        ("bus(t)", [([], ["bus(t)"])]),
        ("(bus(t) or (tram(t) and t in 0+60n))", [([], ["bus(t)"]), ([], ["tram(t)", "t in 0+60n"])]),
        ("not exists u: time bus(u)", [([], ["not exists u: time bus(u)"])]),
        ("(bus(t) implies tram(t))", [([], ["(bus(t) implies tram(t))"])]),
        ("(exists u: time bus(u) and exists u: time tram(u))", [(["u", "u_2"], ["bus(u)", "tram(u_2)"])]),
        ("exists u: line (r(u) and not r(t, u))", [(["u"], ["r(u)", "not r(t, u)"])]),
    ],
)
def test_parts_of_formulas(formula: str, found: list[tuple[list[str], list[str]]]) -> None:
    assert parts(f"{{ t: time | {formula} }} # the end") == found


def test_an_operator_is_a_part_of_its_own() -> None:
    text = "{ t: time | (bus(t) and once t (0, 5) (tram(t) and bus(t))) }"
    assert parts(text, True) == [([], ["bus(t)", "once t(0, 5) (tram(t) and bus(t))"])]


def test_parts_of_all_examples_are_queries() -> None:
    """Each part, its variables in the head, is read by the program."""
    pairs = [("week/week.lrp", "week/connections.lrq"), ("guide/line.lrp", "guide/trips.lrq")]
    pairs += [("guide/line.lrp", "guide/uncovered.lrq"), ("roster/roster.lrp", "roster/uncovered.lrq")]
    for db, query in pairs:
        taken = taken_apart((EXAMPLES / query).read_text(), False)
        for part in taken.parts:
            head = in_the_head(taken.head, part)
            hidden = [each for each in part.variables if each not in head]
            text = written_query(taken.head + head, hidden, [joined(leaf.pieces) for leaf in part.conjuncts])
            assert "head" in program("explain", f"db={EXAMPLES / db}", f"query={Path('/dev/stdin')}", text=text), text


ODD = """# A comment (5);
relation r(t: time, # when; who
           d: data) { # (1, "a");
  (5+60n, "a; ) \\" (b") # here
    where t >= 0;
  (7, "c");
}
relation empty() { }
"""


def test_rows_have_their_places() -> None:
    found = relations_of(ODD)
    assert [(each.name, each.named_columns()) for each in found] == [
        ("r", [("t", "time"), ("d", "data")]),
        ("empty", []),
    ]
    assert [row.line for row in found[0].rows] == [3, 5]
    assert found[0].rows[0].text == '(5+60n, "a; ) \\" (b") where t >= 0;'
    assert ODD[found[0].rows[1].begin : found[0].rows[1].end] == '(7, "c");'


def test_numbered_rows_are_a_database(tmp_path: Path) -> None:
    file = tmp_path / "numbered.lrp"
    file.write_text(numbered(ODD, relations_of(ODD)[0], "row", "row_sort"))
    text = program("check", f"db={file}")
    assert text.startswith("relation r(t: time, d: data, row: row_sort) {\n")
    assert '"a; ) \\" (b", "1") where t >= 0;' in text and '"c", "2")' in text


def test_rows_of_all_examples_are_found() -> None:
    count = 0
    for file in sorted(EXAMPLES.glob("*/*.lrp")):
        done = subprocess.run([PROGRAM, "check", f"db={file}"], capture_output=True, text=True, timeout=TIME)
        if done.returncode == 0:
            found = relations_of(file.read_text())
            assert sum(len(each.rows) for each in found) == done.stdout.count("\n  ("), file
            count += 1
    assert count > 50


def test_edits_between_databases() -> None:
    old = "relation r(t: time) { (1); (5+60n); (2); (2); }"
    new = "relation r(t: time) { (1); # one\n (5+30n);\n (2); (9); }"
    found = edits_between(old, new)
    assert found is not None
    assert [str(each) for each in found] == ["- r (5+60n);", "+ r (5+30n);", "- r (2);", "+ r (9);"]
    assert edits_between(old, new.replace("t: time", "u: time")) is None
    assert edits_between(old, old + "  # the end") == []
