"""Databases cut by a sort: which queries may be, and that the parts have together what the whole has."""

import random
from pathlib import Path

import pytest
from fizhedul_workbench.spread.by_sort import cut_database, grouped, read_checked
from fizhedul_workbench.spread.lines import Form, head_of
from fizhedul_workbench.spread.merging import least, merge_by_order
from fizhedul_workbench.words import Refused
from tools import program

CITY = """relation trip(t: time, l: line, c: city) {
  (5+60n, "7", "Port");
  (7+60n, "8", "Zoo") where t >= 100;
  (9+60n, "a \\"(b), c\\"", "Mill");
}
relation pause(l: line, t: time) {
  ("8", 127);
}
relation known(l: line) {
  ("9");
}
relation change(a: line, b: line) {
  ("7", "8");
}
"""
# Queries that may be asked part by part.
FIT = [
    "{ t: time, l: line, c: city | trip(t, l, c) }",
    "{ l: line | not exists t: time exists c: city trip(t, l, c) }",
    "{ t: time | exists l: line exists c: city (trip(t, l, c) and not pause(l, t)) }",
    "{ c: city, l: line | not exists t: time trip(t, l, c) }",
    '{ t: time, l: line | exists c: city (trip(t, l, c) and (c = "Zoo" or c = "Mill") and t >= 0) }',
    '{ l: line, t: time | (t in 0+60n and not exists c: city (trip(t + 5, l, c) and not l = "8")) }',
    "{ t: time, l: line | forall c: city (trip(t, l, c) implies pause(l, t)) }",
]
UNFIT = [
    (
        "{ t: time, l: line, m: line | exists c: city (trip(t, l, c) and trip(t, m, c)) }",
        "the query has 2 variables of this sort",
    ),
    ('{ t: time | exists c: city trip(t, "7", c) }', "the query has 0 variables of this sort"),
    (
        "{ t: time | not exists l: line exists c: city trip(t, l, c) }",
        "'l' is bound by 'forall', or within 'not' or the like",
    ),
    (
        "{ t: time | forall l: line exists c: city trip(t, l, c) }",
        "'l' is bound by 'forall', or within 'not' or the like",
    ),
    (
        "{ t: time | (exists l: line pause(l, t) implies t = 5) }",
        "'l' is bound by 'forall', or within 'not' or the like",
    ),
    ("{ l: line | change(l, l) }", "'l' does not stand in each 'change(..)'"),
    (
        '{ t: time, l: line | (pause(l, t) and exists c: city trip(t, "7", c)) }',
        "'l' does not stand in each 'trip(..)'",
    ),
]


def checked(folder: Path, text: str) -> str:
    """The database as `check` writes it."""
    (folder / "whole.lrp").write_text(text)
    return program("check", f"db={folder / 'whole.lrp'}")


def run_parts(folder: Path, text: str, query: str, parts: int, *words: str) -> list[Path]:
    """The outputs of a command on the parts of a database."""
    (folder / "query.lrq").write_text(query)
    outputs = []
    for number, part in enumerate(cut_database(checked(folder, text), query, "line", parts, False)):
        (folder / f"part-{number}.lrp").write_text(part)
        outputs.append(folder / f"output-{number}")
        command, *others = words
        outputs[-1].write_text(program(command, f"db={folder}/part-{number}.lrp", f"query={folder}/query.lrq", *others))
    return outputs


def hold_together(folder: Path, text: str, query: str, parts: int) -> None:
    """The parts have together what one run on the whole database has."""
    form = Form(head_of(query))
    window = ["from=-200", "to=400", "limit=1000000"]
    whole = [f"db={folder / 'whole.lrp'}", f"query={folder / 'query.lrq'}"]
    decisions = run_parts(folder, text, query, parts, "decide")
    assert least(decisions, form).decode() == program("decide", *whole)
    pages = run_parts(folder, text, query, parts, "list", *window)
    with open(folder / "merged", "wb") as sink:
        merge_by_order(pages, form, sink)
    assert (folder / "merged").read_text() == program("list", *whole, *window)


@pytest.mark.parametrize("query", FIT)
@pytest.mark.parametrize("parts", [1, 2, 9])
def test_parts_have_together_what_the_whole_has(tmp_path: Path, query: str, parts: int) -> None:
    hold_together(tmp_path, CITY, query, parts)


def test_random_databases_are_cut_as_well(tmp_path: Path) -> None:
    made = random.Random(11)
    for _ in range(12):
        trips = "".join(
            f'  ({made.randrange(9)}+{made.randrange(1, 9)}n, "{made.randrange(6)}", "{made.choice("PZM")}");\n'
            for _ in range(9)
        )
        pauses = "".join(f'  ("{made.randrange(6)}", {made.randrange(30)});\n' for _ in range(4))
        text = (
            f"relation trip(t: time, l: line, c: city) {{\n{trips}}}\nrelation pause(l: line, t: time) {{\n{pauses}}}\n"
        )
        hold_together(tmp_path, text, made.choice(FIT), made.randrange(2, 5))


@pytest.mark.parametrize("query, why", UNFIT)
def test_a_query_whose_rows_may_meet_is_refused(tmp_path: Path, query: str, why: str) -> None:
    with pytest.raises(Refused, match="by=line: ") as refused:
        cut_database(checked(tmp_path, CITY), query, "line", 2, False)
    assert why in refused.value.reason and refused.value.status == 4


def test_operators_are_read_with_tense_alone(tmp_path: Path) -> None:
    text = checked(tmp_path, CITY)
    query = "{ t: time, l: line | once t (-5, 5) pause(l, t) }"
    assert len(cut_database(text, query, "line", 3, True)) == 3
    inside = "{ t: time | since t (pause(l, t), exists l: line pause(l, t)) }"
    with pytest.raises(Refused, match="'l' is bound by"):
        cut_database(text, inside, "line", 3, True)


def test_a_part_has_the_rows_of_its_texts_and_all_texts_of_other_sorts(tmp_path: Path) -> None:
    query = "{ t: time, l: line | exists c: city trip(t, l, c) }"
    parts = [read_checked(text) for text in cut_database(checked(tmp_path, CITY), query, "line", 4, False)]
    assert [[relation.name for relation in part] for part in parts] == [["trip", "texts_0", "texts_1"]] * 4
    lines = sorted(values[0] for part in parts for _, values in part[1].rows)
    assert lines == ['"7"', '"8"', '"9"', '"a \\"(b), c\\""']
    assert all(sorted(values[0] for _, values in part[2].rows) == ['"Mill"', '"Port"', '"Zoo"'] for part in parts)
    assert sorted(len(part[0].rows) for part in parts) == [0, 1, 1, 1]


def test_groups_have_nearly_as_many_rows() -> None:
    rows = [(f"  ({line});", [line]) for line in ["a"] * 5 + ["b"] * 3 + ["c"] * 2 + ["d"]]
    [relation] = read_checked("relation r(l: line) {\n" + "\n".join(row for row, _ in rows) + "\n}\n")
    assert grouped([relation], "line", ["a", "b", "c", "d"], 2) == [["a", "d"], ["b", "c"]]
