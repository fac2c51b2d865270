"""Plans as trees: in the shell and as pictures."""

import re
import subprocess
from pathlib import Path

import pytest
from fizhedul_workbench.plan import nodes_of, steps_of, tree_of
from test_draw import needs_browser
from tools import PROGRAM, TIME, TOP, program, shell, tool

GUIDE = TOP / "examples/guide"
PLAN = """1 scan a(t, "[period 1, reach 1]") [period 6, reach 6]
2 scan b(u) [period 9, reach 9]
3 join 1 2 where t <= u, u <= t + 2 [period 18, reach 36]
4 drop 3 u [period 18, reach 72]
5 minus 1 4 [period 18, reach 108]
6 select 5 t <= 7 [period 18, reach 108]
7 head 6 [period 18, reach 108]
"""
TREE = """7 head                                             period 18, reach 108
└─ 6 select t <= 7                                 period 18, reach 108
   └─ 5 minus                                      period 18, reach 108
      ├─ 1 scan a(t, "[period 1, reach 1]")        period 6, reach 6
      └─ 4 drop u                                  period 18, reach 72
         └─ 3 join where t <= u, u <= t + 2        period 18, reach 36
            ├─ 1 scan a(t, "[period 1, reach 1]")  as above
            └─ 2 scan b(u)                         period 9, reach 9
"""


def test_the_steps_of_a_plan_are_read() -> None:
    steps = steps_of(PLAN)
    assert [step.uses for step in steps] == [(), (), (1, 2), (3,), (1, 4), (5,), (6,)]
    assert [step.does for step in steps[:3]] == [
        'scan a(t, "[period 1, reach 1]")',
        "scan b(u)",
        "join where t <= u, u <= t + 2",
    ]
    assert [step.does for step in steps[3:]] == ["drop u", "minus", "select t <= 7", "head"]
    assert (steps[4].period, steps[4].reach) == (18, 108)


def test_each_step_stands_below_the_one_that_uses_it() -> None:
    assert tree_of(PLAN) == TREE.splitlines()


@pytest.mark.parametrize("folder", ["guarded", "plans"])
def test_the_trees_of_all_examples_have_each_step_in_full_once(folder: str) -> None:
    count = 0
    for file in sorted((TOP / "examples" / folder / "expected").iterdir()):
        text = file.read_text()
        if not re.match(r"1 \w+ .*\[period", text):
            continue
        nodes = list(nodes_of(steps_of(text)))
        whole = [node.step.number for node in nodes if not node.is_again]
        assert sorted(whole) == list(range(1, len(text.splitlines()) + 1))
        assert nodes[0].ends == () and all(node.ends for node in nodes[1:])
        count += 1
    assert count > 5


def test_the_shell_writes_a_tree_and_its_picture(tmp_path: Path) -> None:
    picture = tmp_path / "plan.svg"
    text = f".tree\n{(GUIDE / 'costly.lrq').read_text()}.tree\n.tree {picture}\n.plan written\n.tree\n"
    out, status = shell(GUIDE, text, "db=line.lrp")
    assert status == 0 and out.startswith("there is no query yet\n")
    trees = [
        "\n".join(
            tree_of(program("explain", f"db={GUIDE / 'line.lrp'}", f"query={GUIDE / 'costly.lrq'}", f"plan={plan}"))
        )
        for plan in ("guarded", "written")
    ]
    assert out.endswith(f"{trees[0]}\ndrawn: {picture}\n{trees[1]}\n")
    assert trees[0].count("as above") == 1 and picture.read_text().count("<text x=") == 9


def test_a_plan_is_drawn_in_each_form(tmp_path: Path) -> None:
    words = [f"db={GUIDE / 'line.lrp'}", f"query={GUIDE / 'costly.lrq'}", "tree=yes"]
    svg = tool("draw", *words, "format=svg").stdout
    assert "3 join where b &lt;= d, a &lt;= e" in svg and "The plan: 8 steps, the last one first." in svg
    assert svg.count("<path d=") == 8
    page = tool("draw", *words).stdout
    assert page.startswith("<!DOCTYPE html>") and "<script" not in page and "period 1440, reach 3360" in page
    assert "13 steps" in tool("draw", *words, "plan=written", "format=svg").stdout
    for more, why in (("from=0", "there is no key 'from' here"), ("marks=5", "there is no key 'marks' here")):
        done = tool("draw", *words, more)
        assert done.returncode == 2 and why in done.stderr
    (tmp_path / "odd.lrq").write_text("{ t: time | buss(t) }")
    done = tool("draw", words[0], f"query={tmp_path / 'odd.lrq'}", "tree=yes")
    assert (done.returncode, done.stderr) == (4, "refused: query UnknownRelation at 1:13\n")


def passes(step: int, cap: int, plan: str) -> bool:
    """Whether the program gives up the guide's query at this step under a cap."""
    words = [f"db={GUIDE / 'line.lrp'}", f"query={GUIDE / 'costly.lrq'}", f"plan={plan}", f"cap={cap}"]
    done = subprocess.run([PROGRAM, "decide", *words], capture_output=True, text=True, timeout=TIME)
    return done.stdout == f"refused: more than {cap} cells at step {step}\n"


def cells_of(lines: list[str], what: str) -> dict[int, int]:
    """The numbers of cells that a tree tells with these words, by the steps."""
    found = {}
    for line in lines:
        step = re.match(r"[│├└─ ]*(\d+) ", line)
        told = re.search(rf", {what}(\d+) cells?(, after \d+ ms)?$", line)
        if step and told:
            found[int(step.group(1))] = int(told.group(1))
    return found


def test_the_shell_tells_the_cells_of_each_step() -> None:
    out, status = shell(GUIDE, f"{(GUIDE / 'costly.lrq').read_text()}.cells\n", "db=line.lrp")
    lines = out.split("\n(", 1)[1].splitlines()[1:]
    assert status == 0 and re.fullmatch(r"\(the whole query took \d+ ms\)", lines[-1])
    exact, bounds = cells_of(lines, ""), cells_of(lines, "at most ")
    # Every step but the one that stands in the tree already has a number or a bound.
    assert sorted([*exact, *bounds]) == list(range(1, 9)) and sum("as above" in line for line in lines) == 1
    assert len(exact) > 1
    for step, count in exact.items():
        assert passes(step, count - 1, "guarded") and not passes(step, count, "guarded")
    most = max(exact.values())
    assert not any(passes(step, most, "guarded") for step in bounds)
    for step, count in bounds.items():
        assert count == max([each for before, each in exact.items() if before < step], default=1)


def test_cells_are_told_as_far_as_the_cap_allows(tmp_path: Path) -> None:
    picture = tmp_path / "plan.svg"
    text = f".plan written\n.cap 50\n{(GUIDE / 'costly.lrq').read_text()}.cells\n.cells {picture}\n"
    out, status = shell(GUIDE, text, "db=line.lrp")
    lines = out.splitlines()
    # The query itself is refused, and its steps are told nevertheless.
    assert status == 5 and lines[-2:] == ["(measured as far as the time or the cap allowed)", f"drawn: {picture}"]
    ((step, count),) = cells_of(lines, "more than ").items()
    assert count == 50 and passes(step, 50, "written")
    # Nothing is told of what comes after it.
    assert all(each < step for each in [*cells_of(lines, ""), *cells_of(lines, "at most ")])
    assert "more than 50 cells</text>" in picture.read_text()


def test_a_plan_is_drawn_with_its_cells() -> None:
    words = [f"db={GUIDE / 'line.lrp'}", f"query={GUIDE / 'costly.lrq'}", "tree=yes", "cells=yes"]
    svg = tool("draw", *words, "format=svg").stdout
    (count,) = re.findall(r"period 1440, reach 3360, (\d+) cells, after \d+ ms</text>", svg)
    assert passes(3, int(count) - 1, "guarded") and not passes(3, int(count), "guarded")
    assert re.search(r"8 steps, the last one first; the whole query took \d+ ms\.", svg)
    assert "more than 2 cells" in tool("draw", *words, "cap=2", "format=svg").stdout
    done = tool("draw", *words[:2], "from=0", "to=9", "cells=yes")
    assert done.returncode == 2 and "there is no key 'cells' here" in done.stderr


def test_a_query_that_cannot_be_run_has_no_cells(tmp_path: Path) -> None:
    rows = "relation a(t: time) { (0+4611686018427387903n); } relation b(t: time) { (0+4611686018427387901n); }"
    (tmp_path / "far.lrp").write_text(rows)
    (tmp_path / "far.lrq").write_text("{ t: time | (a(t) and b(t)) }")
    done = tool("draw", "db=far.lrp", "query=far.lrq", "tree=yes", "cells=yes", folder=tmp_path)
    assert done.returncode == 5 and done.stderr.startswith("refused: period above") and done.stdout == ""


@needs_browser
def test_a_plan_as_an_image(tmp_path: Path) -> None:
    words = [f"db={GUIDE / 'line.lrp'}", f"query={GUIDE / 'costly.lrq'}", "tree=yes", f"out={tmp_path / 'plan.png'}"]
    assert tool("draw", *words).returncode == 0
    assert (tmp_path / "plan.png").read_bytes().startswith(b"\x89PNG")
