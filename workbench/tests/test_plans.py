"""The plan of the shell's queries: under guards where nothing else is said."""

from pathlib import Path

from tools import shell


def test_queries_are_planned_under_guards_or_as_they_are_written() -> None:
    guide = Path(__file__).parents[2] / "examples/guide"
    costly = (guide / "costly.lrq").read_text()
    text = f"{costly}.cap 10000\n.plan written\n.decide\n.plan\n.plan guarded\n.decide\n"
    out, status = shell(guide, text, "db=line.lrp", "from=0", "to=1439")
    page, refused, rest = out.partition("refused: more than 10000 cells at step 8\n")
    assert page == "   d     a\n----  ----\n1205  1230\n(1 answer; the last from 0 to 1439)\n"
    assert status == 5 and refused and "\nSay '.plan guarded'; see the steps by '.explain'; " in rest
    end = "queries are planned as they are written; .plan guarded and .plan written change that\nNonempty\n-235, -210\n"
    assert rest.endswith(end)
