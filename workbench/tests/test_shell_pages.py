"""Pages of answers in the shell, which are read ahead."""

import re
from pathlib import Path

import pytest
from tools import program, shell


@pytest.fixture
def bus(tmp_path: Path) -> Path:
    (tmp_path / "bus.lrp").write_text('relation bus(t: time, line: line) { (5+60n, "7"); (20+30n, "8"); }')
    return tmp_path


def test_pages_are_those_of_the_program_whatever_was_read_ahead(bus: Path) -> None:
    (bus / "query.lrq").write_text("{ t: time, l: line | bus(t, l) }")
    words = [f"db={bus / 'bus.lrp'}", f"query={bus / 'query.lrq'}", "from=0", "to=50000", "limit=9999"]
    wanted = program("list", *words)
    for limit in (1, 333, 700):
        pages = min(2501 // limit + 1, 40)
        text = "{ t: time, l: line | bus(t, l) }\n" + ".next\n" * pages
        out, _ = shell(bus, text, "db=bus.lrp", "to=50000", f"limit={limit}")
        found = re.findall(r"(?m)^ *(\d+)  ([78])$", out)
        assert [f'{time}, "{line}"' for time, line in found] == wanted.splitlines()[:-1][: limit * (pages + 1)]
        ends = [line for line in out.splitlines() if line.startswith("(")]
        assert ends[0] == f"({limit} answer{'s' if limit > 1 else ''}; more with .next)"
        if limit > 1:
            assert (
                ends[-1] == f"({2501 % limit} answers; the last from 0 to 50000)" and len(wanted.splitlines()) == 2502
            )
            assert out.endswith("there is no next page\n") == (pages * limit > 2501)


def test_a_page_of_another_database_is_no_next_page(bus: Path) -> None:
    out, _ = shell(bus, "{ t: time, l: line | bus(t, l) }\n.save bus.lrp\n.next\n.next\n", "db=bus.lrp", "limit=2")
    assert out.splitlines()[-2:] == [
        "the database has changed since these answers were read; the query asks it anew where it is given again",
        "there is no next page",
    ]
