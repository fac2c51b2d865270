"""Tables, in and out."""

from pathlib import Path

import pytest
from tools import listed, program, tool

TABLE = """dep: time,arr: time,line: line,where
5+60n,30+60n,7,arr = dep + 25
-3,12,"a ""b"" \\ c",
0+10n,0+1n,9,"dep >= 100, arr = 7"
"""


def test_a_table_is_a_relation(tmp_path: Path) -> None:
    (tmp_path / "bus.csv").write_text(TABLE)
    done = tool("import", "csv", str(tmp_path / "bus.csv"))
    assert done.returncode == 0 and done.stderr == "bus: 3 rows\n"
    assert done.stdout == (
        "relation bus(dep: time, arr: time, line: line) {\n"
        '  (5+60n, 30+60n, "7") where arr = dep + 25;\n'
        '  (-3, 12, "a \\"b\\" \\\\ c");\n'
        '  (0+10n, 0+1n, "9") where dep >= 100, arr = 7;\n'
        "}\n"
    )
    (tmp_path / "bus.lrp").write_text(done.stdout)
    query = "{ d: time, a: time, l: line | bus(d, a, l) }"
    lines = ['-55, -30, "7"', '-3, 12, "a \\"b\\" \\\\ c"', '5, 30, "7"', '65, 90, "7"', '100, 7, "9"']
    assert listed(tmp_path / "bus.lrp", query, -60, 100) == lines


def test_an_exported_window_is_a_table_that_is_imported_again(tmp_path: Path) -> None:
    (tmp_path / "bus.csv").write_text(TABLE)
    database, query = tmp_path / "bus.lrp", tmp_path / "all.lrq"
    tool("import", "csv", str(tmp_path / "bus.csv"), f"out={database}")
    query.write_text("# All rides.\n{ d: time, a: time, l: line | bus(d, a, l) }\n")
    words = [f"db={database}", f"query={query}", "from=-60", "to=100"]
    done = tool("export", "csv", *words)
    assert done.stdout == 'd: time,a: time,l: line\n-55,-30,7\n-3,12,"a ""b"" \\ c"\n5,30,7\n65,90,7\n100,7,9\n'
    assert tool("export", "csv", *words, f"out={tmp_path / 'again.csv'}").returncode == 0
    tool("import", "csv", str(tmp_path / "again.csv"), f"out={tmp_path / 'again.lrp'}")
    again = listed(tmp_path / "again.lrp", "{ d: time, a: time, l: line | again(d, a, l) }", -(10**6), 10**6)
    assert again == program("list", *words).splitlines()[:-1]


@pytest.mark.parametrize(
    "table, wanted",
    [
        ("t\n5\n", ":1: 't' is no column NAME: SORT, as 'dep: time'"),
        ("t: time,t: data\n", ":1: the column 't' stands twice"),
        ("not: time\n", ":1: 'not: time' is no column"),
        ("t: time\n5\nfive\n", ":3: the t 'five' is no number, no date and no point c+kn"),
        ("t: time\n5+0n\n", ":2: the t '5+0n' has the period 0"),
        ("t: time\n4611686018427387905\n", "is above 4611686018427387904"),
        ("t: time,l: line\n5\n", ":2: there are 1 fields, and 2 columns"),
        ("l: line\n" + "x" * 256 + "\n", "has 256 bytes, more than 255"),
        ("t: time,where\n5,t < 3\n", ":2: 't < 3' is no bound"),
        ("t: time,where\n5,u <= 3\n", ":2: there is no time column 'u'"),
        ('t: time\n"5\n', ":2: the fields cannot be told apart"),
        (",".join(f"t{number}: time" for number in range(9)) + "\n", ":1: there are more than 8 time columns"),
    ],
)
def test_a_broken_table_is_refused_with_its_line(tmp_path: Path, table: str, wanted: str) -> None:
    file, made = tmp_path / "table.csv", tmp_path / "table.lrp"
    file.write_text(table)
    done = tool("import", "csv", str(file), f"out={made}")
    assert done.returncode == 3 and wanted in done.stderr and not made.exists(), done.stderr


def test_the_program_refuses_for_itself(tmp_path: Path) -> None:
    (tmp_path / "a.lrp").write_text("relation a(t: time) { (0+2n); }")
    (tmp_path / "a.lrq").write_text("{ t: time | b(t) }")
    words = [f"db={tmp_path / 'a.lrp'}", f"query={tmp_path / 'a.lrq'}", "from=0", "to=9"]
    done = tool("export", "csv", *words)
    assert done.returncode == 4 and done.stderr == "refused: query UnknownRelation at 1:13\n" and done.stdout == ""


def test_words_are_checked() -> None:
    for words in (["import"], ["import", "xml", "a"], ["import", "csv", "a", "b"], ["export", "csv", "db=a"], ["sing"]):
        done = tool(*words)
        assert done.returncode == 2 and done.stderr.startswith("refused: usage: ")
    missing = tool("import", "csv", "/no/such.csv")
    assert missing.returncode == 6 and missing.stderr == "refused: /no/such.csv: No such file or directory\n"
