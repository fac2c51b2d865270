"""Warnings in the shell, of pictures and tables, and of databases that are imported."""

import subprocess
from pathlib import Path

import pytest
from tools import RUN, TIME, environment

LINE = """relation trip(dep: time, arr: time) {
  (5+60n, 30+60n) where arr = dep + 35;
}
relation shift(t: time, who: driver) { (0+60n, "Cleo"); }
"""
ALL = "{ t: time | exists a: time trip(t, a) }\n"
MISSPELT = '{ t: time | shift(t, "Cloe") }\n'


@pytest.fixture
def folder(tmp_path: Path) -> Path:
    (tmp_path / "line.lrp").write_text(LINE)
    (tmp_path / "all.lrq").write_text(ALL)
    (tmp_path / "misspelt.lrq").write_text(MISSPELT)
    (tmp_path / "table.csv").write_text(
        "dep: time,arr: time,where\n5+60n,30+60n,arr = dep + 25\n5+60n,31+60n,arr = dep + 25\n"
    )
    return tmp_path


def tool(folder: Path, *words: str, text: str = "", warn: str = "always") -> subprocess.CompletedProcess[str]:
    env = environment(FIZHEDUL_WARN=warn)
    return subprocess.run(
        [str(RUN), *words], input=text, capture_output=True, text=True, cwd=folder, env=env, timeout=TIME
    )


def places(told: str) -> list[str]:
    """The places of the warnings."""
    front = "fizhedul: warning: "
    return [line.removeprefix(front) for line in told.splitlines() if line.startswith(front)]


def test_the_shell_warns_of_each_finding_once(folder: Path) -> None:
    text = f"{ALL}{MISSPELT}{ALL}{MISSPELT}.next\n.civil on\n.open line.lrp\n"
    done = tool(folder, "shell", "db=line.lrp", text=text)
    assert places(done.stderr) == ["line.lrp:2:3", "query:1:22"]
    assert 'Did you mean "Cleo"?' in done.stderr
    quiet = tool(folder, "shell", "db=line.lrp", text=text, warn="never")
    assert (quiet.stdout, quiet.stderr) == (done.stdout, "")
    assert tool(folder, "shell", "db=line.lrp", text=text, warn="").stderr == ""


def test_another_database_is_warned_of_anew(folder: Path) -> None:
    (folder / "other.lrp").write_text(LINE)
    done = tool(folder, "shell", "db=line.lrp", text=f"{MISSPELT}.open other.lrp\n{MISSPELT}")
    assert places(done.stderr) == ["line.lrp:2:3", "query:1:22", "other.lrp:2:3"]


def test_the_shell_writes_what_is_found(folder: Path) -> None:
    done = tool(folder, "shell", "db=line.lrp", text=f".lint\n{MISSPELT}.lint\n", warn="never")
    assert done.stdout.startswith("database EmptyRow trip 1\nend\n")
    assert done.stdout.endswith("database EmptyRow trip 1\nquery UnknownText at 1:22\nend\n")


def test_a_query_with_operators_is_looked_through(folder: Path) -> None:
    text = '.tense on\n{ t: time | once t (-5, 0) shift(t, "Cloe") }\n'
    assert places(tool(folder, "shell", "db=line.lrp", text=text).stderr) == ["line.lrp:2:3", "query:1:37"]


def test_a_refusal_has_no_warning_beside_it(folder: Path) -> None:
    done = tool(folder, "shell", "db=line.lrp", text="{ t: time | tram(t) }\n")
    assert places(done.stderr) == ["line.lrp:2:3"] and "refused: query UnknownRelation" in done.stdout
    (folder / "line.lrp").write_text("relation trip(")
    done = tool(folder, "shell", "db=line.lrp", text="")
    assert done.stderr == "" and "refused: database Syntax" in done.stdout


def test_a_window_that_ends_before_it_begins(folder: Path) -> None:
    done = tool(folder, "shell", "db=line.lrp", text=".window 9 0\n.window 0 9\n")
    assert places(done.stderr)[1:] == ["no answer lies in this window, since from=9 is after to=0"]


def test_pictures_and_tables_warn(folder: Path) -> None:
    words = ["db=line.lrp", "query=misspelt.lrq", "from=0", "to=100"]
    for command in (["draw", "format=svg"], ["export", "csv"]):
        done = tool(folder, *command, *words)
        assert places(done.stderr) == ["line.lrp:2:3", "misspelt.lrq:1:22"], done.stderr
        assert done.returncode == 0 and done.stdout == tool(folder, *command, *words, warn="never").stdout
        refused = tool(folder, *command, *words[:1], "query=line.lrp", *words[2:])
        assert refused.returncode == 4 and places(refused.stderr) == []


def test_an_import_warns_of_what_it_writes(folder: Path) -> None:
    done = tool(folder, "import", "csv", "table.csv", "out=table.lrp")
    assert places(done.stderr) == ["table.lrp:3:3"] and "did you mean 'arr = dep + 26'?" in done.stderr
    printed = tool(folder, "import", "csv", "table.csv")
    assert places(printed.stderr) == ["db:3:3"] and printed.stdout == (folder / "table.lrp").read_text()
    assert places(tool(folder, "import", "csv", "table.csv", warn="never").stderr) == []
