"""The folder of a spread question, and what runs a part of it."""

import hashlib
import io
import json
from pathlib import Path
from typing import Any

import pytest
from fizhedul_workbench.spread.run_part import report_line, run_part
from fizhedul_workbench.spread.store import Cause, Done, Failed, Folder, Task, whole_file
from fizhedul_workbench.words import Refused

# It writes two pages; with 'refuse' or 'starve' it refuses instead.
PAGES = """#!/bin/sh
case "$*" in
    *refuse*) echo 'refused: more than 7 cells at step 1'; exit 5 ;;
    *starve*) echo 'refused: memory'; exit 8 ;;
    *fall*) kill -9 $$ ;;
    *after=T1/5/) echo 65; echo end ;;
    *) echo 5; echo 'more T1/5/' ;;
esac
"""
# It answers a query by what stands in its file.
ANSWERS = """#!/bin/sh
case "$(cat "${3#query=}")" in
    fine) echo Nonempty; echo 5 ;;
    wrong) echo 'refused: query Syntax at 1:1'; exit 4 ;;
    *) echo 'refused: memory'; exit 8 ;;
esac
"""


@pytest.fixture
def folder(tmp_path: Path) -> Folder:
    return Folder(tmp_path / "out.parts")


def part(folder: Folder, *words: str, program: str = PAGES) -> str:
    """The key of a part of a program that is a script."""
    files = {"db": folder.keep(b"relation bus(t: time) { (5+60n); }"), "query": folder.keep(b"{ t: time | bus(t) }")}
    return folder.add(Task(folder.keep(program.encode(), 0o755), files, ["list", *words]))


def run(folder: Folder, key: str) -> dict[str, Any]:
    """Runs a part as an engine does, and gives its report."""
    with open(folder.output(key), "wb") as sink:
        report = run_part(str(folder.files), key, sink)
    folder.errors(key).write_text("other words\n" + report_line(report))
    return report


def test_pages_are_gone_on_with_until_the_end(folder: Folder) -> None:
    key = part(folder)
    assert folder.outcome(key) is None
    report = run(folder, key)
    assert folder.output(key).read_text() == "5\n65\nend\n"
    assert report["runs"] == 2 and report["length"] == 9
    assert report["output"] == hashlib.sha256(b"5\n65\nend\n").hexdigest()
    assert isinstance(folder.outcome(key), Done)


def test_a_part_of_several_questions_has_their_names(folder: Folder) -> None:
    program = folder.keep(ANSWERS.encode(), 0o755)
    database = folder.keep(b"relation bus(t: time) { (5+60n); }")
    queries = {name: folder.keep(name.encode()) for name in ("fine", "wrong", "starving")}
    names = [("a.lrq", queries["fine"]), ("b.lrq", queries["wrong"]), ("c.lrq", queries["fine"])]
    report = run(folder, key := folder.add(Task(program, {"db": database}, ["decide"], names)))
    wanted = "a.lrq\tNonempty\na.lrq\t5\nb.lrq\trefused: query Syntax at 1:1\nc.lrq\tNonempty\nc.lrq\t5\n"
    assert folder.output(key).read_text() == wanted
    assert (report["status"], report["runs"], report["refused"]) == (0, 3, {"b.lrq": 4})
    names.insert(1, ("s.lrq", queries["starving"]))
    run(folder, key := folder.add(Task(program, {"db": database}, ["decide"], names)))
    assert folder.outcome(key) == Failed("s.lrq: refused: memory", 8)


def test_a_part_is_named_by_what_makes_it(folder: Folder) -> None:
    keys = [part(folder), part(folder, "from=0"), part(folder, program=PAGES + "\n")]
    assert len(set(keys)) == 3 and part(folder) == keys[0]
    told = json.loads((folder.files / keys[1]).read_bytes())
    assert told["words"] == ["list", "from=0"] and sorted(told["files"]) == ["db", "query"]
    for path in folder.files.iterdir():
        assert path.name == hashlib.sha256(path.read_bytes()).hexdigest()


def test_a_cause_of_the_program_is_told_from_a_failure(folder: Folder) -> None:
    key = part(folder, "refuse")
    run(folder, key)
    found = folder.outcome(key)
    assert isinstance(found, Cause) and (found.line, found.status) == ("more than 7 cells at step 1", 5)
    for word, wanted in (("starve", Failed("memory", 8)), ("fall", Failed("the program was ended by signal 9"))):
        key = part(folder, word)
        run(folder, key)
        assert folder.outcome(key) == wanted


def test_an_output_counts_only_as_it_was_made(folder: Folder) -> None:
    key = part(folder)
    run(folder, key)
    folder.output(key).write_text("5\n")
    assert folder.outcome(key) == Failed("its output did not arrive whole", 7)
    run(folder, key)
    folder.is_whole = lambda output: False
    assert folder.outcome(key) == Failed("its last line is missing", 7)
    other = part(folder, "from=0")
    folder.output(key).rename(folder.output(other))
    folder.errors(key).rename(folder.errors(other))
    assert folder.outcome(other) is None and folder.outcome(key) is None


def test_a_file_that_is_not_what_it_was_runs_nothing(folder: Folder) -> None:
    key = part(folder)
    database = json.loads((folder.files / key).read_bytes())["files"]["db"]
    (folder.files / database).write_text("relation bus(t: time) { }")
    assert run(folder, key)["status"] == 6
    assert folder.outcome(key) == Failed(f"file {database[:12]} is not what it was", 6)
    (folder.files / database).unlink()
    assert run(folder, key)["why"] == f"file {database[:12]}: No such file or directory"
    # What is kept anew is what it has to be.
    part(folder)
    assert run(folder, key)["status"] == 0


def test_an_output_that_cannot_be_written_is_told(folder: Folder) -> None:
    class Full(io.BytesIO):
        def flush(self) -> None:
            raise OSError(28, "No space left on device")

    report = run_part(str(folder.files), part(folder), Full())
    assert (report["status"], report["why"]) == (7, "its output: No space left on device")


def test_one_call_at_a_time_uses_a_folder(folder: Folder) -> None:
    with pytest.raises(Refused, match="another call is at work there"):
        Folder(folder.path)
    run(folder, part(folder))
    folder.close()
    again = Folder(folder.path)
    assert isinstance(again.outcome(part(again)), Done)
    again.remove()
    again.close()
    assert not folder.path.exists()


def test_a_folder_in_which_nothing_ran_goes(folder: Folder) -> None:
    part(folder)
    folder.close()
    assert not folder.path.exists()


def test_a_file_takes_its_name_when_it_is_whole(tmp_path: Path) -> None:
    out = tmp_path / "out"
    out.write_text("before")
    with pytest.raises(RuntimeError), whole_file(out) as file:
        file.write(b"half")
        raise RuntimeError
    assert out.read_text() == "before" and list(tmp_path.iterdir()) == [out]
    with pytest.raises(Refused, match="No such file or directory"), whole_file(tmp_path / "none" / "out"):
        pass
    with whole_file(out) as file:
        file.write(b"whole")
    assert out.read_text() == "whole"
