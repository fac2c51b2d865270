"""The tools over the shared library: what they write is, to the byte, what they write over the program."""

import os
import re
import shlex
import shutil
import signal
import subprocess
import time
from collections.abc import Iterator
from pathlib import Path

import pytest
from fizhedul_workbench.engine.libraries import LibraryByWords
from made_library import BINDINGS, shared_library
from tools import PROGRAM, RUN, TIME, TOP, environment

EXAMPLES = TOP / "examples"
# What an example may take, in seconds, where the machine has other work.
MOST = 300
SHELL = """{ d: time, a: time | exists b: time exists c: time exists h: data
  (trip(d, b, "Airport", h) and trip(c, a, h, "Zoo") and c >= b + 5 and c <= b + 30) }
.next
.window 1440 2879
.count
.decide
.ask
.explain
.tree
.cells
{ t: time | tram(t) }
{ d: time | exists a: time exists h: data trip(d, a, "Airport", h) }
.ranges
.next
.tense on
{ t: time | once [0, 30] exists a: time exists h: data trip(t, a, "Airport", h) }
.wide on
define early(t: time) as t <= 400;
{ d: time | (early(d) and trip(d, *, "Airport", *)) }
.lint
.tables
.schema
.canon on
.ask
.save saved.lrp
.open saved.lrp
.tables
.open none.lrp
{ d: time |
"""


@pytest.fixture(scope="module")
def library() -> Iterator[str]:
    """The library, whose package the processes that hold it find."""
    with pytest.MonkeyPatch.context() as patch:
        patch.setenv("PYTHONPATH", os.pathsep.join(filter(None, [str(BINDINGS), os.environ.get("PYTHONPATH")])))
        yield shared_library()


@pytest.fixture(scope="module")
def engine(library: str) -> Iterator[LibraryByWords]:
    found = LibraryByWords(library)
    yield found
    found.close()


@pytest.fixture(scope="module")
def folder(tmp_path_factory: pytest.TempPathFactory) -> Path:
    """The examples, with the files that they make."""
    made = tmp_path_factory.mktemp("examples") / "examples"
    shutil.copytree(EXAMPLES, made)
    for each in sorted(made.glob("*/make")):
        subprocess.run([str(each)], cwd=each.parent, check=True, timeout=TIME)
    return made


def cases(folder: Path) -> list[tuple[str, int, list[str]]]:
    """The runs of a folder of examples: the name of the output, the status, and the words."""
    lines = (folder / "cases").read_text(encoding="utf-8").splitlines()
    split = [shlex.split(line) for line in lines if line and not line.startswith("#")]
    return [(name, int(status), words) for name, status, *words in split]


@pytest.mark.parametrize("name", sorted(each.parent.name for each in EXAMPLES.glob("*/cases")))
def test_each_example_is_answered_as_the_program_does(
    engine: LibraryByWords, folder: Path, name: str, monkeypatch: pytest.MonkeyPatch
) -> None:
    monkeypatch.chdir(folder / name)
    found = cases(folder / name)
    assert found
    for output, status, words in found:
        begun = time.monotonic()
        told = engine.run(words)
        assert told == (status, (folder / name / "expected" / output).read_bytes()), words
        assert time.monotonic() - begun < MOST


def written(folder: Path, *words: str, text: str = "", **more: str) -> tuple[int, str, str]:
    """What a tool writes, and its status; the time that a plan took is left out."""
    env = environment(**more)
    done = subprocess.run(
        [str(RUN), *words], input=text, capture_output=True, text=True, cwd=folder, env=env, timeout=TIME
    )
    return done.returncode, re.sub(r"[\d.]+ (ms|s)\b", "TIME", done.stdout), done.stderr


def test_the_shell_writes_the_same(library: str, tmp_path: Path) -> None:
    shutil.copy(EXAMPLES / "week/week.lrp", tmp_path)
    words = ["shell", "db=week.lrp", "limit=3", "to=1439"]
    how = {"FIZHEDUL_EXPLAIN": "always", "FIZHEDUL_WARN": "always"}
    by_program = written(tmp_path, *words, text=SHELL, **how)
    assert by_program == written(tmp_path, *words, text=SHELL, **how, FIZHEDUL_LIBRARY=library)
    assert "more with .next" in by_program[1] and "refused: query UnknownRelation" in by_program[1]


@pytest.mark.parametrize(
    "words",
    [
        ["draw", "format=svg"],
        ["draw", "format=html", "civil=yes"],
        ["draw", "format=svg", "tree=yes"],
        ["export", "csv"],
        ["export", "tsv", "civil=yes"],
    ],
)
def test_pictures_and_exports_are_the_same(library: str, tmp_path: Path, words: list[str]) -> None:
    given = [f"db={EXAMPLES / 'guide/line.lrp'}", f"query={EXAMPLES / 'guide/trips.lrq'}"]
    if "tree=yes" not in words:
        given += ["from=1970-01-01T00:00", "to=1970-01-03T23:59"] if "civil=yes" in words else ["from=0", "to=4319"]
    found = written(tmp_path, *words, *given)
    assert found[0] == 0 and found == written(tmp_path, *words, *given, FIZHEDUL_LIBRARY=library)


def test_the_shell_goes_on_where_its_engine_is_killed(library: str, tmp_path: Path) -> None:
    (tmp_path / "bus.lrp").write_text("relation bus(t: time) { (5+60n); }\n")
    process = subprocess.Popen(
        [str(RUN), "shell", "db=bus.lrp", "to=60"],
        stdin=subprocess.PIPE,
        stdout=subprocess.PIPE,
        text=True,
        cwd=tmp_path,
        env=environment(FIZHEDUL_LIBRARY=library),
    )
    assert process.stdin is not None and process.stdout is not None
    process.stdin.write("{ t: time | bus(t) }\n")
    process.stdin.flush()
    assert [process.stdout.readline().strip() for _ in range(4)] == ["t", "-", "5", "(1 answer; the last from 0 to 60)"]
    (child,) = Path(f"/proc/{process.pid}/task/{process.pid}/children").read_text().split()
    os.kill(int(child), signal.SIGKILL)
    written, _ = process.communicate(".decide\n.decide\n", timeout=TIME)
    assert written == "the program ended with status -9\nNonempty\n5\n"


def test_a_database_of_12_megabytes_is_read_once(library: str, tmp_path: Path) -> None:
    """A page after the first one takes a small part of what that one takes, which reads the database."""
    lines = "".join(f'  ({number}+100080n, "Line {number % 90}") where t >= 0;\n' for number in range(280_000))
    (tmp_path / "city.lrp").write_text(f"relation bus(t: time, line: line) {{\n{lines}}}\n")
    (tmp_path / "some.lrq").write_text('{ t: time | (bus(t, "Line 5") or bus(t, "Line 6")) }\n')
    assert 11_500_000 < (tmp_path / "city.lrp").stat().st_size < 16_000_000
    words = ["list", f"db={tmp_path / 'city.lrp'}", f"query={tmp_path / 'some.lrq'}", "from=0", "to=10079", "limit=20"]
    engine, taken = LibraryByWords(library), []
    after: list[str] = []
    try:
        for number in range(6):
            begun = time.monotonic()
            status, text = engine.run([*words, *after])
            taken.append(time.monotonic() - begun)
            if number < 3:
                done = subprocess.run([PROGRAM, *words, *after], capture_output=True)
                assert (status, text) == (done.returncode, done.stdout)
            assert status == 0
            after = ["after=" + text.decode().splitlines()[-1].removeprefix("more ")]
            # What lies still is not read again.
            os.utime(tmp_path / "city.lrp", (1, 1))
    finally:
        engine.close()
    assert min(taken[1:]) < taken[0] / 5, taken
