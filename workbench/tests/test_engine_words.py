"""The library asked by the words of the program, whose files are files."""

import os
import signal
import subprocess
import time
from collections.abc import Iterator
from pathlib import Path

import pytest
from fizhedul_workbench.engine.libraries import LibraryByWords
from fizhedul_workbench.engine.programs import ProgramByWords
from pages import SECONDS, is_running
from standin import standin, told
from tools import TOP, environment

BUS = b"relation bus(t: time) { (5+60n); }"
ALL = b"{ t: time | bus(t) }"


@pytest.fixture
def library(tmp_path: Path, monkeypatch: pytest.MonkeyPatch) -> str:
    """The folder of the package in the library's place."""
    return standin(tmp_path, monkeypatch)


@pytest.fixture
def words_engine(library: str, monkeypatch: pytest.MonkeyPatch) -> Iterator[LibraryByWords]:
    monkeypatch.setenv("PYTHONPATH", library)
    engine = LibraryByWords()
    yield engine
    engine.close()


def test_a_file_that_was_changed_is_read_anew(words_engine: LibraryByWords, library: str, tmp_path: Path) -> None:
    db, query = tmp_path / "bus.lrp", tmp_path / "all.lrq"
    db.write_bytes(BUS)
    query.write_bytes(ALL)
    words = ["decide", f"db={db}", f"query={query}"]
    assert words_engine.run(words) == words_engine.run(words) == (0, b"Nonempty\n5\n")
    assert len(told(library, "open")) == 1
    # Of the same length, in the same moment.
    db.write_bytes(BUS.replace(b"5", b"7"))
    assert words_engine.run(words) == (0, b"Nonempty\n7\n")
    query.write_bytes(b"{ t: time | (bus(t) and t > 7) }")
    assert words_engine.run(words) == (0, b"Nonempty\n67\n")
    assert len(told(library, "open")) == 2


def test_what_is_no_file_is_refused_as_the_program_does(words_engine: LibraryByWords, tmp_path: Path) -> None:
    (tmp_path / "all.lrq").write_bytes(ALL)
    (tmp_path / "long.lrp").write_bytes(b" " * 16_777_217)
    for db in ("none.lrp", ".", "long.lrp", "", "all.lrq"):
        for command in (["check"], ["decide", f"query={tmp_path / 'all.lrq'}"], ["ask"], ["nothing"], []):
            words = [*command, f"db={tmp_path / db if db else ''}"] if command else []
            assert words_engine.run(words) == ProgramByWords().run(words), words


def test_a_process_that_ended_is_told_by_its_status(words_engine: LibraryByWords, tmp_path: Path) -> None:
    (tmp_path / "bus.lrp").write_bytes(BUS)
    (tmp_path / "all.lrq").write_bytes(ALL)
    words = ["decide", f"db={tmp_path / 'bus.lrp'}", f"query={tmp_path / 'all.lrq'}"]
    assert words_engine.run([*words, "cap=13"]) == (-signal.SIGKILL, b"")
    assert words_engine.run(words) == (0, b"Nonempty\n5\n")


def test_an_interrupt_ends_a_question_and_its_process(library: str, tmp_path: Path) -> None:
    (tmp_path / "bus.lrp").write_bytes(BUS)
    (tmp_path / "all.lrq").write_bytes(ALL)
    words = ["decide", f"db={tmp_path / 'bus.lrp'}", f"query={tmp_path / 'all.lrq'}"]
    program = f"""
import sys
from fizhedul_workbench.engine.libraries import LibraryByWords
engine = LibraryByWords()
try:
    engine.run({[*words, "cap=14"]!r})
except KeyboardInterrupt:
    print(engine.run({words!r}))
engine.close()
"""
    path = os.pathsep.join([library, str(TOP / "workbench/src")])
    process = subprocess.Popen(
        ["/usr/bin/python3", "-c", program], env=environment(PYTHONPATH=path), stdout=subprocess.PIPE, text=True
    )
    begun = time.monotonic()
    while not os.path.exists(os.environ["TOLD"]) or not told(library, "run"):
        assert time.monotonic() - begun < SECONDS
        time.sleep(0.02)
    process.send_signal(signal.SIGINT)
    written, _ = process.communicate(timeout=SECONDS)
    assert written == "(0, b'Nonempty\\n5\\n')\n"
    first, *_ = told(library, "run")
    assert not is_running(first[0])
