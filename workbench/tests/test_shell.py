"""The shell, piped and on a terminal."""

import fcntl
import os
import pty
import re
import select
import subprocess
import termios
import time
from collections.abc import Iterator
from contextlib import contextmanager
from pathlib import Path

import pytest
from fizhedul_workbench.queries import head_of, open_brackets, variables
from fizhedul_workbench.shell.prompt import Words
from fizhedul_workbench.shell.refusals import IN_THE_SHELL
from fizhedul_workbench.shell.session import Session
from fizhedul_workbench.shell.table import table
from prompt_toolkit.completion import CompleteEvent
from prompt_toolkit.document import Document
from tools import RUN, TIME, TOP, environment, program, shell

BUS = 'relation bus(dep: time, line: line) {\n  (5+60n, "7");\n  (20+30n, "Ä");\n}\n'


@pytest.fixture
def bus(tmp_path: Path) -> Path:
    (tmp_path / "bus.lrp").write_text(BUS, encoding="utf-8")
    return tmp_path


def piped(folder: Path, text: str, *words: str) -> tuple[str, int]:
    return shell(folder, text, "db=bus.lrp", *words)


def test_a_query_is_a_table_page_by_page(bus: Path) -> None:
    out, status = piped(bus, "{ t: time, l: line |\n bus(t, l) }\n.next\n.next\n", "to=60", "limit=2")
    assert status == 0 and out == (
        " t  l\n--  -\n 5  7\n20  Ä\n(2 answers; more with .next)\n"
        " t  l\n--  -\n50  Ä\n(1 answer; the last from 0 to 60)\n"
        "there is no next page\n"
    )


def test_commands_write_what_the_program_writes(bus: Path) -> None:
    query = '{ t: time | bus(t, "7") }'
    (bus / "query.lrq").write_text(query)
    out, status = piped(bus, f"{query}\n.decide\n.ask\n.explain\n")
    words = [f"db={bus / 'bus.lrp'}", f"query={bus / 'query.lrq'}"]
    whole = "".join(program(command, *words) for command in ("decide", "ask", "explain"))
    assert status == 0 and out.endswith(whole)


def test_windows_tables_and_files(bus: Path) -> None:
    (bus / "other.lrp").write_text("relation r(t: time) { (3); }\nrelation none() { }")
    query = "{ t: time, l: line | bus(t, l) }\n"
    text = query + ".window 1 4\n.save q.lrq\n.save whole.lrp\n.tables\n.open other.lrp\n.tables\n"
    out, status = piped(bus, text)
    assert status == 0
    assert '(no answer from 1 to 4; the least answer of all is 5, "7")' in out
    assert "bus       dep: time, line: line     2  30, 60" in out
    assert "other.lrp: r, none" in out and "r         t: time     1  1" in out and "none                  0" in out
    assert (bus / "q.lrq").read_text() == query
    whole = (bus / "whole.lrp").read_text()
    assert whole.startswith("relation answer(t: time, l: line) {\n") and program("check", f"db={bus / 'whole.lrp'}")


def test_a_drawing_is_written(bus: Path) -> None:
    out, _ = piped(bus, "{ t: time, l: line | bus(t, l) }\n.draw\n.draw picture.svg\n", "to=60")
    assert "drawn: drawing.html\ndrawn: picture.svg\n" in out
    assert (bus / "picture.svg").read_text().count('class="mark"') == 3
    assert "<!DOCTYPE html>" in (bus / "drawing.html").read_text()


def test_refusals_are_shown_in_place(bus: Path) -> None:
    out, status = piped(bus, "{ t: time |\n  tram(t) }\n.cap 1\n{ t: time, l: line | bus(t, l) }\n")
    assert status == 5 and out == (
        "refused: query UnknownRelation at 2:3\nquery:2:3\n    tram(t) }\n    ^~~~\n"
        "The database has no relation of this name.\n"
        "Its relations are bus(dep: time, line: line).\n"
        "refused: more than 1 cells at step 1\n"
        "This step of the plan has tuples in more cells than 'cap' allows: a cell is a remainder of each\n"
        "time by the step's period, and a text for each other variable.\n"
        "The step is '1 scan bus(t, l) [period 60, reach 60]'.\n"
        "See the steps by '.explain'; tie the variables together by a relation or use shorter periods; or\n"
        "give a higher cap by '.cap N'; a cell may take 750 bytes and 10 microseconds.\n"
    )


def test_what_the_launcher_says_of_keys_is_said_of_commands(bus: Path) -> None:
    out, _ = piped(bus, "{ t: time | once t (0, 5) bus(t) }\n")
    assert "Temporal operators, as 'once t (-10, 0) ..', are read after '.tense on'." in " ".join(out.split())
    said = (TOP / "share/help/refusals.txt").read_text() + "".join(
        file.read_text() for file in (TOP / "share/launcher").glob("*.py")
    )
    assert all(key in " ".join(said.split()) for key in IN_THE_SHELL)


def test_a_query_that_is_refused_leaves_the_one_before_it(bus: Path) -> None:
    out, status = piped(bus, '{ t: time | bus(t, "7") }\n{ t: time | buss(t) }\n.decide\n')
    assert status == 4 and out.endswith("Nonempty\n5\n")


def test_comments_and_blank_lines_stand_between_entries(bus: Path) -> None:
    text = '# All of line 7.\n\n   # Really.\n{ t: time | # a bracket: (\n  bus(t, "7") }\n\n# The least.\n.decide\n#'
    out, status = piped(bus, text, "to=10")
    assert status == 0 and out == "t\n-\n5\n(1 answer; the last from 0 to 10)\nNonempty\n5\n"


def test_files_are_read_as_if_typed(bus: Path) -> None:
    (bus / "more.lrq").write_text("# One page.\n{ t: time, l: line |\n  bus(t, l) }\n.decide\n.read more.lrq\n.quit\n")
    out, status = piped(bus, ".limit 1\n.read more.lrq\n.ask\n")
    assert status == 0 and out == (
        't  l\n-  -\n5  7\n(1 answer; more with .next)\nNonempty\n5, "7"\n'
        "a file that is read can't read another one\n"
    )
    out, status = piped(bus, ".read none.lrq\n.read\n.limit 0\n.schema\n")
    assert status == 6 and out == (
        "refused: none.lrq: No such file or directory\nwhich file? as in .read queries.lrq\n"
        "a limit is a number from 1 to 1000000\nbus(dep: time, line: line)\n"
    )


def test_words_of_other_shells_point_to_commands(bus: Path) -> None:
    for word, wanted in (
        ("quit", ".quit"),
        ("exit", ".quit"),
        ("help", ".help"),
        ("?", ".help"),
        (".tabels", ".tables"),
    ):
        assert piped(bus, word + "\n") == (
            f"'{word}' is no command; '{wanted}' is. .help lists them, and a query begins with '{{'\n",
            0,
        )


def test_files_of_commands_are_completed(bus: Path, monkeypatch: pytest.MonkeyPatch) -> None:
    monkeypatch.chdir(bus)
    (bus / "some.lrq").touch()
    (bus / "folder").mkdir()
    session = Session("bus.lrp", bus)
    assert completed(session, ".open b") == ["us.lrp"] and completed(session, ".open s") == []
    assert completed(session, ".read ") == ["folder", "some.lrq"] and completed(session, ".save so") == ["me.lrq"]


def test_a_broken_database_is_shown_in_place(tmp_path: Path) -> None:
    (tmp_path / "bus.lrp").write_text('relation bus(t: time, l: line) {\n  (5, "Ä", 6);\n}')
    out, status = piped(tmp_path, ".tables\n")
    told = (
        'refused: database Arity at 2:3\nbus.lrp:2:3\n    (5, "Ä", 6);\n    ^\n'
        "The relation 'bus' has 2 columns, but the row has 3 values: bus(t: time, l: line).\n"
    )
    assert status == 3 and out == told * 2


def test_other_lines_are_told(bus: Path) -> None:
    out, status = piped(bus, ".next\n.ask\n.window 5\n.cap 0\n.save\n.open\n.zigzag\n\n.quit\n.help\n")
    assert status == 0 and out == (
        "there is no next page\nthere is no query yet\na window is two whole numbers, as in .window 0 1439\n"
        "a cap is a number from 1 to 1000000000\nto which file? as in .save query.lrq, or .save answer.lrp\n"
        "which file? as in .open bus.lrp\n'.zigzag' is no command. .help lists them, and a query begins with '{'\n"
    )
    assert all(name in piped(bus, ".help\n")[0] for name in (".next", ".window A B", ".draw FILE", ".quit"))


def test_carets_count_letters_and_not_bytes(bus: Path) -> None:
    out, _ = piped(bus, '{ | bus(5, "ÄÖ" }\n\n')
    assert '  { | bus(5, "ÄÖ" }\n                  ^\n' in out


def test_wide_letters_keep_their_columns() -> None:
    assert table(["l", "t"], [["東京", 5], ["x", 100]]) == ["l       t", "----  ---", "東京    5", "x     100"]


def test_heads_brackets_and_variables_are_read() -> None:
    query = '# { x\n{ t: time, l: line | exists u: time (bus(t, l) and l = "(|") }'
    assert head_of(query) == [("t", "time"), ("l", "line")] and head_of("{ | r() }") == []
    assert variables(query) == ["t", "l", "u"]
    assert open_brackets(query) == 0 and open_brackets("{ t: time | (") == 2 and open_brackets("}{") == -1


def completed(session: Session, text: str) -> list[str]:
    words = Words(session, [".next", ".ask", ".tables"])
    return [found.text for found in words.get_completions(Document(text), CompleteEvent())]


def test_relations_variables_sorts_and_keywords_are_completed(tmp_path: Path) -> None:
    session = Session("bus.lrp", tmp_path, names=["bus", "exit"], sorts=["line"])
    assert completed(session, ".") == [".next", ".ask", ".tables"] and completed(session, ".ta") == [".tables"]
    assert completed(session, ".save b") == []
    assert completed(session, "{ t: time | b") == ["bus"]
    assert completed(session, "{ leave: time | exists later: time bus(l") == ["leave", "later", "line"]
    assert completed(session, "{ t: ti") == ["time"] and completed(session, "{ t: da") == ["data"]
    assert completed(session, "{ | ex") == ["exit", "exists"] and completed(session, "{ | ") == []
    assert completed(session, "{ | sin") == []
    session.is_tense = True
    assert completed(session, "{ | sin") == ["since"]


class Terminal:
    """The other end of a terminal, and what it has shown that nobody has read yet."""

    def __init__(self, end: int) -> None:
        self.end = end
        self.shown = b""

    def type(self, keys: bytes) -> None:
        os.write(self.end, keys)

    def read_until(self, wanted: str, seconds: float = TIME) -> str:
        """What is shown up to a text; what comes after it is kept."""
        begin = time.monotonic()
        while wanted.encode() not in self.shown:
            left = begin + seconds - time.monotonic()
            assert left > 0 and select.select([self.end], [], [], left)[0], self.shown[-2000:]
            piece = os.read(self.end, 65_536)
            if b"\x1b[6n" in piece:
                self.type(b"\x1b[1;1R")
            self.shown += piece
        found, self.shown = self.shown.split(wanted.encode(), 1)
        return found.decode(errors="replace") + wanted


@contextmanager
def terminal(folder: Path, **more: str) -> Iterator[Terminal]:
    """A shell on a terminal."""
    here, there = pty.openpty()
    variables = environment(TERM="xterm-256color", XDG_STATE_HOME=str(folder / "state"), **more)
    process = subprocess.Popen(
        [str(RUN), "shell", "db=bus.lrp", "to=60"],
        stdin=there,
        stdout=there,
        stderr=there,
        cwd=folder,
        env=variables,
        start_new_session=True,
        preexec_fn=lambda: take_terminal(there),
    )
    os.close(there)
    try:
        yield Terminal(here)
    finally:
        process.kill()
        process.wait()
        os.close(here)


def take_terminal(end: int) -> None:
    """Makes a terminal the one from which interrupts come."""
    fcntl.ioctl(end, termios.TIOCSCTTY, 0)


def test_a_terminal_has_colours_several_lines_and_a_history(bus: Path) -> None:
    with terminal(bus) as end:
        end.read_until("fizhedul>")
        end.type(b"{ t: time, l: line |\r")
        end.read_until("...")
        end.type(b"bus(t, l) }\r")
        shown = end.read_until("the last from 0 to 60)")
        assert "\x1b[1m t  l\x1b[0m" in shown
        end.read_until("fizhedul>")
        end.type(b".explain\r")
        assert "scan" in end.read_until("head")
        end.read_until("fizhedul>")
        end.type(b"{ t: time | bus(t) }\r")
        assert "\x1b[31m" in end.read_until("has 2 columns, but 1 term is given")
        end.read_until("fizhedul>")
        # What Tab has written is run by the next Enter.
        end.type(b".he")
        end.read_until(".help")
        end.type(b"\t\r")
        end.read_until("from A to B")
        end.read_until("fizhedul>")
        end.type(b"{ t: time, l: li\t")
        end.read_until("line")
        end.type(b"\x03")
        end.read_until("fizhedul>")
        end.type(b"\x04")
    text = (bus / "state" / "fizhedul" / "history").read_text()
    assert "+{ t: time, l: line |\n+bus(t, l) }" in text and "+.explain" in text


def test_an_interrupt_ends_the_query_and_not_the_shell(bus: Path) -> None:
    slow = bus / "slow"
    slow.write_text('#!/bin/sh\n[ "$1" = list ] && { echo started >&2; sleep 3000; }\nexit 0\n')
    slow.chmod(0o755)
    with terminal(bus, FIZHEDUL_PROGRAM=str(slow)) as end:
        end.read_until("fizhedul>")
        end.type(b"{ t: time | bus(t) }\r")
        end.read_until("started")
        end.type(b"\x03")
        end.read_until("interrupted")
        end.read_until("fizhedul>")
        end.type(b".help\r")
        assert re.search(r"\.window A B", end.read_until(".quit"))
