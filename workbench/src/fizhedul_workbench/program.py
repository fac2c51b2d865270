"""The proved program: what it is asked, and what it wrote."""

import atexit
import json
import os
import re
import sys
from collections.abc import Iterator, Sequence
from dataclasses import dataclass, replace
from functools import cache

from .civil import minute_of, window_end
from .engine.asked import WordsEngine
from .engine.chosen import built_program, library_path, program_path
from .engine.programs import ProgramByWords
from .words import Refused

WIDTH = 100
# The commands that make a plan of a query, by either way.
PLANNED = ("ask", "decide", "list", "count", "ranges", "explain", "watch")
LAST_STEP = re.compile(r"\[period (\d+), reach \d+\]\s*\Z")

# The times of an answer are numbers, or with civil times dates.
Answer = list[int | str]


@dataclass(frozen=True)
class Output:
    """What the program wrote for some words, and its status."""

    status: int
    text: str
    words: tuple[str, ...] = ()

    @property
    def refusal(self) -> str | None:
        """The refusal's line, or None where the output was written whole."""
        return self.text.strip() if self.status else None


@dataclass(frozen=True)
class Page:
    """Some answers in order, and the token by which the next page begins, or None at the end."""

    answers: list[Answer]
    more: str | None


@dataclass(frozen=True)
class Ranges:
    """Some ranges of answers in order, each by its first and its last time, and whether more are left."""

    ranges: list[Answer]
    is_cut: bool

    def after(self) -> int:
        """The time after the last one of all, from which on more are left."""
        time = self.ranges[-1][1]
        minute = minute_of(time) if isinstance(time, str) else time
        assert minute is not None
        return minute + 1


@dataclass(frozen=True)
class Question:
    """A query over a database, by their files, in a window of time; with or without civil times, which have dates,
    temporal operators, and whole answers in their one form; planned under guards, or as it is written; and whether it
    is in the wide language."""

    database: str
    query: str
    first: int
    last: int
    cap: int | None = None
    is_civil: bool = False
    is_tense: bool = False
    is_canon: bool = False
    is_guarded: bool = True
    is_wide: bool = False

    def words(self, command: str) -> list[str]:
        """The words of a command without a window."""
        cap = [f"cap={self.cap}"] if self.cap and command != "explain" else []
        canon = ["canon=yes"] if self.is_canon and command == "ask" else []
        plan = ["plan=guarded"] if self.is_guarded and command in PLANNED else []
        dates = ["show=dates"] if self.is_civil and command == "decide" else []
        wide = ["wide=yes"] if self.is_wide and command != "watch" else []
        keys = plan + ["tense=yes"] * self.is_tense + wide + canon + ["civil=yes"] * self.is_civil + dates
        return [command, f"db={self.database}", f"query={self.query}", *cap, *keys]

    def windowed(self, command: str) -> list[str]:
        """The words of a command on the window."""
        first, last = (window_end(end) if self.is_civil else str(end) for end in (self.first, self.last))
        return [*self.words(command), f"from={first}", f"to={last}"]

    def listing(self, limit: int, after: str | None) -> list[str]:
        """The words that list a page of the window, in JSON form."""
        words = [*self.windowed("list"), f"limit={limit}", "form=json"]
        return words if after is None else [*words, f"after={after}"]

    def ranging(self, limit: int) -> list[str]:
        """The words that write the first ranges of the window, in JSON form."""
        return [*self.windowed("ranges"), f"limit={limit}", "form=json"]


@cache
def engine() -> WordsEngine:
    """What answers the tools: the library where it is there, else the program."""
    library = library_path()
    if library is None:
        return ProgramByWords()
    from .engine.libraries import LibraryByWords

    found = LibraryByWords(library)
    atexit.register(found.close)
    return found


def run_program(words: Sequence[str]) -> Output:
    """What the engine writes for the words of the program; an interrupt ends its work too, and is passed on."""
    status, text = engine().run(words)
    return Output(status, text.decode(), tuple(words))


def is_watched() -> bool:
    """Whether refusals are to be explained: to a terminal, or as the variable FIZHEDUL_EXPLAIN says."""
    return {"always": True, "never": False}.get(os.environ.get("FIZHEDUL_EXPLAIN", ""), sys.stderr.isatty())


def explaining_program() -> str:
    """The program that an explanation asks for a plan; where the library answers, nothing is built for that."""
    return built_program() if engine().name == "library" else program_path()


def explanation_of(output: Output, line: str) -> str:
    """What the launcher says of a refusal's line; nothing where nobody watches."""
    if not is_watched():
        return ""
    from explain import explain, given_files

    return explain(explaining_program(), list(output.words), line, WIDTH, given_files())


def answered(words: Sequence[str]) -> str:
    """The program's output, where it was written whole; its refusal is passed on with its status."""
    output = run_program(words)
    if output.status:
        raise refused_by(output)
    return output.text


def refused_by(output: Output) -> Refused:
    """The refusal that the program wrote, to be passed on."""
    line = output.text.strip() or f"the program ended with status {output.status}"
    return Refused(line.removeprefix("refused: "), abs(output.status), explanation_of(output, line))


def page_of(text: str) -> Page:
    """The page that lines in JSON form hold."""
    lines = text.splitlines()
    answers: list[Answer] = [json.loads(line) for line in lines[:-1]]
    more: str | None = json.loads(lines[-1])["more"]
    return Page(answers, more)


def page(question: Question, limit: int, after: str | None = None) -> Page:
    """One page of the answers in the window."""
    return page_of(answered(question.listing(limit, after)))


def pages(question: Question, limit: int) -> Iterator[Page]:
    """All pages of the window, one after another."""
    after: str | None = None
    while True:
        found = page(question, limit, after)
        yield found
        after = found.more
        if after is None:
            return


def ranges_of(text: str) -> Ranges:
    """The ranges that lines in JSON form hold."""
    lines = text.splitlines()
    found: list[Answer] = [json.loads(line) for line in lines[:-1]]
    return Ranges(found, bool(json.loads(lines[-1])["more"]))


def all_ranges(question: Question, limit: int) -> Iterator[Ranges]:
    """All ranges of the window, some at a time."""
    while True:
        found = ranges_of(answered(question.ranging(limit)))
        yield found
        if not found.is_cut:
            return
        question = replace(question, first=found.after())


def period(question: Question) -> int:
    """The query's period, as the last line of its plan has it."""
    plan = answered(question.words("explain"))
    found = LAST_STEP.search(plan)
    if found is None:
        raise Refused("the program's plan ends without a period")
    return int(found.group(1))
