"""Warnings of what `lint` finds in a database and in a query, on standard error, as the launcher has them."""

import os
import shutil
import sys
import tempfile
from pathlib import Path

from explain import given_files
from warn import MOST_BYTES, warnings

from .program import Question, run_program

WIDTH = 100


def is_warned() -> bool:
    """Whether somebody is warned: a terminal, or as the variable FIZHEDUL_WARN says."""
    return {"always": True, "never": False}.get(os.environ.get("FIZHEDUL_WARN", ""), sys.stderr.isatty())


def is_looked_through(file: str) -> bool:
    """Whether a file may be read twice, and is looked through; a long one only where all are asked for."""
    path = Path(file)
    try:
        return path.is_file() and (os.environ.get("FIZHEDUL_WARN") == "always" or path.stat().st_size <= MOST_BYTES)
    except OSError:
        return False


def words_of(question: Question, has_query: bool = True) -> list[str]:
    """The words that look through a question's files; of a query in the wide language nothing is looked for."""
    query = [f"query={question.query}"] if has_query and not question.is_wide else []
    keys = ["tense=yes"] * question.is_tense + ["civil=yes"] * question.is_civil
    return ["lint", f"db={question.database}", *query, *keys]


def findings_in(question: Question, has_query: bool = True) -> list[str]:
    """The lines of what is found; none where nobody is warned, and where a file is refused, which others tell."""
    has_query = has_query and not question.is_wide
    files = [question.database, question.query] if has_query else [question.database]
    if not is_warned() or not all(map(is_looked_through, files)):
        return []
    output = run_program(words_of(question, has_query))
    return [] if output.status else output.text.splitlines()


def warn(question: Question, lines: list[str], given: dict[str, str] | None = None) -> None:
    """Tells what was found; `given` has the files of texts that have no name of their own."""
    width = shutil.get_terminal_size((WIDTH, 24)).columns
    told = warnings(lines, words_of(question), width, given_files() | (given or {}))
    print(told, end="", file=sys.stderr, flush=True)


def warn_of(question: Question) -> None:
    """Looks through the files of a question, and tells what is found."""
    warn(question, findings_in(question))


def warn_of_database(content: str, file: str | None, is_civil: bool) -> None:
    """Looks through a database that was written, to a file or to nowhere that has a name."""
    if not is_warned():
        return
    with tempfile.TemporaryDirectory(prefix="fizhedul-") as folder:
        given = {}
        if file is None:
            file = given["db"] = str(Path(folder, "database.lrp"))
            Path(file).write_text(content, encoding="utf-8")
        question = Question(file, "", 0, 0, is_civil=is_civil)
        warn(question, findings_in(question, has_query=False), given)


def warn_of_window(first: str, last: str) -> None:
    """Tells that a window ends before it begins."""
    if is_warned():
        told = f"no answer lies in this window, since from={first} is after to={last}"
        print(f"fizhedul: warning: {told}", file=sys.stderr, flush=True)
