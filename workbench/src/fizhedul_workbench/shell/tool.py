"""The loop of the shell: lines are commands, or queries that go on while a bracket is open."""

import sys
import tempfile
from collections.abc import Callable, Iterable, Iterator, Sequence
from difflib import get_close_matches
from pathlib import Path

from ..civil import is_chosen, read_window
from ..queries import is_definition, open_brackets, pieces
from ..words import FAILED_READ, Refused, is_guarded, keyed, whole
from . import definitions, reports
from . import session as acts
from . import settings
from .session import Session, say
from .warning import lint, warn_once
from .watching import watch

HELP = """A line is a query, as { t: time | bus(t) }; it goes on while a bracket is open.
.next           the next page, or the next ranges
.window A B     the times that are shown, from A to B
.count          how many answers the window has
.ranges         the answers of the window as ranges, from .. to ..
.tense on|off   whether queries may have temporal operators
.wide on|off    whether queries are in the wide language, with definitions
.canon on|off   whether whole answers are written in their one form
.plan guarded|written
                whether each table is made under what stands beside it
.civil on|off   whether times are minutes since 1970 and shown as dates
.decide         the least answer of all, or Empty
.ask            the whole answer, as a relation
.explain        the plan of the query
.tree [FILE]    the plan as a tree; its picture where a FILE is named
.cells [FILE]   the same with the cells that each step fills, and the time up
                to it: the query is asked again under lower caps
.watch FILE     the least answer, and after each edit of FILE the one then;
                at a terminal FILE is followed up to Ctrl-C
.cap N          the most cells of a step; each may take 750 bytes and 10 µs
.limit N        the most answers of a page, or ranges
.lint           what the database and the query hold that is seldom meant
define R(..) as F;
                a definition, which holds from then on in the wide language
.definitions    the definitions that hold
.forget R       takes a definition away
.tables         the relations of the database, with their rows and periods
.schema         the relations of the database, with their columns
.read FILE      what FILE has, as if it were typed
.open FILE      another database
.save FILE      the query, after its definitions; the whole answer where FILE ends in .lrp
.draw FILE      a picture of the window, as .html, .svg or .png
.help           this
.quit           the end"""

Act = Callable[[Session, str], None]
COMMANDS: dict[str, Act] = {
    ".next": reports.next_page,
    ".window": settings.set_window,
    ".count": reports.count,
    ".ranges": reports.ranges,
    ".decide": lambda session, _: acts.write_output(session, "decide"),
    ".ask": lambda session, _: acts.write_output(session, "ask"),
    ".explain": lambda session, _: acts.write_output(session, "explain"),
    ".tree": reports.tree,
    ".cells": reports.cells,
    ".watch": watch,
    ".civil": settings.set_civil,
    ".tense": settings.set_tense,
    ".wide": definitions.set_wide,
    ".definitions": definitions.list_definitions,
    ".forget": definitions.forget,
    ".canon": settings.set_canon,
    ".plan": settings.set_plan,
    ".cap": settings.set_cap,
    ".limit": settings.set_limit,
    ".schema": acts.show_schema,
    ".lint": lint,
    ".tables": acts.show_tables,
    ".open": acts.open_database,
    ".save": acts.save,
    ".draw": acts.draw,
    ".help": lambda _, __: say(HELP),
}


# After these commands, as after a query, the files are looked through.
WARNING = (".open", ".civil")
# What other shells call some of these.
OTHER_NAMES = {"exit": ".quit", "bye": ".quit", "q": ".quit", "?": ".help", "h": ".help", "man": ".help"}


def is_whole(text: str) -> bool:
    """Whether a line ends here: a command, a query without open brackets, or definitions to the end of the last."""
    if text.lstrip().startswith("."):
        return True
    return open_brackets(text) <= 0 and (not is_definition(text) or pieces(text)[-1] in (";", "}"))


def entries_of(lines: Iterable[str]) -> Iterator[str]:
    """The entries of a text, with comments and blank lines between them; one that is open at the end is one too."""
    pending = ""
    for line in lines:
        if not pending and not pieces(line):
            continue
        pending += line
        if is_whole(pending):
            yield pending
            pending = ""
    if pending:
        yield pending


def read_file(session: Session, file: str) -> bool:
    """Does what the entries of a file say; false where one says to quit."""
    if not file:
        say("which file? as in .read queries.lrq")
        return True
    try:
        text = Path(file).read_text(encoding="utf-8", errors="replace")
    except OSError as fault:
        raise Refused(f"{file}: {fault.strerror}", FAILED_READ) from fault
    for entry in entries_of(text.splitlines(keepends=True)):
        if entry.split()[0] == ".read":
            say("a file that is read can't read another one")
        elif not act(session, entry):
            return False
    return True


def pointer(word: str) -> str:
    """The command that a word is nearly, or all of them."""
    names = [*COMMANDS, ".quit", ".read"]
    name = "." + word.lower().lstrip(".")
    close = get_close_matches(OTHER_NAMES.get(name[1:], name), names, 1, 0.6)
    nearest = f"'{word}' is no command; '{close[0]}' is. " if close else f"'{word}' is no command. "
    return nearest + ".help lists them, and a query begins with '{'"


def act(session: Session, entry: str) -> bool:
    """Does what an entry says; false where it says to quit. An interrupt ends the entry alone."""
    text = entry.strip()
    word, _, rest = text.partition(" ")
    try:
        if word == ".quit":
            return False
        if word == ".read":
            return read_file(session, rest.strip())
        if word in COMMANDS:
            COMMANDS[word](session, rest.strip())
        elif word.startswith(".") or (len(pieces(text)) == 1 and word != "{"):
            say(pointer(word))
        elif is_definition(text):
            definitions.enter(session, text)
        elif pieces(text):
            acts.ask(session, text)
        if word in WARNING or (pieces(text) and not word.startswith(".")):
            warn_once(session)
    except KeyboardInterrupt:
        say("interrupted")
    except Refused as refused:
        acts.refuse(session, refused)
    return True


def loop(session: Session, entries: Iterator[str]) -> None:
    try:
        if acts.read_names(session):
            warn_once(session)
    except Refused as refused:
        acts.refuse(session, refused)
    for entry in entries:
        if not act(session, entry):
            return


def shell_tool(words: Sequence[str]) -> None:
    """A session over one database; piped input is read without prompts and colours."""
    found = keyed(words, ["db", "from", "to", "limit", "cap", "civil", "tense", "wide", "canon", "plan"], ["db"])
    with tempfile.TemporaryDirectory(prefix="fizhedul-") as folder:
        session = Session(found["db"], Path(folder))
        session.is_civil, session.is_tense = is_chosen(found, "civil"), is_chosen(found, "tense")
        session.is_canon, session.is_guarded = is_chosen(found, "canon"), is_guarded(found)
        session.is_wide = is_chosen(found, "wide")
        if session.is_civil and not {"from", "to"} & set(found):
            session.first, session.last = settings.this_week()
        session.first, session.last = read_window(found, session.first, session.last, session.is_civil)
        session.limit = whole(found, "limit", session.limit, 1, 1_000_000)
        session.cap = whole(found, "cap", session.cap, 1, 1_000_000_000)
        is_terminal = sys.stdin.isatty() and sys.stdout.isatty()
        session.is_colourful = is_terminal
        if is_terminal:
            from .prompt import prompted_entries

            say("Fizhedul: a line is a query; .help lists the commands.")
            loop(session, prompted_entries(session, [*COMMANDS, ".read", ".quit"], is_whole))
        else:
            loop(session, entries_of(sys.stdin))
    if session.status and not is_terminal:
        sys.exit(session.status)
