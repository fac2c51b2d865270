"""What a session holds, and what its lines do; whatever is shown was written by the program."""

import os
from dataclasses import dataclass, field
from pathlib import Path

from ..civil import dated
from ..days import MINUTES, WEEK
from ..lexer import coloured
from ..lrp import put_file
from ..program import Answer, Output, Question, page_of, run_program
from ..queries import head_of
from ..words import Refused
from .refusals import told
from .table import names_in, relations, table

FIRST_WEEK = (0, WEEK * MINUTES - 1)
# So many answers are read at a time, where a page has fewer, so that the next page is there already.
READ_AHEAD = 500
Stamp = tuple[int, ...]


@dataclass(frozen=True)
class Rest:
    """What comes next of a query's answers: those that were read already, the token of those after them, if any, and
    what the database was when they were read."""

    answers: list[Answer]
    token: str | None
    stamp: Stamp


@dataclass
class Session:
    """One database, a window, limits, and the last query; what comes next are answers, or ranges from a time on."""

    database: str
    folder: Path
    first: int = FIRST_WEEK[0]
    last: int = FIRST_WEEK[1]
    limit: int = 20
    cap: int = 1_000_000
    is_civil: bool = False
    is_tense: bool = False
    is_canon: bool = False
    is_guarded: bool = True
    is_wide: bool = False
    is_colourful: bool = False
    query: str = ""
    definitions: dict[str, str] = field(default_factory=dict)
    more: Rest | int | None = None
    status: int = 0
    warned: set[tuple[str, str]] = field(default_factory=set)
    names: list[str] = field(default_factory=list)
    sorts: list[str] = field(default_factory=list)

    def question(self) -> Question:
        query = str(self.folder / "query.lrq")
        keys = self.is_civil, self.is_tense, self.is_canon, self.is_guarded, self.is_wide
        return Question(self.database, query, self.first, self.last, self.cap, *keys)

    def held(self) -> dict[str, str]:
        """The definitions that stand before a query, by their names: none where the wide language is off."""
        return self.definitions if self.is_wide else {}

    def write_query(self, text: str, definitions: dict[str, str]) -> None:
        """Puts a query into the file that is asked, after definitions."""
        (self.folder / "query.lrq").write_bytes("".join(f"{part}\n" for part in [*definitions.values(), text]).encode())

    def check_words(self) -> list[str]:
        return ["check", f"db={self.database}", *(["civil=yes"] if self.is_civil else [])]

    def shown_time(self, time: int) -> str:
        """A time as the session shows it: a number, or its date."""
        return dated(time) if self.is_civil else str(time)

    def shown_window(self) -> str:
        return f"from {self.shown_time(self.first)} to {self.shown_time(self.last)}"


def say(text: str) -> None:
    print(text, flush=True)


def say_code(session: Session, text: str) -> None:
    """A text of either grammar, in colours where there are any."""
    say(coloured(text) if session.is_colourful else text.rstrip("\n"))


def say_refusal(session: Session, output: Output, definitions: dict[str, str] | None = None) -> None:
    """A refusal, with its place in the query, a definition, the database or the file of edits, and what it means."""
    session.status = abs(output.status)
    typed = session.held() if definitions is None else definitions
    line, _, explained = told(output, session.question().query, typed).partition("\n")
    shown = f"\x1b[31m{line}\x1b[0m" if session.is_colourful else line
    say(f"{shown}\n{explained}" if explained else shown)


def need_query(session: Session) -> bool:
    if not session.query:
        say("there is no query yet")
    return bool(session.query)


def show_page(session: Session, after: Rest | None = None) -> Output:
    """The first page of the query as a table, or the one that begins with what was read before; what the program
    wrote."""
    stamp = stamp_of(session.database)
    read = after.answers if after else []
    output = run_program(session.question().listing(max(session.limit, READ_AHEAD), after.token if after else None))
    session.more = None
    if output.status:
        say_refusal(session, output)
        return output
    found = page_of(output.text)
    show_answers(session, Rest(read + found.answers, found.more, stamp))
    return output


def show_next(session: Session, rest: Rest) -> None:
    """The next page of the query."""
    if rest.stamp != stamp_of(session.database):
        session.more = None
        say("the database has changed since these answers were read; the query asks it anew where it is given again")
    elif len(rest.answers) >= session.limit or rest.token is None:
        show_answers(session, rest)
    else:
        show_page(session, rest)


def show_answers(session: Session, found: Rest) -> None:
    """A page of answers as a table; those after them come next."""
    shown, left = found.answers[: session.limit], found.answers[session.limit :]
    session.more = Rest(left, found.token, found.stamp) if left or found.token else None
    if shown:
        say_answers(session, shown)
    else:
        say_nearest(session)


def stamp_of(file: str) -> Stamp:
    """What tells a file from what it was before it was written to; nothing while it isn't there."""
    try:
        found = os.stat(file)
    except OSError:
        return ()
    return found.st_dev, found.st_ino, found.st_size, found.st_mtime_ns, found.st_ctime_ns


def say_answers(session: Session, answers: list[Answer]) -> None:
    names = [name for name, _ in head_of(session.query)]
    lines = table(names, answers) if names else ["()"]
    if session.is_colourful and names:
        lines[0] = f"\x1b[1m{lines[0]}\x1b[0m"
    count = f"{len(answers)} answer{'s' if len(answers) > 1 else ''}"
    rest = "more with .next" if session.more else f"the last {session.shown_window()}"
    say("\n".join([*lines, f"({count}; {rest})"]))


def say_nearest(session: Session) -> None:
    """What there is outside of a window without answers."""
    output = run_program(session.question().words("decide"))
    if output.status:
        say_refusal(session, output)
        return
    lines = output.text.splitlines()
    where = f"no answer {session.shown_window()}"
    if lines[0] == "Empty":
        say(f"({where}, and none at any other time)")
    else:
        say(f"({where}; the least answer of all is {lines[1]})")


def ask(session: Session, text: str) -> None:
    """A new query: its first page. After one that is none, or does not fit the database, the one before it stays."""
    before = session.query
    set_query(session, text)
    if (show_page(session).refusal or "").startswith("refused: query"):
        set_query(session, before)


def set_query(session: Session, text: str) -> None:
    session.query = text
    session.write_query(text, session.held())


def write_output(session: Session, command: str) -> None:
    """What a command of the program writes on the last query."""
    if need_query(session):
        output = run_program(session.question().words(command))
        if output.status:
            say_refusal(session, output)
        else:
            say_code(session, output.text)


def show_schema(session: Session, _: str) -> None:
    """The relations with the names and sorts of their columns."""
    output = run_program(session.check_words())
    if output.status:
        say_refusal(session, output)
    else:
        say_code(session, "\n".join(f"{name}({columns})" for name, columns, *_ in relations(output.text)))


def read_names(session: Session) -> bool:
    """The relations and sorts of the database, for completion; false where it is refused."""
    output = run_program(session.check_words())
    session.names, session.sorts = ([], []) if output.status else names_in(output.text)
    if output.status:
        say_refusal(session, output)
    return output.status == 0


def show_tables(session: Session, _: str) -> None:
    output = run_program(session.check_words())
    if output.status:
        say_refusal(session, output)
    else:
        say("\n".join(table(["relation", "columns", "rows", "periods"], relations(output.text))))


def open_database(session: Session, rest: str) -> None:
    if not rest:
        say("which file? as in .open bus.lrp")
        return
    session.database, session.more = rest, None
    if read_names(session):
        say(f"{rest}: {', '.join(session.names) or 'no relation'}")


def save(session: Session, rest: str) -> None:
    """The last query to a file; its whole answer, as a relation, where the file's name ends in .lrp."""
    if not rest:
        say("to which file? as in .save query.lrq, or .save answer.lrp")
    elif need_query(session):
        content = "\n".join([*session.held().values(), session.query])
        if rest.endswith(".lrp"):
            output = run_program(session.question().words("ask"))
            if output.status:
                say_refusal(session, output)
                return
            content = "" if output.text == "Empty\n" else output.text
        put_file(rest, content.rstrip("\n").encode() + b"\n")
        say(f"saved: {rest}")


def draw(session: Session, rest: str) -> None:
    if need_query(session):
        from ..draw.look import Look, form_of
        from ..draw.tool import drawing

        file = rest or "drawing.html"
        look = Look(form=form_of(file, None), with_dates=session.is_civil)
        put_file(file, drawing(session.question(), look))
        say(f"drawn: {file}")


def refuse(session: Session, refused: Refused) -> None:
    session.status = refused.status
    say(f"refused: {refused.reason}")
