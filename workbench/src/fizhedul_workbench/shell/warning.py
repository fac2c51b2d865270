"""Warnings in the shell: each finding once for a database, and once for a query."""

from ..program import run_program
from ..warned import findings_in, warn, words_of
from .session import Session, say, say_refusal


def warn_once(session: Session) -> None:
    """Tells what is found in the database and in the last query, but for what was told of them already."""
    has_query = bool(session.query)
    new = []
    for line in findings_in(session.question(), has_query):
        about = session.query if line.startswith("query ") else session.database
        if (about, line) not in session.warned:
            session.warned.add((about, line))
            new.append(line)
    warn(session.question(), new, {"query": session.question().query})


def lint(session: Session, _: str) -> None:
    """What is found in the database and in the last query, as the program writes it."""
    output = run_program(words_of(session.question(), bool(session.query)))
    if output.status:
        say_refusal(session, output)
    else:
        say(output.text.rstrip("\n"))
