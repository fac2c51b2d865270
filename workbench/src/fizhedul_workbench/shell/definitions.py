"""Definitions of the wide language that hold in a session."""

from ..program import run_program
from ..queries import defined_by, is_definition, parts_of
from .session import Session, ask, say, say_code, say_refusal, set_query

# A query without columns that names nothing: the program looks at all definitions before it.
NOTHING = "{ | 0 = 0 }"


def enter(session: Session, text: str) -> None:
    """Definitions, which hold from then on, and a query where one comes after them."""
    if not session.is_wide:
        session.is_wide, session.more = True, None
        say("definitions are in the wide language, which is on now; .wide off ends it")
    for part in parts_of(text):
        if not is_definition(part):
            ask(session, part)
        elif not define(session, part):
            return


def define(session: Session, text: str) -> bool:
    """One definition; of two with one name the later one holds, in the place of the other. False if it is refused."""
    name, _ = defined_by(text)
    definitions = session.definitions | {name: text}
    session.write_query(NOTHING, definitions)
    output = run_program(session.question().words("explain"))
    if output.status:
        say_refusal(session, output, definitions)
    else:
        say(f"{name} is defined{' anew' if name in session.definitions else ''}")
        session.definitions, session.more = definitions, None
    set_query(session, session.query)
    return output.status == 0


def list_definitions(session: Session, _: str) -> None:
    """The definitions that hold."""
    if not session.definitions:
        say("nothing is defined; as in define leaves(t: time) as bus(t, *);")
    else:
        say_code(session, "\n".join(session.definitions.values()))
        if not session.is_wide:
            say("they hold with .wide on")


def forget(session: Session, name: str) -> None:
    """Takes a definition away."""
    if session.definitions.pop(name, None) is None:
        say(f"'{name}' is not defined; .definitions lists what is")
    else:
        session.more = None
        set_query(session, session.query)


def set_wide(session: Session, rest: str) -> None:
    """Whether queries are in the wide language, with the definitions of the session."""
    if rest in ("on", "off", "yes", "no"):
        session.is_wide, session.more = rest in ("on", "yes"), None
        set_query(session, session.query)
    else:
        now = "on" if session.is_wide else "off"
        say(f"the wide language is {now}; .wide on and .wide off change that")
