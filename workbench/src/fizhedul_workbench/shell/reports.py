"""What a planner reports of a window: how many answers it has, and from when to when; and a plan as a tree."""

from dataclasses import replace

from ..cells import cells_of
from ..lrp import put_file
from ..plan import tree_of
from ..program import Output, ranges_of, run_program
from ..queries import head_of
from .session import Session, need_query, say, say_nearest, say_refusal, show_next
from .table import table


def count(session: Session, _: str) -> None:
    """The number of the window's answers."""
    if need_query(session):
        output = run_program(session.question().windowed("count"))
        if output.status:
            say_refusal(session, output)
            return
        number = output.text.strip()
        has_time = any(sort == "time" for _, sort in head_of(session.query))
        window = f" {session.shown_window()}" if has_time else ""
        say(f"{number} answer{'' if number == '1' else 's'}{window}")


def ranges(session: Session, _: str) -> None:
    """The answers of the window as ranges."""
    if need_query(session):
        show_ranges(session, session.first)


def show_ranges(session: Session, first: int) -> None:
    """The next ranges from a time on, as a table."""
    output = run_program(replace(session.question(), first=first).ranging(session.limit))
    session.more = None
    if output.status:
        say_refusal(session, output)
    else:
        say_ranges(session, output)


def say_ranges(session: Session, output: Output) -> None:
    found = ranges_of(output.text)
    if not found.ranges:
        say_nearest(session)
        return
    lines = table(["from", "to"], found.ranges)
    if session.is_colourful:
        lines[0] = f"\x1b[1m{lines[0]}\x1b[0m"
    if found.is_cut:
        session.more = found.after()
    number = f"{len(found.ranges)} range{'s' if len(found.ranges) > 1 else ''}"
    rest = "more with .next" if found.is_cut else f"the last {session.shown_window()}"
    say("\n".join([*lines, f"({number}; {rest})"]))


def tree(session: Session, file: str) -> None:
    """The plan of the last query as a tree, or its picture where a file is named."""
    show_plan(session, file, False)


def cells(session: Session, file: str) -> None:
    """The same with the cells of each step, and the time up to it."""
    show_plan(session, file, True)


def show_plan(session: Session, file: str, is_run: bool) -> None:
    """The plan as a tree, or its picture where a file is named; with the cells of each step where it is to be run."""
    if not need_query(session):
        return
    if file:
        from ..draw.look import Look, form_of
        from ..draw.tool import drawing

        put_file(file, drawing(session.question(), Look(form=form_of(file, None), is_plan=True, has_cells=is_run)))
        say(f"drawn: {file}")
        return
    output = run_program(session.question().words("explain"))
    if output.status:
        say_refusal(session, output)
        return
    found = cells_of(session.question()) if is_run else None
    say("\n".join(tree_of(output.text, found)))
    if found:
        say(f"({found.told_of_all()})")


def next_page(session: Session, _: str) -> None:
    """The next page of answers, or the next ranges, after those that were shown last."""
    if session.more is None:
        say("there is no next page")
    elif isinstance(session.more, int):
        show_ranges(session, session.more)
    else:
        show_next(session, session.more)
