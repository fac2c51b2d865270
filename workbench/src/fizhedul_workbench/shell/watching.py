"""Edits that are watched: the answer that the last query has at first, and after each edit."""

import time
from pathlib import Path

from ..program import run_program
from .session import Session, need_query, say, say_code, say_refusal

PAUSE = 0.3


def watch(session: Session, file: str) -> None:
    """The least answer, and after each edit of a file the one that it then has; at a terminal the file is followed."""
    if not file:
        say("which edits? as in .watch moves.lre")
    elif session.is_tense or session.is_civil or session.is_wide:
        off = ".tense off, .civil off and .wide off"
        say(f"edits are watched without temporal operators, civil times and the wide language; {off}")
    elif need_query(session):
        # What comes while the program runs is seen as a change.
        seen = content_of(file)
        lines = show_edits(session, file, [])
        if lines is not None and session.is_colourful:
            follow(session, file, seen, lines)


def show_edits(session: Session, file: str, known: list[str]) -> list[str] | None:
    """Shows the lines that were not shown yet; all lines that there are, or none where the program refuses."""
    output = run_program([*session.question().words("watch"), f"edits={file}", "kept=auto"])
    if output.status:
        say_refusal(session, output)
        return None
    lines = output.text.splitlines()
    is_longer = lines[: len(known)] == known
    new = lines[len(known) :] if is_longer else lines
    if not is_longer:
        say("the edits before have changed; anew:")
    if new:
        say_code(session, "\n".join(new))
    return lines


def content_of(file: str) -> bytes:
    """What a file has now; nothing while it can't be read."""
    try:
        return Path(file).read_bytes()
    except OSError:
        return b""


def follow(session: Session, file: str, seen: bytes, lines: list[str]) -> None:
    """Tells each change of the answer as the file grows, up to an interrupt. Half an edit waits for its end."""
    say(f"following {file}; Ctrl-C ends that")
    while True:
        time.sleep(PAUSE)
        now = content_of(file)
        if now != seen and is_ended(now):
            lines = show_edits(session, file, lines) or lines
            seen = now


def is_ended(edits: bytes) -> bool:
    """Whether the last line that has something ends an edit, or is a comment."""
    last = edits.strip().rpartition(b"\n")[2]
    return not last or b"#" in last or last.endswith(b";")
