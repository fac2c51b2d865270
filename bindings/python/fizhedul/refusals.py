"""What the engine refuses, and why."""

import re
import sys
from collections.abc import Mapping
from functools import cache
from importlib import import_module
from pathlib import Path

from .engine import Output

HERE = Path(__file__).resolve().parent
# Where the launcher's pages are: in the package, in a clone, or on the system.
PLACES = (HERE / "launcher", HERE.parents[2] / "share/launcher", Path("/usr/share/fizhedul/launcher"))
FAULT = re.compile(r"refused: (database|query|edits) ([A-Z]\w*) at (\d+):(\d+)")
WIDTH = 100
# Where memory is refused while a text is written, a front of it is told.
WRITE = 7
UNTOLD = {WRITE: "refused: memory", 8: "refused: memory", 10: "refused: a word that isn't UTF-8"}


class Refused(ValueError):
    """The engine's refusal of a database or a query, or of what was asked.

    `line` is the program's line, `status` its status, `kind` the kind of a fault, `place` its line and its column (both
    from 1, the column in bytes), or None, and `explanation` what the launcher says of it, with the faulty line.

    >>> import fizhedul
    >>> db = fizhedul.Database("relation bus(t: time) { (5+60n); }")
    >>> try:
    ...     db.query("{ t: time | buss(t) }").decide()
    ... except fizhedul.Refused as refusal:
    ...     refusal.status, refusal.kind, refusal.place
    (4, 'UnknownRelation', (1, 13))
    """

    def __init__(self, line: str, status: int, texts: Mapping[str, bytes]) -> None:
        super().__init__(line.removeprefix("refused: "))
        self.line = line
        self.status = status
        found = FAULT.fullmatch(line)
        self.kind = found[2] if found else ""
        self.place = (int(found[3]), int(found[4])) if found else None
        self.excerpt = excerpt_of(texts.get(found[1], b""), *self.place) if found and self.place else ""
        self.explanation = self.excerpt + meaning_of(line)

    def __str__(self) -> str:
        return f"{self.args[0]}\n{self.explanation}".rstrip()

    def _repr_html_(self) -> str:
        """The refusal as a notebook shows it: its line, the faulty line with a caret, and what to do."""
        from html import escape

        return f"<pre><b>{escape(self.line)}</b>\n{escape(self.explanation)}</pre>"


def answered(output: Output, texts: Mapping[str, bytes]) -> str:
    """The text of an output that was written whole.

    Raises Refused with the refusal's line else. `texts` has the database and the query, which the places are of.
    """
    if output.status in UNTOLD and (output.status == WRITE or not output.text):
        raise Refused(UNTOLD[output.status], output.status, texts)
    text = output.text.decode()
    if output.status:
        raise Refused(text.strip(), output.status, texts)
    return text


@cache
def launcher() -> bool:
    """Whether the launcher's pages can be read; they are then on the path of modules, after all others."""
    for place in PLACES:
        if (place / "catalogue.py").exists():
            if str(place) not in sys.path:
                sys.path.append(str(place))
            return True
    return False


def meaning_of(line: str) -> str:
    """What a refusal's line means and what to do, in two sentences; nothing where the launcher isn't there."""
    if not launcher():
        return ""
    found = import_module("catalogue").find_entry(line)
    return f"{found[0].means}\n{found[0].to_do}\n" if found else ""


def excerpt_of(text: bytes, line: int, column: int) -> str:
    """The line of a place with a caret under the token that begins there."""
    lines = text.split(b"\n")
    if not launcher() or line > len(lines):
        return ""
    shown: str = import_module("places").caret_line(lines[line - 1], column - 1, WIDTH)
    return shown
