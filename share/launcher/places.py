"""A place in a file: the line, and a caret under the token that begins there."""

import re
import unicodedata
from pathlib import Path
from typing import NamedTuple

TOKEN = re.compile(rb'[A-Za-z_][A-Za-z0-9_]*|[0-9]+|"(?:[^"\\\n]|\\.)*"?|<=|>=|[\xc0-\xff][\x80-\xbf]*|[^\s]')
WORD = re.compile(rb"[^ ]+")
WHOLE_ROW = re.compile(rb'(?:"(?:[^"\\\n]|\\.)*"|[^;"#\n])*;?')
TAIL = "..."


class Place(NamedTuple):
    """A place in a file; the column counts bytes, both count from 1."""

    file: str
    line: int
    column: int


def show_place(place: Place, width: int, name: str = "", token: re.Pattern[bytes] = TOKEN) -> str:
    """The file's line with a caret under the place, at most `width` wide; nothing where the file can't be read again.

    `name` stands for the name of a file that has none of its own, `token` for what the caret's tail is under.
    """
    lines = read_lines(place.file)
    if lines is None or place.line > len(lines):
        return ""
    shown = f"{clean(name or place.file)}:{place.line}:{place.column}\n"
    line = lines[place.line - 1]
    if place.line == len(lines) and place.column > len(line):
        shown += last_words(lines, width)
    return shown + caret_line(line, place.column - 1, width, token)


def read_lines(file: str) -> list[bytes] | None:
    """The lines of a regular file; none of what can't be read twice, as a pipe."""
    try:
        path = Path(file)
        return path.read_bytes().split(b"\n") if path.is_file() else None
    except OSError:
        return None


def last_words(lines: list[bytes], width: int) -> str:
    """The last line with something on it, where a fault stands at the file's end on an empty line."""
    if lines[-1].strip():
        return ""
    for line in reversed(lines):
        if line.strip():
            return "  " + clip(clean(line.decode(errors="replace")).rstrip(), width - 2) + "\n"
    return ""


def caret_line(line: bytes, start: int, width: int, token: re.Pattern[bytes] = TOKEN) -> str:
    """A line, and under it a caret at the byte `start` with a tail under the rest of the token that begins there."""
    found = token.match(line, start)
    taken = found.group() if found else b""
    before = clean(line[:start].decode(errors="replace"))
    middle = clean(taken.decode(errors="replace"))
    after = clean(line[start + len(taken):].decode(errors="replace")).rstrip()
    room = max(width - 2, 20)
    if breadth(before) + breadth(middle) > room:
        before = TAIL + keep_end(before, room // 2 - len(TAIL))
    shown = clip(before + middle + after, room)
    tail = min(max(breadth(middle), 1), max(room - breadth(before), 1))
    return f"  {shown}\n  {' ' * breadth(before)}^{'~' * (tail - 1)}\n"


def clean(text: str) -> str:
    """The text as a terminal may show it: tabs as a blank, and no control characters."""
    shown = ("\ufffd" if unicodedata.category(each) in ("Cc", "Cf", "Cs", "Zl", "Zp") else each
             for each in text.replace("\t", " ").removesuffix("\r"))
    return "".join(shown)


def breadth(text: str) -> int:
    """The number of cells that a text takes on a terminal."""
    return sum(cells(each) for each in text)


def cells(each: str) -> int:
    """The number of cells of one character: none of a mark on the one before, two of a wide one."""
    if unicodedata.combining(each):
        return 0
    return 2 if unicodedata.east_asian_width(each) in "WF" else 1


def clip(text: str, room: int) -> str:
    """The text, with its end left out where it is wider than `room`."""
    if breadth(text) <= room:
        return text
    kept = ""
    for each in text:
        if breadth(kept) + cells(each) > room - len(TAIL):
            break
        kept += each
    return kept + TAIL


def keep_end(text: str, room: int) -> str:
    """As much of a text's end as `room` holds."""
    start = len(text)
    taken = 0
    while start > 0 and taken + cells(text[start - 1]) <= room:
        start -= 1
        taken += cells(text[start])
    return text[start:]
