"""Queries as texts: their heads, their definitions, and whether a bracket is open still."""

import re

from .lrp import is_name

# A comment, a text, a name, or one letter that is no blank.
PIECE = re.compile(r'#[^\n]*|"(?:[^"\\]|\\.)*"|[A-Za-z_][A-Za-z0-9_]*|\S')


def pieces(text: str) -> list[str]:
    """The pieces of a text without its comments."""
    return [piece for piece in PIECE.findall(text) if not piece.startswith("#")]


def head_of(text: str) -> list[tuple[str, str]]:
    """The columns of a query's head, names with sorts, where the text is a query."""
    found = pieces(text)
    if "|" not in found or "{" not in found:
        return []
    inside = found[found.index("{") + 1 : found.index("|")]
    return [(inside[place], inside[place + 2]) for place in range(0, len(inside) - 2, 4)]


def open_brackets(text: str) -> int:
    """How many brackets are open at the end; below 0 where one is closed that was not open."""
    count = 0
    for piece in pieces(text):
        count += piece in ("(", "{")
        count -= piece in (")", "}")
        if count < 0:
            return -1
    return count


def variables(text: str) -> list[str]:
    """The names before a colon, each once, in order."""
    found = pieces(text)
    bound = [name for name, colon in zip(found, found[1:]) if colon == ":" and is_name(name)]
    return list(dict.fromkeys(bound))


def is_definition(text: str) -> bool:
    """Whether a text begins as a definition of the wide language does."""
    return pieces(text)[:1] == ["define"]


def parts_of(text: str) -> list[str]:
    """A text cut after each semicolon: definitions, and a query where one comes after them."""
    ends = [found.end() for found in PIECE.finditer(text) if found.group() == ";"]
    cut = [text[begin:end].strip() for begin, end in zip([0, *ends], [*ends, len(text)])]
    return [part for part in cut if pieces(part)]


def defined_by(text: str) -> tuple[str, list[str]]:
    """The name that a definition gives a meaning, and its columns; the empty name where the text isn't one."""
    found = pieces(text)
    if not is_definition(text) or len(found) < 2 or not is_name(found[1]):
        return "", []
    head = found[2 : found.index(")")] if ")" in found else found[2:]
    return found[1], [name for name, colon in zip(head, head[1:]) if colon == ":"]
