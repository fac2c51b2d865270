"""What each refusal and each finding of `lint` means and what to do: the pages of help that list them, read."""

import re
from functools import cache
from pathlib import Path
from typing import NamedTuple

from table import SHARE

PLACEHOLDERS = {"L:C": r"(?P<line>\d+):(?P<column>\d+)", "CAP": r"\d+", "S": r"(?P<step>\d+)", "I": r"(?P<edit>\d+)",
                "RELATION": r"(?P<relation>\w+)", "ROW": r"(?P<row>\d+)"}
REFUSALS, FINDINGS = (SHARE / "help" / page for page in ("refusals.txt", "lint.txt"))


class Entry(NamedTuple):
    """One refusal or finding: its line as the page shows it, as a pattern of the program's lines, and two sentences."""

    heading: str
    pattern: re.Pattern[str]
    means: str
    to_do: str


@cache
def read_catalogue(path: Path = REFUSALS) -> list[Entry]:
    """The entries of the page: a heading at the margin, 'Means:' and 'To do:' under it."""
    entries = []
    for part in path.read_text().split("\n\n"):
        heading, _, body = part.strip("\n").partition("\n")
        means, found, to_do = body.partition("To do:")
        if found and "Means:" in means:
            entries.append(Entry(heading, pattern_of(heading), one_line(means.replace("Means:", "")), one_line(to_do)))
    return entries


def find_entry(line: str) -> tuple[Entry, re.Match[str]] | None:
    """The entry of a refusal's line, with the numbers in the line."""
    return entry_in(REFUSALS, line)


def find_finding(line: str) -> tuple[Entry, re.Match[str]] | None:
    """The entry of a line of `lint`, with the names and numbers in the line."""
    return entry_in(FINDINGS, line)


def entry_in(page: Path, line: str) -> tuple[Entry, re.Match[str]] | None:
    """The entry of a page for a line of the program."""
    for entry in read_catalogue(page):
        found = entry.pattern.fullmatch(line)
        if found:
            return entry, found
    return None


def pattern_of(heading: str) -> re.Pattern[str]:
    """The pattern of the lines that a heading stands for."""
    words = (PLACEHOLDERS.get(word, re.escape(word)) for word in heading.split(" "))
    return re.compile(" ".join(words))


def one_line(text: str) -> str:
    """A paragraph as one line."""
    return " ".join(text.split())
