"""Warnings of what `lint` finds in a database and in a query: for standard error, and for the workbench.

    warn.py WORD ..

What `lint` wrote over the files of these words comes on standard input.
"""

import io
import sys
from collections.abc import Iterator

from catalogue import Entry, find_finding
from explain import given_files, paragraphs, width_of_terminal, wrapped
from findings import Finding, Texts, is_told, place_of, read_texts, said_of
from places import TOKEN, WHOLE_ROW, show_place

# Where a terminal is warned unasked, longer files are not looked through; `warn.sh` has the same number.
MOST_BYTES = 250_000
# So many findings are shown; of others the number is told.
MOST_SHOWN = 5
FRONT = "fizhedul: warning: "


def main(words: list[str]) -> None:
    """Shows what was found, for the launcher."""
    lines = sys.stdin.buffer.read().decode(errors="replace").splitlines()
    if isinstance(sys.stdout, io.TextIOWrapper):
        sys.stdout.reconfigure(errors="replace")
    print(warnings(lines, words, width_of_terminal(), given_files()), end="")


def warnings(lines: list[str], words: list[str], width: int, given: dict[str, str]) -> str:
    """The warnings for the lines of `lint` over the files of these words; `given` has the files of texts that have no
    name of their own, by their keys."""
    texts = read_texts(dict(word.split("=", 1) for word in words[1:] if "=" in word))
    found = [(finding, entry) for line in lines for finding, entry in entry_of(line, texts) if is_told(finding)]
    told = [warning(finding, entry, width, given) for finding, entry in found[:MOST_SHOWN]]
    shown, left = "".join(told), len(found) - MOST_SHOWN
    if left <= 0:
        return shown
    number = f"{left} more findings are" if left > 1 else "one more finding is"
    return shown + wrapped([f"{FRONT}{number} not shown; 'fizhedul lint' writes all of them"], width)


def entry_of(line: str, texts: Texts) -> Iterator[tuple[Finding, Entry]]:
    """The finding that a line tells, with its entry; none where it tells none, as the last line."""
    found = find_finding(line)
    if found:
        entry, numbers = found
        yield Finding(line, numbers.groupdict(), texts), entry


def warning(finding: Finding, entry: Entry, width: int, given: dict[str, str]) -> str:
    """One warning: the place, what is wrong there, and what to do."""
    shown = shown_place(finding, width, given) or f"{finding.line}\n"
    return FRONT + shown + wrapped(paragraphs(entry, said_of(finding)), width)


def shown_place(finding: Finding, width: int, given: dict[str, str]) -> str:
    """The place with its line; empty where the file can't be read again."""
    place = place_of(finding)
    name = finding.key if finding.key in given else ""
    return show_place(place, width, name, TOKEN if finding.key == "query" else WHOLE_ROW) if place else ""


if __name__ == "__main__":
    main(sys.argv[1:])
