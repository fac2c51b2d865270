"""The definitions that a statement is made of: which there are, in which files, and how many lines they take.

`python3 tests/reached.py NAME ..` tells them file by file, of `IsRun` where no name is given.
"""

import re
import sys
from collections import Counter
from collections.abc import Iterable
from pathlib import Path
from typing import NamedTuple

TOP = Path(__file__).resolve().parent.parent
HEAD = re.compile(r"(?:(?:abbrev|unfoldable|pub|data|record) )*([^\s:({]+)")
WORD = re.compile(r"[^\s(){}\[\],;]+")
IMPORT = re.compile(r"(?:pub )?use Rattle\.([\w.]+?)(?:\.\{(.*)\}| as (\w+))")


class Place(NamedTuple):
    """A definition: its file, as `crate/File`, and its name."""

    file: str
    name: str


class Definition:
    """Its text without comments, and its lines with those above it."""

    def __init__(self) -> None:
        self.text = ""
        self.lines = 0


class Specs:
    """The definitions of all crates, and what each file calls those of others."""

    def __init__(self) -> None:
        self.definitions: dict[Place, Definition] = {}
        self.names: dict[str, dict[str, Place]] = {}
        for path in sorted(TOP.glob("crates/*/specs/*.antt")):
            self.read(f"{path.parts[-3]}/{path.stem}", path.read_text())

    def read(self, file: str, text: str) -> None:
        """Takes the definitions of a file. What stands in a group has the group's indent."""
        names = self.names.setdefault(file, {})
        current, comment, indent = Definition(), 0, ""
        for line in text.splitlines():
            if found := IMPORT.match(line):
                names.update(imported(*found.groups()))
            elif not line.strip() or line.lstrip().startswith("-- ----"):
                comment = 0
            elif line.lstrip().startswith("--"):
                comment += 1
            elif re.match(r"(?:\w+ )*(?:mutual|module)\b", line):
                indent = "  "
            else:
                indent = indent if line.startswith(" ") else ""
                if not line.removeprefix(indent).startswith(" "):
                    place = Place(file, name_of(line.removeprefix(indent)))
                    names[place.name] = place
                    current = self.definitions.setdefault(place, Definition())
                current.text += line + "\n"
                current.lines += 1 + comment
                comment = 0

    def reached(self, names: Iterable[str]) -> dict[Place, Definition]:
        """What these statements are made of, they themselves among it."""
        todo = [place for place in self.definitions if place.name in set(names)]
        found: dict[Place, Definition] = {}
        while todo:
            place = todo.pop()
            if place not in found and place in self.definitions:
                found[place] = self.definitions[place]
                known = self.names[place.file]
                todo += [known[name] for word in WORD.findall(found[place].text) for name in {word, word.split(".")[0]} if name in known]
        return found


def name_of(line: str) -> str:
    """The name with which a line of a definition begins, after the words that go before one."""
    found = HEAD.match(line)
    return found[1] if found else ""


def imported(path: str, names: str | None, alias: str | None) -> dict[str, Place]:
    """What an import brings: definitions of a file, or constructors and fields, which are those of their type."""
    crate, _, file, *kind = path.split(".")
    if file == "declared":
        return {}
    if names is None:
        return {alias or "": Place(f"{crate}/{file}", kind[0])} if kind else {}
    pairs = [name.strip().partition(" as ") for name in names.split(",")]
    return {new or old: Place(f"{crate}/{file}", kind[0] if kind else old) for old, _, new in pairs}


def lines_of(found: dict[Place, Definition]) -> Counter[str]:
    """How many lines of each file."""
    lines: Counter[str] = Counter()
    for place, definition in found.items():
        lines[place.file] += definition.lines
    return lines


def main() -> None:
    found = Specs().reached(sys.argv[1:] or ["IsRun"])
    lines = lines_of(found)
    for file in sorted(lines):
        print(f"{file} {lines[file]}")
    print(f"{len(found)} definitions, {sum(lines.values())} lines, {len(lines)} files")


if __name__ == "__main__":
    main()
