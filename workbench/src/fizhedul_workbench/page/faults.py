"""Refusals as the page shows them: which text, which place in it, and what it means."""

import re
from collections.abc import Mapping
from dataclasses import asdict, dataclass, field

from catalogue import find_entry
from details import Refusal
from explain import key_of, paragraphs_on
from places import TOKEN

from ..engine.asked import Asked, Told
from ..engine.chosen import built_program

# What the page has in place of the words of the command line.
ON_THE_PAGE = {
    "Ask with plan=guarded; see": "Plan under guards; see",
    "give a higher 'cap='": "give a higher cap",
    "give tense=yes for": "switch on temporal operators for",
    "give civil=yes for": "switch on civil times for",
    "wide=yes and civil=yes": "wide=yes and civil times",
    "Or give wide=yes": "Or switch on the wide language",
    "wide=yes": "the wide language",
    "and give civil=yes": "and switch on civil times",
    "are read with tense=yes": "are read with temporal operators switched on",
    "are read with civil=yes": "are read with civil times switched on",
}


@dataclass(frozen=True)
class Fault:
    """A refusal: its line, the text that it speaks of, the place there from 0 in the letters of a browser, and what it
    means, a sentence or more a paragraph."""

    line: str
    which: str
    place: tuple[int, int, int] | None = None
    means: list[str] = field(default_factory=list)
    is_cap: bool = False

    def as_json(self) -> dict[str, object]:
        return asdict(self)


def letters(content: bytes) -> int:
    """How long a text is in a browser, which counts letters outside of the first plane twice."""
    return len(content.decode(errors="replace").encode("utf-16-le")) // 2


def place_of(content: bytes, line: int, column: int, token: re.Pattern[bytes] = TOKEN) -> tuple[int, int, int] | None:
    """The line, and the letters from which and up to which the token at a place stands; the column counts bytes."""
    lines = content.split(b"\n")
    if line > len(lines):
        return None
    text = lines[line - 1]
    found = token.match(text, column - 1)
    begin = letters(text[: column - 1])
    return line - 1, begin, begin + max(1, letters(found.group()) if found else 1)


def fault_of(asked: Asked, told: Told) -> Fault:
    """The refusal that the engine wrote, explained as the launcher explains it."""
    if told.is_ended:
        return Fault(
            ended(told.status), "engine", None, ["Its answer was not told. It is started again with the next question."]
        )
    line = told.refusal
    found = find_entry(line)
    if found is None:
        return Fault(line or f"the engine ended with status {told.status}", "engine")
    entry, numbers = found
    place = numbers.groupdict()
    which = key_of(line) if place.get("line") or line.startswith("refused: read") else "engine"
    files = {**told.files, **asked.keys}
    wording = ON_THE_PAGE | {path: name_of(key) for key, path in told.files.items()}
    said = [reworded(part, wording) for part in paragraphs_on(Refusal(built_program(), files, line, place), entry)]
    where = None
    if place.get("line") and which in asked.texts:
        where = place_of(asked.texts[which], int(place["line"]), int(place["column"]))
    return Fault(line, which, where, said, re.match(r"refused: more than \d+ cells", line) is not None)


def reworded(text: str, wording: Mapping[str, str]) -> str:
    """A text with other words in place of some."""
    for old, new in wording.items():
        text = text.replace(old, new)
    return text


def ended(status: int) -> str:
    return f"the engine was ended by signal {-status}"


def name_of(key: str) -> str:
    return {"db": "the database", "query": "the query"}.get(key, "the edits")
