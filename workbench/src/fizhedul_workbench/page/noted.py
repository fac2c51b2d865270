"""What the texts hold that is seldom meant, as the engine's `lint` finds it, at its places on the page."""

from catalogue import find_finding
from explain import paragraphs
from findings import Finding, Texts, is_told, place_of, read_texts, said_of
from places import TOKEN, WHOLE_ROW
from starlette.concurrency import run_in_threadpool

from .asking import Matter
from ..engine.asked import Engine, Told
from .faults import place_of as letters_of

# Longer databases are not looked through while somebody types.
MOST_BYTES = 250_000
MOST_NOTES = 5


async def notes_of(engine: Engine, matter: Matter) -> dict[str, object]:
    """The first findings, each with its text, its place and its sentences, and how many others there are; none where a
    text is refused."""
    if len(matter.db) > MOST_BYTES:
        return {"notes": [], "others": 0}
    told = await engine.run(matter.asking("lint"))
    return await run_in_threadpool(read_notes, matter, told)


def read_notes(matter: Matter, told: Told) -> dict[str, object]:
    """The notes that the lines of `lint` make."""
    texts = read_texts({**told.files, **({"civil": "yes"} if matter.is_civil else {})})
    notes = [] if told.status else [note for line in told.text.splitlines() for note in note_of(matter, texts, line)]
    return {"notes": notes[:MOST_NOTES], "others": max(0, len(notes) - MOST_NOTES)}


def note_of(matter: Matter, texts: Texts, line: str) -> list[dict[str, object]]:
    """The note for a line; none for one that tells no finding."""
    found = find_finding(line)
    if found is None:
        return []
    finding = Finding(line, found[1].groupdict(), texts)
    place = place_of(finding)
    if place is None or not is_told(finding):
        return []
    content, token = (matter.query, TOKEN) if finding.key == "query" else (matter.db, WHOLE_ROW)
    said = " ".join(paragraphs(found[0], said_of(finding)))
    return [{"which": finding.key, "place": letters_of(content, place.line, place.column, token), "said": said}]
