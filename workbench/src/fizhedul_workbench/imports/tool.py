"""The tools `import` and `export`."""

import sys
from collections.abc import Mapping, Sequence

from ..civil import is_chosen, minute_of, read_window
from ..lrp import MOST_BYTES, put_file, shown, written_database, written_value
from ..program import Question
from ..warned import warn_of, warn_of_database
from ..words import Refused, choice, is_guarded, keyed, several, usage, whole
from .civil_values import written_civil
from .gtfs import read_gtfs
from .gtfs_wanted import Clock
from .gtfs_wanted import Wanted as WantedOfFeed
from .imported import Imported
from .plain_csv import pieces_of, pieces_of_ranges, read_csv

IMPORTS = """fizhedul import gtfs FOLDER-or-ZIP [out=FILE] [local=yes] [line=NAME,..] [service=ID,..] [relation=NAME,..]
                [skip=TRIP,..] [unit=minute|second] [round=down] [headway=as-exact]
fizhedul import ics FILE [out=FILE] [local=yes] [zone=NAME] [uid=UID,..] [from=DATE] [to=DATE]
fizhedul import csv FILE [out=FILE] [name=NAME]
each with civil=yes, if wanted, for civil values"""
EXPORTS = (
    "fizhedul export csv|tsv db=FILE query=FILE from=A to=B [out=FILE] [ranges=yes] [cap=N]\n"
    "                [plan=written] [tense=yes] [wide=yes] [civil=yes]"
)


def import_gtfs(source: str, words: Sequence[str]) -> tuple[Imported, str | None]:
    keys = ["out", "local", "line", "service", "relation", "skip", "unit", "round", "headway"]
    found = keyed(words, keys)
    lines, services, relations, skipped = (frozenset(several(found, key)) for key in (*keys[2:5], "skip"))
    is_down = choice(found, "round", "no", ["no", "down"]) == "down"
    wanted = WantedOfFeed(
        lines=lines,
        services=services,
        relations=relations,
        skipped=skipped,
        local=is_chosen(found, "local"),
        headway_is_exact=choice(found, "headway", "no", ["no", "as-exact"]) == "as-exact",
        clock=Clock(1 if choice(found, "unit", "minute", ["minute", "second"]) == "second" else 60, is_down),
    )
    return read_gtfs(source, wanted), found.get("out")


def import_ics(source: str, words: Sequence[str]) -> tuple[Imported, str | None]:
    # Only calendars need the packages that are imported here.
    from .ics import Wanted, read_ics

    found = keyed(words, ["out", "local", "zone", "uid", "from", "to"])
    first, last = date_of(found, "from", "00:00"), date_of(found, "to", "23:59")
    wanted = Wanted(frozenset(several(found, "uid")), found.get("zone"), is_chosen(found, "local"), first, last)
    return read_ics(source, wanted), found.get("out")


def date_of(found: Mapping[str, str], key: str, clock: str) -> int | None:
    """The minute that a key gives by its date; a date alone is meant at this time of day. None without the key."""
    text = found.get(key)
    if text is None:
        return None
    minute = minute_of(text if "T" in text or " " in text else f"{text}T{clock}")
    if minute is None:
        raise usage(f"{key}={text} is no date as 2024-02-26 or 2024-02-26T08:15")
    return minute


def import_csv(source: str, words: Sequence[str]) -> tuple[Imported, str | None]:
    found = keyed(words, ["out", "name"])
    return read_csv(source, found.get("name")), found.get("out")


def put(content: str, out: str | None) -> None:
    """Writes a text to a file, whole or not at all, or to standard output."""
    if out is None:
        sys.stdout.write(content)
        sys.stdout.flush()
    else:
        put_file(out, content.encode())


def import_tool(words: Sequence[str]) -> None:
    """Reads a feed, a calendar or a table, and writes it as a database; tells what is not carried over."""
    kinds = {"gtfs": import_gtfs, "ics": import_ics, "csv": import_csv}
    if len(words) < 2 or words[0] not in kinds:
        raise usage("an import is one of\n" + IMPORTS)
    is_civil = is_chosen(keyed([word for word in words if word.startswith("civil=")], ["civil"]), "civil")
    others = [word for word in words[2:] if not word.startswith("civil=")]
    if is_civil and "unit=second" in others:
        raise usage("civil=yes counts minutes, and unit=second seconds")
    imported, out = kinds[words[0]](words[1], others)
    left = [f"Not carried over: {each}." for each in imported.left]
    dates = ["To be read with civil=yes."] if is_civil else []
    written = written_civil if is_civil else written_value
    content = written_database([*dates, *imported.remarks, *left], imported.relations, written)
    size = len(content.encode())
    if size > MOST_BYTES:
        raise Refused(f"the database would have {size} bytes, and {MOST_BYTES} are allowed")
    put(content, out)
    for each in imported.left:
        print(f"not carried over: {shown(each)}", file=sys.stderr)
    for relation in imported.relations:
        count = len(relation.rows)
        print(f"{relation.name}: {count} row{'' if count == 1 else 's'}", file=sys.stderr)
    warn_of_database(content, out, is_civil)


def export_tool(words: Sequence[str]) -> None:
    """Writes the answers of a window, or their ranges, as values with commas or tabs between them."""
    if not words or words[0] not in ("csv", "tsv"):
        raise usage("an export is\n" + EXPORTS)
    keys = ["db", "query", "from", "to"]
    found = keyed(words[1:], [*keys, "out", "ranges", "cap", "civil", "tense", "wide", "plan"], keys)
    is_civil = is_chosen(found, "civil")
    first, last = read_window(found, 0, 0, is_civil)
    cap = whole(found, "cap", 1_000_000, 1, 1_000_000_000)
    chosen = is_civil, is_chosen(found, "tense"), False, is_guarded(found), is_chosen(found, "wide")
    question = Question(found["db"], found["query"], first, last, cap, *chosen)
    pieces = pieces_of_ranges if is_chosen(found, "ranges") else pieces_of
    put("".join(pieces(question, words[0])), found.get("out"))
    warn_of(question)
