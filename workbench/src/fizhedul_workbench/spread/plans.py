"""The parts of a question: what each runs, and how their outputs are put together."""

from collections.abc import Callable, Mapping, Sequence
from dataclasses import dataclass
from pathlib import Path
from typing import IO, Any

from ..civil import dated, is_chosen, read_window, window_end
from ..lrp import MOST_BYTES
from ..program import answered
from ..words import FAILED_READ, Refused, usage, whole
from .asked import MOST_PARTS, Asked
from .by_sort import cut_database
from .lengths import reach_of
from .lines import Form, head_of
from .merging import (
    is_answered,
    is_decision,
    is_number,
    is_page,
    join,
    least,
    merge_by_order,
    merge_windows,
    total,
)
from .rounds import Run
from .store import Folder
from .windows import Reach, Window, cut, seen

# The most answers that a page may have.
LARGEST = 1_000_000
# In how many parts the queries of a folder are asked where nothing is said: a part has a price of its own.
BUNDLES = 16


@dataclass(frozen=True)
class Plan:
    """The parts of a question, what of it they are, and how their outputs are put together."""

    runs: Sequence[Run]
    told: Mapping[str, Any]
    is_whole: Callable[[Path], bool]
    merge: Callable[[IO[bytes]], None]


def outputs(folder: Folder, runs: Sequence[Run]) -> list[Path]:
    return [folder.output(run.key) for run in runs]


def shown(window: Window, is_civil: bool) -> str:
    first, last = (dated(end) if is_civil else str(end) for end in (window.first, window.last))
    return f"{first} to {last}"


def find_reach(asked: Asked, form: Form, window: Window) -> Reach:
    """How far from its first time the other times of an answer may lie, by what `ask` says of all answers."""
    length = max(0, window.last - window.first)
    overlap = whole(asked.found, "overlap", -1, 0, 2**63)
    if len(form.head.times) < 2 and overlap >= 0:
        raise usage("overlap is for heads of several times")
    if len(form.head.times) < 2 or asked.found["parts"] == "1":
        return Reach(0, 0)
    if overlap >= length:
        return Reach(length, length)
    found = reach_of(answered(["ask", *asked.kept("db", "query"), *asked.handed_on("ask")]).split("\n"), form.head)
    if found is None:
        raise Refused(
            f"answers have no greatest length, so each part has to see the whole window: say overlap={length}"
        )
    if 0 <= overlap and not Reach(overlap, overlap).covers(found):
        raise Refused(f"overlap={overlap} is too little: answers may be {max(found.before, found.after)} long")
    return found


def plan_windows(asked: Asked, form: Form, files: Mapping[str, str], window: Window) -> Plan:
    """A part for each window."""
    parts = whole(asked.found, "parts", 1, 1, MOST_PARTS)
    reach = find_reach(asked, form, window)
    windows = cut(window, parts) if form.head.times else [window]
    runs = []
    for number, part in enumerate(windows, 1):
        wide = seen(part, reach, window)
        runs.append(asked.run(number, shown(part, asked.is_civil), files, listing(asked, wide)))
    paths = outputs(asked.folder, runs)
    return Plan(
        runs,
        {"cut": "windows", "before": reach.before, "after": reach.after},
        lambda output: is_page(output, form),
        lambda sink: merge_windows(zip(windows, paths), form, sink),
    )


def ends_of(asked: Asked, window: Window) -> list[str]:
    """The words of a window."""
    first, last = (window_end(end) if asked.is_civil else str(end) for end in (window.first, window.last))
    return [f"from={first}", f"to={last}"]


def listing(asked: Asked, window: Window) -> list[str]:
    """The words of `list` for a window, with as large pages as may be where nothing else is said."""
    limit = [] if "limit" in asked.found else [f"limit={LARGEST}"]
    return [*ends_of(asked, window), *limit, *asked.handed_on("list")]


def plan_count(asked: Asked, form: Form, files: Mapping[str, str], window: Window) -> Plan:
    """A part for each window. Without times an answer is in all windows, so there is one part."""
    windows = cut(window, whole(asked.found, "parts", 1, 1, MOST_PARTS)) if form.head.times else [window]
    runs = []
    for number, part in enumerate(windows, 1):
        words = [*ends_of(asked, part), *asked.handed_on("count")]
        runs.append(asked.run(number, shown(part, asked.is_civil), files, words))
    paths = outputs(asked.folder, runs)
    return Plan(runs, {"cut": "windows"}, is_number, lambda sink: put(sink, total(paths)))


def plan_by_sort(asked: Asked, form: Form, query: bytes, words: Sequence[str]) -> Plan:
    """A part for each group of texts of a sort."""
    if is_chosen(asked.found, "wide"):
        raise usage("a query in the wide language is not cut by a sort; cut its window, or leave out wide=yes")
    sort, parts = asked.found["by"], whole(asked.found, "parts", 1, 1, MOST_PARTS)
    # The program tells what is wrong with the query before it is cut by.
    answered(["explain", *asked.kept("db", "query"), *asked.handed_on("explain")])
    checked = answered(["check", *asked.kept("db"), *asked.handed_on("check")])
    databases = cut_database(checked, query.decode(), sort, parts, is_chosen(asked.found, "tense"))
    largest = max(len(text.encode()) for text in databases)
    if largest > MOST_BYTES:
        raise Refused(f"a part would have {largest} bytes, and {MOST_BYTES} are allowed: more parts make them smaller")
    runs = []
    for number, text in enumerate(databases, 1):
        files = {"db": asked.folder.keep(text.encode()), "query": asked.folder.keep(query)}
        runs.append(asked.run(number, f"group {number} of {sort}", files, words))
    paths = outputs(asked.folder, runs)
    if asked.command == "list":
        return Plan(
            runs,
            {"cut": f"by {sort}"},
            lambda output: is_page(output, form),
            lambda sink: merge_by_order(paths, form, sink),
        )
    return Plan(runs, {"cut": f"by {sort}"}, is_decision, lambda sink: put(sink, least(paths, form)))


def put(sink: IO[bytes], content: bytes) -> None:
    sink.write(content)


def names_of(folder: Path) -> list[str]:
    """The queries of a folder, in the order of their names."""
    try:
        names = sorted(path.name for path in folder.iterdir() if path.suffix == ".lrq")
    except OSError as fault:
        raise Refused(f"{folder}: {fault.strerror}", FAILED_READ) from fault
    if not names or not all(name.isprintable() for name in names):
        raise Refused(f"{folder}: there are no queries, or one has no plain name", FAILED_READ)
    return names


def plan_queries(asked: Asked, database: str) -> Plan:
    """Parts of several queries of a folder each, in the order of their names."""
    folder = Path(asked.found["queries"])
    names = names_of(folder)
    runs, named = [], {}
    for number, some in enumerate(
        cut(Window(0, len(names) - 1), whole(asked.found, "parts", BUNDLES, 1, MOST_PARTS)), 1
    ):
        mine = names[some.first : some.last + 1]
        questions = [(name, asked.keep(str(folder / name))) for name in mine]
        what = mine[0] if len(mine) == 1 else f"{mine[0]} to {mine[-1]}"
        runs.append(asked.run(number, what, {"db": database}, asked.handed_on("decide"), questions))
        named[asked.folder.output(runs[-1].key)] = mine
    paths = outputs(asked.folder, runs)
    return Plan(
        runs,
        {"cut": "queries"},
        lambda output: is_answered(output, named[output]),
        lambda sink: join(paths, sink),
    )


def plan_of(asked: Asked) -> Plan:
    """The parts of a question."""
    found = asked.found
    if "queries" in found:
        return plan_queries(asked, asked.keep(found["db"]))
    files = {"db": asked.keep(found["db"]), "query": asked.keep(found["query"])}
    query = (asked.folder.files / files["query"]).read_bytes()
    form = Form(head_of(query.decode(errors="replace")), found.get("form") == "json", asked.is_civil)
    window = Window(*read_window(found, 0, 0, asked.is_civil))
    if "by" in found:
        return plan_by_sort(
            asked, form, query, listing(asked, window) if asked.command == "list" else asked.handed_on("decide")
        )
    if asked.command == "count":
        return plan_count(asked, form, files, window)
    return plan_windows(asked, form, files, window)
