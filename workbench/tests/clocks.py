"""Clocks of the page in a browser, as a table: from a key to its answer, to the first paint, and to windows far away.

    clocks.py [ROUNDS]

It is no test: on a machine that has other work a clock tells of that, too. The load is written with the figures, of
each of which there are the least and the middle one of its rounds. FIZHEDUL_PROGRAM names the program, and
FIZHEDUL_LIBRARY the library, without which the program alone is asked.
"""

import os
import statistics
import sys
import tempfile
import time
from collections.abc import Callable
from pathlib import Path

from devtools import Tab, tab
from pages import EXAMPLES, Served, answered, forget, open_page, served, wait_for

KEYS = [
    ("guide/line.lrp", "guide/trips.lrq"),
    ("guide/line.lrp", "guide/uncovered.lrq"),
    ("guide/line.lrp", "guide/shifts.lrq"),
    ("week/week.lrp", "week/connections.lrq"),
    ("maintenance/maintenance.lrp", "maintenance/unattended.lrq"),
    ("roster/roster.lrp", "roster/uncovered.lrq"),
]
FAR = 10**15
# From a change until its answer stands there, in milliseconds.
UNTIL_SHOWN = """(async () => {{
  const root = document.documentElement;
  const before = root.dataset.shown;
  const begun = performance.now();
  {change}
  while (root.dataset.shown === before) await new Promise((done) => requestAnimationFrame(done));
  return performance.now() - begun;
}})()"""
KEY = """const editor = document.querySelector("#query-editor .CodeMirror").CodeMirror;
  editor.replaceRange(" ", { line: editor.lastLine(), ch: 0 });"""
WINDOW = """document.getElementById("from").value = "{first}"; document.getElementById("to").value = "{last}";
  document.getElementById("window").requestSubmit();"""


def row(name: str, measure: Callable[[], float], rounds: int) -> None:
    taken = [measure() for _ in range(rounds)]
    print(f"| {name} | {min(taken):.0f} | {statistics.median(taken):.0f} |", flush=True)


def at_window(page: Tab, first: int) -> float:
    """The milliseconds until a window is shown."""
    change = WINDOW.format(first=first, last=first + 1439)
    found: float = page.value(UNTIL_SHOWN.format(change=change))
    time.sleep(0.3)
    return found


def at_key(page: Tab) -> float:
    """The milliseconds from a key to its answer."""
    found: float = page.value(UNTIL_SHOWN.format(change=KEY))
    time.sleep(0.3)
    return found


def first_paint(page: Tab, site: Served) -> float:
    open_page(page, site.link)
    wait_for(page, "performance.getEntriesByName('first-contentful-paint').length", 1)
    found: float = page.value("performance.getEntriesByName('first-contentful-paint')[0].startTime")
    forget(page)
    return found


def measure(page: Tab, site: Served, engine: str, rounds: int) -> None:
    row(f"{engine}: first paint", lambda: first_paint(page, site), rounds)
    for db, query in KEYS:
        answered(page, "query", "{ | 0 = 0 }")
        answered(page, "db", (EXAMPLES / db).read_text())
        answered(page, "query", (EXAMPLES / query).read_text() + "\n")
        row(f"{engine}: a key in {query}", lambda: at_key(page), rounds)
    for name, begin in (("here", 0), ("10 to the 15 minutes away", FAR)):
        starts = iter(range(begin, begin + 10_000 * rounds, 10_000))
        row(f"{engine}: a window {name}", lambda: at_window(page, next(starts)), rounds)
    forget(page)


NEXT = """(async () => {
  const count = () => document.querySelectorAll("#answers tbody tr").length;
  const before = count();
  const begun = performance.now();
  document.getElementById("more").click();
  while (count() === before) await new Promise((done) => requestAnimationFrame(done));
  return performance.now() - begun;
})()"""


def next_page(page: Tab) -> float:
    found: float = page.value(NEXT)
    time.sleep(0.3)
    return found


def measure_large(page: Tab, folder: Path, engine: str, more: dict[str, str], rounds: int) -> None:
    """The same over a database of 12 MB."""
    lines = "".join(
        f'  ({number}+100080n, {number + 7}+100080n, "Line {number % 90}") where arr = dep + 7;\n'
        for number in range(190_000)
    )
    (folder / "city.lrp").write_text(f"relation bus(dep: time, arr: time, line: line) {{\n{lines}}}\n")
    (folder / "some.lrq").write_text('{ d: time, a: time | (bus(d, a, "Line 5") or bus(d, a, "Line 6")) }\n')
    with served(folder, "db=city.lrp", "query=some.lrq", "to=99999", **more) as site:
        open_page(page, site.link)
        row(f"{engine}: 12 MB, a key in the query", lambda: at_key(page), rounds)
        row(f"{engine}: 12 MB, the next page", lambda: next_page(page), 3)
        starts = iter(range(0, 10_000 * rounds, 10_000))
        row(f"{engine}: 12 MB, another window", lambda: at_window(page, next(starts)), rounds)
        forget(page)


def main(rounds: int) -> None:
    library = os.environ.get("FIZHEDUL_LIBRARY")
    engines = {"program": {}, **({"library": {"FIZHEDUL_LIBRARY": library}} if library else {})}
    print(f"{os.cpu_count()} processors, load {os.getloadavg()[0]:.1f}\n\n| | least, ms | middle, ms |\n|---|---|---|")
    with tempfile.TemporaryDirectory() as name, tab(1400, 900) as page:
        for each in ("line.lrp", "trips.lrq"):
            Path(name, each).write_text((EXAMPLES / "guide" / each).read_text())
        for engine, more in engines.items():
            with served(Path(name), "db=line.lrp", "query=trips.lrq", **more) as site:
                measure(page, site, engine, rounds)
            measure_large(page, Path(name), engine, more, rounds)


if __name__ == "__main__":
    main(int(sys.argv[1]) if len(sys.argv) > 1 else 10)
