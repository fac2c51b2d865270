"""What is told of a spread question: the table of its parts, and the line on how its result was made."""

from collections.abc import Mapping, Sequence
from typing import Any

from .rounds import Run
from .store import Cause, Done

MOST_ROWS = 24
HEADER = ("part", "of", "seconds", "processor", "memory", "runs", "tries", "machine")


def memory(report: Mapping[str, Any]) -> str:
    """The most memory of the program, where it is more than what is not seen."""
    used, unseen = report.get("memory", 0), report.get("unseen", 0)
    return f"{used / 1e6:.0f} MB" if used > 1.05 * unseen else f"under {1.05 * unseen / 1e6:.0f} MB"


def cells(run: Run) -> tuple[str, ...]:
    """The cells of a part's row."""
    report = run.outcome.report if isinstance(run.outcome, Done | Cause) else {}
    tries = "kept" if run.was_there else str(len(run.failures) + run.is_settled)
    return (
        str(run.number),
        run.what,
        f"{report.get('seconds', 0):.2f}",
        f"{report.get('processor', 0):.2f}",
        memory(report) if report else "",
        str(report.get("runs", 0)),
        tries,
        str(report.get("machine", "")),
    )


def seconds(run: Run) -> float:
    return float(run.outcome.report["seconds"]) if isinstance(run.outcome, Done | Cause) else 0.0


def table(runs: Sequence[Run]) -> str:
    """A row for each part; of many parts those that were tried again, and those that took longest."""
    by_weight = sorted(runs, key=lambda run: (not run.failures, -seconds(run)))
    shown = {run.number for run in by_weight[:MOST_ROWS]}
    rows = [HEADER, *(cells(run) for run in runs if run.number in shown)]
    widths = [max(len(row[place]) for row in rows) for place in range(len(HEADER))]
    lines = ["  ".join(cell.ljust(width) for cell, width in zip(row, widths)).rstrip() for row in rows]
    if len(runs) > len(shown):
        lines.append(f"and {len(runs) - len(shown)} parts more, each of which took less")
    processor = sum(float(run.outcome.report["processor"]) for run in runs if isinstance(run.outcome, Done | Cause))
    lines.append(f"{len(runs)} parts, {processor:.2f} s of processors in all")
    for run in runs:
        lines += [f"part {run.number} was tried again: {why}" for why in run.failures]
    return "".join(f"{line}\n" for line in lines)
