"""Pictures of a window, drawn by the workbench where it is installed."""

from importlib import import_module
from itertools import islice
from typing import TYPE_CHECKING, Any

if TYPE_CHECKING:
    from .queries import Query


def workbench(part: str) -> Any:
    """A module of the workbench. Raises ImportError where the workbench isn't there."""
    return import_module(f"fizhedul_workbench.{part}")


def svg_of_window(query: "Query", first: int, last: int, most: int) -> str:
    """The picture of a query's window with at most `most` marks.

    Raises ImportError where the workbench isn't there, or is older than this package.
    """
    marks, svg, page = workbench("draw.marks"), workbench("draw.svg"), workbench("draw.page")
    if not hasattr(marks, "laid_out"):
        raise ImportError("the workbench is older than this package")
    civil = query.database.civil
    found = list(islice(query.list(first, last), most + 1))
    answers = [[value if isinstance(value, int) else str(value) for value in answer] for answer in found[:most]]
    period = max((step.period for step in query.explain()), default=0)
    keys = {"is_civil": civil, "is_tense": query.tense} | ({"is_wide": True} if query.wide else {})
    question = workbench("program").Question("database", "query", first, last, **keys)
    picture = marks.laid_out(question, query.text, answers, len(found) > most, period=period)
    look = workbench("draw.look").Look(form="svg", with_dates=civil)
    drawn: str = svg.svg_of(picture, look, page.asset("picture.css"))
    return drawn
