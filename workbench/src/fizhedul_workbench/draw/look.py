"""How a picture is to look."""

import os
from dataclasses import dataclass

from ..words import usage

FORMS = {".html": "html", ".htm": "html", ".svg": "svg", ".png": "png"}


@dataclass(frozen=True)
class Look:
    """The form, the most marks, how many steps of time an hour has, whether the grid shows dates, whether the marks are
    ranges of answers, whether the plan is drawn in place of answers, whether with the cells of its steps, the width,
    and the least room for the names of lanes, so that pictures above each other have their times above each other."""

    form: str = "html"
    most: int = 10_000
    hour: int = 60
    with_dates: bool = False
    has_ranges: bool = False
    is_plan: bool = False
    has_cells: bool = False
    width: int = 1200
    least_gutter: int = 0


def form_of(file: str | None, form: str | None) -> str:
    """The form that is asked for, else that of the file's ending; the two have to agree."""
    if file is None:
        return form or "html"
    ending = os.path.splitext(file)[1]
    by_ending = FORMS.get(ending.lower())
    if by_ending is None and form is None:
        raise usage(f"'{file}' does not end in .html, .svg or .png; format=html|svg|png says what it is to be")
    if by_ending and form and by_ending != form:
        raise usage(f"'{file}' is to be {by_ending} by its ending, and {form} by its format")
    return form or by_ending or "html"
