"""The page as one file to share: the window with its picture and table, the database, the plan, and the words."""

from dataclasses import replace

from ..draw.look import Look
from ..draw.marks import laid_out
from ..draw.page import page_of
from ..draw.svg import safe
from ..program import Answer, Question
from .asking import page_in, plan_of, shell_words
from .views import Asking, bars

MOST_ANSWERS = 10_000
PAGE = 2_000


async def shared(asking: Asking) -> str:
    """The page, read only; nothing in it is from elsewhere."""
    matter = asking.matter
    first, last = asking.ends
    steps = await plan_of(asking.engine, matter)
    period = int(str(steps[-1]["period"])) if steps else 0
    has_bars = asking.has_bars(matter)
    if has_bars:
        drawn = replace((await bars(asking, matter, MOST_ANSWERS))[1], period=period)
    else:
        answers, more = await all_answers(asking)
        question = Question("", "", first, last, None, matter.is_civil)
        drawn = laid_out(question, matter.query.decode(), answers, more, period=period)
    look = Look("html", MOST_ANSWERS, asking.hour, matter.is_civil or asking.sent.flag("dates"))
    words = shell_words(matter.asking("ranges" if has_bars else "list", **matter.ends(first, last)), asking.files)
    plan = "\n".join(
        f"{step['step']} {step['said']}, from {step['of']}" if step["of"] else f"{step['step']} {step['said']}"
        for step in steps
    )
    parts = {"The database": matter.db.decode(), "The plan": plan, "The same on the command line": words}
    return page_of(drawn, look, "".join(folded(title, text) for title, text in parts.items()))


def folded(title: str, text: str) -> str:
    return f'<details><summary>{safe(title)}</summary><pre class="query">{safe(text)}</pre></details>\n'


async def all_answers(asking: Asking) -> tuple[list[Answer], bool]:
    """The answers of the window, page by page, and whether more are left."""
    found: list[Answer] = []
    after = None
    while len(found) < MOST_ANSWERS:
        page = await page_in(asking.engine, asking.matter, asking.ends, PAGE, after)
        found += page.answers
        after = page.more
        if after is None:
            break
    return found, after is not None
