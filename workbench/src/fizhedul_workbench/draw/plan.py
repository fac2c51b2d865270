"""A plan as a picture: a tree of its steps, with their periods and reaches."""

from pathlib import Path

from ..cells import Cells
from ..lexer import marked_up
from ..lrp import width
from ..plan import Node, facts_of, nodes_of, steps_of
from ..program import Question, answered
from .page import asset
from .svg import BAD, safe

LINE = 30
STEP_IN = 28
LETTER = 8
LEFT = 20
GAP = 40
FACTS = 300


def name_of(node: Node) -> str:
    return f"{node.step.number} {node.step.does}".translate(BAD)


def place_of(node: Node) -> int:
    """How far to the right the name of a node begins."""
    return LEFT + STEP_IN * len(node.ends)


def lines_to(nodes: list[Node]) -> str:
    """A line to each node from the one that it belongs to."""
    rows: list[int] = []
    found = []
    for row, node in enumerate(nodes):
        del rows[len(node.ends) :]
        if rows:
            x, y = place_of(node) - STEP_IN + 6, rows[-1] * LINE + LINE - 4
            found.append(f'<path d="M{x} {y}V{row * LINE + LINE // 2}H{place_of(node) - 6}"/>')
        rows.append(row)
    return "\n".join(found)


def text_of(node: Node, row: int, facts: int, cells: Cells | None) -> str:
    """A node: what its step does, and what is known of it."""
    y = row * LINE + LINE // 2 + 5
    kind = ' class="again"' if node.is_again else ""
    return (
        f'<g{kind}><text x="{place_of(node)}" y="{y}">{safe(name_of(node))}</text>'
        f'<text class="facts" x="{facts}" y="{y}">{facts_of(node, cells)}</text></g>'
    )


def size_of(nodes: list[Node], cells: Cells | None) -> tuple[int, int, int]:
    """The width and the height of the picture, and where the column of facts begins."""
    facts = max(place_of(node) + LETTER * width(name_of(node)) for node in nodes) + GAP
    wide = max(FACTS, max(LETTER * width(facts_of(node, cells)) for node in nodes) + GAP)
    return facts + wide, LINE * len(nodes) + 10, facts


def svg_of_plan(question: Question, cells: Cells | None = None) -> tuple[str, int, int]:
    """The picture, with its width and height; with cells where they were measured."""
    nodes = list(nodes_of(steps_of(answered(question.words("explain")))))
    across, down, facts = size_of(nodes, cells)
    texts = "\n".join(text_of(node, row, facts, cells) for row, node in enumerate(nodes))
    count = len({node.step.number for node in nodes})
    title = f"The plan: {count} step{'s' if count > 1 else ''}, the last one first."
    if cells:
        title = f"{title[:-1]}; {cells.told_of_all()}."
    svg = (
        f'<svg id="plan" xmlns="http://www.w3.org/2000/svg" viewBox="0 0 {across} {down}" width="{across}"'
        f' height="{down}" role="img" aria-label="{title}">\n<style>{asset("plan.css")}</style><title>{title}</title>\n'
        f'<rect class="ground" width="{across}" height="{down}"/>\n{lines_to(nodes)}\n{texts}\n</svg>\n'
    )
    return svg, across, down


def page_of_plan(question: Question, svg: str) -> str:
    """A page with the query and the picture."""
    query = Path(question.query).read_text(encoding="utf-8").strip().translate(BAD)
    return f"""<!DOCTYPE html>
<html lang="en">
<head>
<meta charset="utf-8">
<meta name="viewport" content="width=device-width, initial-scale=1">
<meta http-equiv="Content-Security-Policy" content="default-src 'none'; style-src 'unsafe-inline'; img-src data:">
<link rel="icon" href="data:,">
<title>Fizhedul: the plan of {safe(" ".join(query.split())[:120])}</title>
<style>
{asset("page.css")}
</style>
</head>
<body>
<pre class="query">{marked_up(query)}</pre>
<div style="overflow: auto">
{svg}</div>
</body>
</html>
"""
