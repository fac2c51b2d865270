"""Plans, as `explain` writes them: their steps, and the tree that these make."""

import re
from collections.abc import Iterator, Sequence
from dataclasses import dataclass

from .cells import Cells

LINE = re.compile(r"(\d+) ([a-z]+) ?(.*) \[period (\d+), reach (\d+)\]")
# How many earlier steps each kind of step names; the others name none.
NAMED = {"join": 2, "union": 2, "minus": 2, "select": 1, "complement": 1, "drop": 1, "head": 1}


@dataclass(frozen=True)
class Step:
    """A step: its number, what it does, the numbers of the steps that it does this with, its period and its reach."""

    number: int
    does: str
    uses: tuple[int, ...]
    period: int
    reach: int


@dataclass(frozen=True)
class Node:
    """A step as a node of the tree. `ends` says of each node on the way to it whether it is the last one of its parent;
    a step that stands in the tree already is a node without others below it."""

    step: Step
    ends: tuple[bool, ...]
    is_again: bool


def step_of(line: str) -> Step:
    """The step that a line of a plan tells."""
    found = LINE.fullmatch(line)
    assert found is not None, line
    number, kind, rest, period, reach = found.groups()
    words = rest.split(" ", NAMED.get(kind, 0))
    uses = words[: NAMED.get(kind, 0)]
    does = " ".join([kind, *words[len(uses) :]])
    return Step(int(number), does, tuple(map(int, uses)), int(period), int(reach))


def steps_of(text: str) -> list[Step]:
    return [step_of(line) for line in text.splitlines()]


def nodes_of(steps: Sequence[Step]) -> Iterator[Node]:
    """The nodes of the tree, each before those below it: the last step, and the steps that it is made of."""
    shown: set[int] = set()
    left: list[tuple[int, tuple[bool, ...]]] = [(len(steps), ())]
    while left:
        number, ends = left.pop()
        step = steps[number - 1]
        yield Node(step, ends, number in shown)
        if number not in shown:
            shown.add(number)
            below = list(enumerate(step.uses, 1))
            left += [(use, (*ends, place == len(below))) for place, use in reversed(below)]


def branch_of(node: Node) -> str:
    """What stands before a node in a text: the lines from the nodes above it."""
    if not node.ends:
        return ""
    return "".join("   " if is_last else "│  " for is_last in node.ends[:-1]) + ("└─ " if node.ends[-1] else "├─ ")


def facts_of(node: Node, cells: Cells | None) -> str:
    """What is known of a node: its period and its reach, and the cells that it fills where they were measured."""
    if node.is_again:
        return "as above"
    told = cells.told(node.step.number) if cells else ""
    return f"period {node.step.period}, reach {node.step.reach}" + (f", {told}" if told else "")


def tree_of(text: str, cells: Cells | None = None) -> list[str]:
    """The tree of a plan, a line for each node, with what is known of it in a column."""
    nodes = list(nodes_of(steps_of(text)))
    names = [f"{branch_of(node)}{node.step.number} {node.step.does}" for node in nodes]
    width = max(map(len, names))
    return [f"{name:{width}}  {facts_of(node, cells)}" for name, node in zip(names, nodes)]
