"""What the page asks of the engine: a window, the next page, the least answer, the plan, and what a database has."""

import json
import re
import shlex
from collections.abc import Mapping
from dataclasses import dataclass, replace
from typing import NoReturn

from starlette.concurrency import run_in_threadpool

from ..civil import minute_of, window_end
from ..engine.asked import Asked, Engine, Told
from ..lrp import LIMIT, written_text
from ..program import Answer, Page, Ranges, page_of, ranges_of
from ..queries import head_of
from .faults import Fault, fault_of

PLANNED = ("ask", "decide", "list", "explain", "count", "ranges")
HEAD = re.compile(r"relation (\w+)\((.*)\) \{")
TEXT = re.compile(r'"((?:[^"\\]|\\.)*)"')
STEP = re.compile(r"(\d+) (\w+)(.*) \[period (\d+), reach (\d+)\]")
OPERANDS = {"join": 2, "union": 2, "minus": 2, "select": 1, "complement": 1, "drop": 1, "head": 1}
MOST_TEXTS = 500
LIMIT_TEXT = str(LIMIT)


class Failed(Exception):
    """The engine refused, or ended."""

    def __init__(self, fault: Fault, seconds: float = 0.0) -> None:
        super().__init__(fault.line)
        self.fault = fault
        self.seconds = seconds


@dataclass(frozen=True)
class Matter:
    """A query over a database, as texts, and how both are read, planned and bounded; of a database that is asked once
    only, nothing is kept."""

    db: bytes
    query: bytes = b""
    is_civil: bool = False
    is_tense: bool = False
    is_guarded: bool = True
    cap: int = 1_000_000
    is_wide: bool = False
    is_once: bool = False

    def asking(self, command: str, **keys: str) -> Asked:
        """A command on this matter."""
        texts = {"db": self.db} if command == "check" else {"db": self.db, "query": self.query}
        return Asked(command, texts, {**self.keys(command), **keys}, self.is_once)

    def keys(self, command: str) -> dict[str, str]:
        """The keys of a command that this matter sets, without those that say what holds anyway."""
        found = {}
        if command not in ("check", "explain", "lint") and self.cap != 1_000_000:
            found["cap"] = str(self.cap)
        if self.is_guarded and command in PLANNED:
            found["plan"] = "guarded"
        if self.is_tense and command in (*PLANNED, "lint"):
            found["tense"] = "yes"
        if self.is_wide and command in PLANNED:
            found["wide"] = "yes"
        if self.is_civil and command != "watch":
            found["civil"] = "yes"
        return found

    def about(self, query: str) -> "Matter":
        """Another query over the same database."""
        return replace(self, query=query.encode())

    def ends(self, first: int, last: int) -> dict[str, str]:
        """A window as the engine takes it."""
        if self.is_civil:
            return {"from": window_end(first), "to": window_end(last)}
        return {"from": str(first), "to": str(last)}

    def columns(self) -> list[tuple[str, str]]:
        return head_of(self.query.decode(errors="replace"))


async def told_by(engine: Engine, asked: Asked) -> Told:
    """What the engine wrote, where it wrote all of it; else its refusal is explained and raised."""
    told = await engine.run(asked)
    if told.status:
        await refuse(asked, told)
    return told


async def refuse(asked: Asked, told: Told) -> NoReturn:
    raise Failed(await run_in_threadpool(fault_of, asked, told), told.seconds)


async def page_in(engine: Engine, matter: Matter, ends: tuple[int, int], limit: int, after: str | None = None) -> Page:
    """A page of the answers in a window."""
    keys = {**matter.ends(*ends), "limit": str(limit), "form": "json"}
    told = await told_by(engine, matter.asking("list", **keys, **({"after": after} if after else {})))
    return page_of(told.text)


async def ranges_in(engine: Engine, matter: Matter, ends: tuple[int, int], limit: int) -> Ranges:
    """The first ranges of the answers in a window."""
    keys = {**matter.ends(*ends), "limit": str(limit), "form": "json"}
    return ranges_of((await told_by(engine, matter.asking("ranges", **keys))).text)


async def count_in(engine: Engine, matter: Matter, ends: tuple[int, int]) -> str | None:
    """The number of answers in a window, where the engine counts them: with one column of time at most."""
    if sum(sort == "time" for _, sort in matter.columns()) > 1:
        return None
    told = await engine.run(matter.asking("count", **matter.ends(*ends)))
    return None if told.status else told.text.strip()


async def least_of(engine: Engine, matter: Matter) -> Answer | None:
    """The answer nearest to 0, its times as numbers, or None."""
    told = await told_by(engine, matter.asking("decide"))
    word, *rest = told.text.splitlines()
    if word == "Empty":
        return None
    found: Answer = [] if rest == ["()"] else json.loads(f"[{rest[0]}]")
    return found


async def plan_of(engine: Engine, matter: Matter) -> list[dict[str, object]]:
    """The steps of the plan: number, operation, operands, period and reach, in order."""
    told = await told_by(engine, matter.asking("explain"))
    steps = []
    for line in told.text.splitlines():
        found = STEP.fullmatch(line)
        if found:
            number, operation, rest, period, reach = found.groups()
            count = OPERANDS.get(operation, 0)
            operands = [int(word) for word in rest.split()[:count]]
            said = " ".join([operation, *rest.split(" ")[1 + count :]])
            steps.append({"step": int(number), "said": said, "of": operands, "period": period, "reach": reach})
    return steps


async def schema_of(engine: Engine, matter: Matter) -> dict[str, object]:
    """What a database has: relations with columns and numbers of rows, and the texts of each sort."""
    told = await told_by(engine, matter.asking("check"))
    return await run_in_threadpool(read_schema, told.text)


def read_schema(written: str) -> dict[str, object]:
    """The schema that a database has, as `check` writes it."""
    relations: list[dict[str, object]] = []
    texts: dict[str, dict[str, None]] = {}
    sorts: list[str] = []
    rows = 0
    for line in written.splitlines():
        head = HEAD.fullmatch(line)
        if head:
            columns = [part.split(": ") for part in head.group(2).split(", ") if part]
            sorts = [sort for _, sort in columns if sort != "time"]
            relations.append({"name": head.group(1), "columns": columns, "rows": 0})
            rows = 0
        elif line.startswith("  (") and relations:
            rows += 1
            relations[-1]["rows"] = rows
            for sort, text in zip(sorts, TEXT.findall(line)):
                known = texts.setdefault(sort, {})
                if len(known) < MOST_TEXTS:
                    known[text.replace('\\"', '"').replace("\\\\", "\\")] = None
    return {"relations": relations, "texts": {sort: list(known) for sort, known in texts.items()}}


def number_of(value: int | str) -> int:
    """A time as its number, also where it is shown as a date."""
    found = value if isinstance(value, int) else minute_of(value)
    return 0 if found is None else found


def fixing(columns: list[tuple[str, str]], answer: Answer) -> list[str]:
    """The tests that a tuple, and no other, meets."""
    tests = []
    for (name, sort), value in zip(columns, answer):
        tests.append(f"{name} = {number_of(value)}" if sort == "time" else f"{name} = {written_text(str(value))}")
    return tests


def shell_words(asked: Asked, files: Mapping[str, str | None]) -> str:
    """The words that give the same on the command line; a text without a file stands in them itself."""
    words = ["./fizhedul", asked.command]
    for key, content in asked.texts.items():
        text = content.decode(errors="replace")
        words.append(f"{key}={files.get(key) or ' '.join(without_comments(text).split())}")
    words += [f"{key}={value}" for key, value in asked.keys.items() if (key, value) != ("form", "json")]
    return shlex.join(words)


def without_comments(text: str) -> str:
    return re.sub(r'("(?:[^"\\]|\\.)*")|#[^\n]*', lambda found: found.group(1) or "", text)
