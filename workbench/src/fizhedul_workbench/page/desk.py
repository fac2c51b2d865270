"""What the server keeps for each tab: its texts, and the work that is under way for it."""

import asyncio
from collections import OrderedDict
from collections.abc import Coroutine
from dataclasses import dataclass, field
from typing import Any, TypeVar

MOST_TABS = 24
KINDS = ("db", "query", "base", "pinned")
Result = TypeVar("Result")


class Missing(Exception):
    """Texts of which the server has no such version."""

    def __init__(self, kinds: list[str]) -> None:
        super().__init__(", ".join(kinds))
        self.kinds = kinds


class Superseded(Exception):
    """A later question of the same kind took the place of this one, or it was stopped."""


@dataclass
class Tab:
    """What came from a tab: its texts, each with a version, and the greatest number of a request in each lane."""

    texts: dict[str, tuple[int, bytes]] = field(default_factory=dict)
    last: dict[str, int] = field(default_factory=dict)


class Desk:
    """The texts of tabs, and one piece of work at a time in each lane of a tab."""

    def __init__(self) -> None:
        self.tabs: OrderedDict[str, Tab] = OrderedDict()
        self.work: dict[tuple[str, str], asyncio.Task[Any]] = {}

    def tab(self, name: str) -> Tab:
        """A tab, which is the last one that asked."""
        found = self.tabs.setdefault(name, Tab())
        self.tabs.move_to_end(name)
        while len(self.tabs) > MOST_TABS:
            self.tabs.popitem(last=False)
        return found

    def takes(self, tab: str, lane: str, number: int) -> bool:
        """Whether a request comes before the others of its lane that were sent after it; a late one is left out."""
        last = self.tab(tab).last
        if number < last.get(lane, number):
            return False
        last[lane] = number
        return True

    def texts(self, tab: str, sent: dict[str, tuple[int, str | None]]) -> dict[str, bytes]:
        """The texts of these versions; those that came along are kept, in the place of older ones."""
        kept = self.tab(tab).texts
        for kind, (version, text) in sent.items():
            if text is not None and version >= kept.get(kind, (version, b""))[0]:
                kept[kind] = version, text.encode()
        missing = [kind for kind, (version, _) in sent.items() if kept.get(kind, (None, b""))[0] != version]
        if missing:
            raise Missing(missing)
        return {kind: kept[kind][1] for kind in sent}

    async def alone(self, tab: str, lane: str, work: Coroutine[Any, Any, Result]) -> Result:
        """Does some work; what goes on in its lane is ended."""
        self.stop(tab, lane)
        task = asyncio.ensure_future(work)
        self.work[tab, lane] = task
        try:
            return await asyncio.shield(task)
        except asyncio.CancelledError:
            if task.cancelled():
                raise Superseded from None
            task.cancel()
            raise
        finally:
            if self.work.get((tab, lane)) is task:
                del self.work[tab, lane]

    def stop(self, tab: str, lane: str) -> None:
        task = self.work.get((tab, lane))
        if task is not None:
            task.cancel()
