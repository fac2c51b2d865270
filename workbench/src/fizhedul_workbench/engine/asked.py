"""What an engine is asked, what it tells, and what an engine is."""

from collections.abc import Mapping, Sequence
from dataclasses import dataclass, field
from typing import Protocol

ENDINGS = {"db": ".lrp", "query": ".lrq", "edits": ".lre"}


@dataclass(frozen=True)
class Asked:
    """A command of the program with its keys, and the texts that stand for its files, by the keys of these; of a
    database that is asked once only, nothing is kept."""

    command: str
    texts: Mapping[str, bytes]
    keys: Mapping[str, str] = field(default_factory=dict)
    is_once: bool = False

    def words(self, files: Mapping[str, str]) -> list[str]:
        """The words of the program, where its files have these names."""
        return [self.command, *(f"{key}={value}" for key, value in {**files, **self.keys}.items())]


@dataclass(frozen=True)
class Told:
    """What the engine wrote, its status, the seconds that it took, and the files that had the texts."""

    status: int
    text: str
    seconds: float = 0.0
    files: Mapping[str, str] = field(default_factory=dict)

    @property
    def refusal(self) -> str:
        """The refusal's line; empty where the output was written whole, or where the engine was ended."""
        return self.text.strip() if self.status > 0 else ""

    @property
    def is_ended(self) -> bool:
        """Whether the engine ended before it had told anything, by a signal."""
        return self.status < 0


class Engine(Protocol):
    """What answers questions about texts, several at a time; cancelling a call ends its work."""

    name: str

    async def ready(self) -> None:
        """Does beforehand what the first question would wait for."""

    async def run(self, asked: Asked) -> Told:
        ...

    async def close(self) -> None:
        ...


class WordsEngine(Protocol):
    """What answers the words of the program, whose files are files, one after another."""

    name: str

    def run(self, words: Sequence[str]) -> tuple[int, bytes]:
        """The status and the text; an interrupt ends the work too, and is passed on."""

    def close(self) -> None:
        ...
