"""What a tab sends, read with care: anything that isn't as it should be is refused."""

from dataclasses import dataclass, field
from typing import Any

from ..civil import LAST, FIRST, minute_of
from ..lrp import LIMIT
from ..program import Answer
from .asking import Matter

Body = dict[str, Any]


class Unfit(Exception):
    """A request that no page sends."""


@dataclass(frozen=True)
class Sent:
    """A request: the tab, the lane, the texts with their versions, and the rest of the body."""

    tab: str
    lane: str
    texts: dict[str, tuple[int, str | None]]
    body: Body = field(default_factory=dict)

    def text(self, key: str) -> str:
        return str(of(self.body, key, str))

    def flag(self, key: str) -> bool:
        return bool(self.body.get(key, False))

    def number(self, key: str, least: int, most: int, default: int) -> int:
        return number_in(self.body, key, least, most, default)

    def window(self, is_civil: bool) -> tuple[int, int]:
        return end_of(self.text("from"), is_civil), end_of(self.text("to"), is_civil)

    def matter(self, texts: dict[str, bytes], query: str = "query") -> Matter:
        """The query over the database, with the settings that were sent."""
        cap = self.number("cap", 1, 1_000_000_000, 1_000_000)
        flags = self.flag("civil"), self.flag("tense"), not self.flag("written")
        return Matter(texts["db"], texts.get(query, b""), *flags, cap, self.flag("wide"))

    def answer(self, columns: list[tuple[str, str]]) -> Answer:
        """A tuple of the query's head; its times come as texts, since a browser's numbers are too short for them."""
        values = of(self.body, "answer", list)
        if len(values) != len(columns) or not all(isinstance(value, str) for value in values):
            raise Unfit("a tuple has a text for each column")
        return [time_of(value) if sort == "time" else value for value, (_, sort) in zip(values, columns)]


def number_in(body: Body, key: str, least: int, most: int, default: int) -> int:
    value = body.get(key, default)
    if not isinstance(value, int) or isinstance(value, bool) or not least <= value <= most:
        raise Unfit(f"{key} is a whole number from {least} to {most}")
    return value


def of(body: Body, key: str, kind: type) -> Any:
    value = body.get(key)
    if not isinstance(value, kind):
        raise Unfit(f"{key} is missing, or is of another kind")
    return value


def sent(body: Any, kinds: tuple[str, ...]) -> Sent:
    """The request that a body is."""
    if not isinstance(body, dict):
        raise Unfit("a request is an object")
    texts = {}
    for kind, given in of(body, "texts", dict).items():
        if kind not in kinds or not isinstance(given, dict) or not isinstance(given.get("version"), int):
            raise Unfit("a text has a kind and a version")
        text = given.get("text")
        if text is not None and not isinstance(text, str):
            raise Unfit("a text is a text")
        texts[kind] = given["version"], text
    return Sent(short(body, "tab"), short(body, "lane"), texts, body)


def short(body: Body, key: str) -> str:
    value: str = of(body, key, str)
    if not 1 <= len(value) <= 64:
        raise Unfit(f"{key} has 1 to 64 letters")
    return value


def time_of(text: str) -> int:
    """A time, as a number or as a date."""
    found = minute_of(text)
    return whole_number(text) if found is None else found


def whole_number(text: str) -> int:
    digits = text.removeprefix("-")
    if not (digits.isascii() and digits.isdigit() and len(digits) < 25):
        raise Unfit(f"'{text[:40]}' is no whole number")
    return int(text)


def end_of(text: str, is_civil: bool) -> int:
    """An end of a window, inside of the times that there are."""
    least, most = (FIRST, LAST) if is_civil else (-LIMIT, LIMIT)
    return min(max(time_of(text), least), most)
