"""Puts the outputs of parts together. Each of them is whole: its last line said so."""

import heapq
import re
import shutil
from collections.abc import Iterable, Iterator, Sequence
from itertools import groupby
from pathlib import Path
from typing import IO

from ..words import Refused
from .lines import Form, Order, least_first
from .run_part import CHUNK
from .windows import Window

EMPTY, NONEMPTY = b"Empty\n", b"Nonempty\n"
NUMBER = re.compile(rb"(0|[1-9][0-9]*)\n")


def is_page(output: Path, form: Form) -> bool:
    """Whether an output ends with the line that says that nothing is left."""
    end = form.end.encode()
    with open(output, "rb") as file:
        file.seek(max(0, output.stat().st_size - len(end) - 1))
        return file.read() in (end, b"\n" + end)


def is_decision(output: Path) -> bool:
    """Whether an output is that of `decide`."""
    text = output.read_bytes()
    return text == EMPTY or (text.startswith(NONEMPTY) and text.count(b"\n") == 2 and text.endswith(b"\n"))


def answers(output: Path, form: Form) -> Iterator[bytes]:
    """The lines of a page but the last one."""
    end = form.end.encode()
    with open(output, "rb") as file:
        for line in file:
            if line == end:
                return
            yield line


def in_window(output: Path, form: Form, window: Window) -> Iterator[bytes]:
    """The answers of a page whose first time lies in the window."""
    return (line for line in answers(output, form) if window.holds(form.first_time(line.decode())))


def blocks(output: Path, form: Form, window: Window) -> Iterator[bytes]:
    """All answers of a page, in blocks; the first and the last one have to lie in the window."""
    left = output.stat().st_size - len(form.end)
    with open(output, "rb") as file:
        first = file.readline() if left else b""
        file.seek(max(0, left - CHUNK))
        last = file.read(min(left, CHUNK)).rpartition(b"\n")[0].rpartition(b"\n")[2]
        for line in (first, last) if left and form.head.times else ():
            if not window.holds(form.first_time(line.decode())):
                raise Refused(f"an answer lies outside its part: {line.decode().strip()}")
        file.seek(0)
        while left:
            block = file.read(min(left, CHUNK))
            left -= len(block)
            yield block


def merge_windows(pages: Iterable[tuple[Window, Path]], form: Form, sink: IO[bytes]) -> None:
    """One page of the pages of windows that touch. Where answers have several times, pages see more than their
    windows, and an answer is of the window in which its first time lies."""
    choose = blocks if len(form.head.times) < 2 else in_window
    for window, output in pages:
        for piece in choose(output, form, window):
            sink.write(piece)
    sink.write(form.end.encode())


def merge_by_order(pages: Sequence[Path], form: Form, sink: IO[bytes]) -> None:
    """One page of pages of one window, each answer once."""

    def order(line: bytes) -> Order:
        return form.order(line.decode())

    before = b""
    for line in heapq.merge(*(answers(output, form) for output in pages), key=order):
        if line != before:
            sink.write(line)
        before = line
    sink.write(form.end.encode())


def least(decisions: Iterable[Path], form: Form) -> bytes:
    """What `decide` writes of all parts together: the least of their least answers."""
    lines = [text.removeprefix(NONEMPTY) for output in decisions if (text := output.read_bytes()) != EMPTY]
    if not lines:
        return EMPTY
    return NONEMPTY + min(lines, key=lambda line: least_first(form.order(line.decode())))


def is_number(output: Path) -> bool:
    """Whether an output is that of `count`."""
    return NUMBER.fullmatch(output.read_bytes()) is not None


def total(counts: Iterable[Path]) -> bytes:
    """What `count` writes of windows that touch: the sum of what it writes of each."""
    return b"%d\n" % sum(int(output.read_bytes()) for output in counts)


def is_answered(output: Path, names: Sequence[str]) -> bool:
    """Whether an output has lines of each of these questions, in this order."""
    found = [
        name for name, _ in groupby(output.read_bytes().split(b"\n")[:-1], key=lambda line: line.partition(b"\t")[0])
    ]
    return found == [name.encode() for name in names]


def join(parts: Iterable[Path], sink: IO[bytes]) -> None:
    """The outputs of parts, one after another."""
    for output in parts:
        with open(output, "rb") as file:
            shutil.copyfileobj(file, sink)
