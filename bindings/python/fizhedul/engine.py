"""The shared library: words and files in, a status and a text out."""

import ctypes
import os
from collections.abc import Callable, Iterable, Mapping, Sequence
from functools import cache
from mmap import MAP_ANONYMOUS, MAP_PRIVATE, mmap
from pathlib import Path
from threading import Lock, local
from typing import Any, NamedTuple

NAME = "libfizhedul.so.1"
ROOM = 1 << 24


class MissingLibrary(OSError):
    """The shared library can't be loaded."""


class Output(NamedTuple):
    """What the program would write for some words, and its status."""

    status: int
    text: bytes


class Handle(ctypes.Structure):
    """What the library has of files that it keeps, as `fizhedul.h` says."""

    _fields_ = [("is_open", ctypes.c_uint8), ("memory", ctypes.c_void_p)]


@cache
def library() -> ctypes.CDLL:
    """The shared library, which is loaded once: the one that FIZHEDUL_LIBRARY names, that of the package, or that of
    the system.

    Raises MissingLibrary where there is none.
    """
    return load(os.environ.get("FIZHEDUL_LIBRARY", ""))


def load(path: str) -> ctypes.CDLL:
    """The shared library of a path; where that is empty, the one of the package, or that of the system.

    Raises MissingLibrary where it can't be loaded.
    """
    beside = Path(__file__).with_name(NAME)
    name = path or (str(beside) if beside.exists() else NAME)
    size, text = ctypes.c_size_t, ctypes.c_char_p
    handle = ctypes.POINTER(Handle)
    room = [ctypes.c_void_p, size, ctypes.POINTER(size)]
    call: list[Any] = [text, size, text, size, *room]
    try:
        loaded = ctypes.CDLL(name)
        loaded.fizhedul_run.argtypes = call
        loaded.fizhedul_open.argtypes = [text, size, handle]
        loaded.fizhedul_ask.argtypes = [handle, *call]
        loaded.fizhedul_close.argtypes = [handle]
    except (OSError, AttributeError) as fault:
        raise MissingLibrary(f"the shared library {name} can't be loaded: {fault}") from fault
    return loaded


def is_available() -> bool:
    """Whether the shared library is there."""
    try:
        library()
    except MissingLibrary:
        return False
    return True


def packed(texts: Iterable[bytes]) -> bytes:
    """Byte strings in one, each after its length.

    >>> packed([b"ask", b""]).hex(" ", -8)
    '0300000000000000 61736b0000000000 000000'
    """
    return b"".join(len(text).to_bytes(8, "little") + text for text in texts)


def packed_words(words: Iterable[str]) -> bytes:
    """Words as the library takes them."""
    return packed(word.encode("utf-8", "surrogateescape") for word in words)


def packed_files(files: Mapping[str, bytes]) -> bytes:
    """Files as the library takes them: of each its name, and then its bytes."""
    return packed(part for name, text in files.items() for part in (name.encode("utf-8", "surrogateescape"), text))


def run(words: Sequence[str], files: Mapping[str, bytes]) -> Output:
    """What the program writes for these words, over files that have the names in the words.

    >>> run(["check", "db=a"], {"a": b"relation r(t: time) { (0+2n); }"}).text
    b'relation r(t: time) {\\n  (0+2n);\\n}\\n'
    >>> run(["check", "db=a"], {})
    Output(status=6, text=b'refused: read of database\\n')
    """
    call, asked, held = library().fizhedul_run, packed_words(words), packed_files(files)
    return told_by(lambda *out: int(call(asked, len(asked), held, len(held), *out)))


class Room(local):
    """Where a text is written, of which each thread and each process has its own.

    Pages of it that nothing wrote to take no memory.
    """

    def __init__(self) -> None:
        self.make(ROOM)

    def make(self, size: int) -> None:
        """Room for a text of this length."""
        self.size = size
        self.pages = (ctypes.c_char * size).from_buffer(mmap(-1, size, MAP_PRIVATE | MAP_ANONYMOUS))
        self.place = ctypes.addressof(self.pages)


ROOMS = Room()


def told_by(call: Callable[..., int]) -> Output:
    """What a call tells, which is made again with more room where its text is longer than the room."""
    length = ctypes.c_size_t()
    while True:
        status = call(ROOMS.place, ROOMS.size, ctypes.byref(length))
        if length.value <= ROOMS.size:
            return Output(status, ctypes.string_at(ROOMS.place, length.value))
        ROOMS.make(length.value)


class Kept:
    """Files that the library keeps from one question to the next, as what it reads of them. Threads may share it.

    Raises MemoryError where the library is refused memory for the files.

    >>> kept = Kept({"a": b"relation r(t: time) { (0+2n); }"})
    >>> kept.run(["decide", "db=a", "query=q"], {"q": b"{ t: time | r(t) }"}).text
    b'Nonempty\\n0\\n'
    """

    def __init__(self, files: Mapping[str, bytes]) -> None:
        self.library = library()
        self.handle, self.lock = Handle(), Lock()
        held = packed_files(files)
        if self.library.fizhedul_open(held, len(held), ctypes.byref(self.handle)):
            raise MemoryError("the library was refused memory for the files")

    def run(self, words: Sequence[str], files: Mapping[str, bytes]) -> Output:
        """What the program writes for these words over these files in front of those that are kept."""
        call, asked, held = self.library.fizhedul_ask, packed_words(words), packed_files(files)
        handle = ctypes.byref(self.handle)
        with self.lock:
            return told_by(lambda *out: int(call(handle, asked, len(asked), held, len(held), *out)))

    def __del__(self) -> None:
        if hasattr(self, "handle"):
            self.library.fizhedul_close(ctypes.byref(self.handle))
