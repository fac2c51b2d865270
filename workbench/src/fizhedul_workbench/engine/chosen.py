"""Which engine answers: what the variables FIZHEDUL_PROGRAM and FIZHEDUL_LIBRARY name, and what was built."""

import os
from pathlib import Path

from ..words import MISSING, Refused

TOP = Path(__file__).resolve().parents[4]
CRATES = TOP / "crates"
# Where a clone has the program and the library that were built from it; an installation has the program beside it.
PROGRAMS = (CRATES / "lrp_main/out/lrp_main", TOP / "lrp_main")
LIBRARY = CRATES / "lrp_c/out/library/lib/libfizhedul.so.1"


def program_path() -> str:
    """The program that the variable FIZHEDUL_PROGRAM names, else the repository's launcher."""
    return os.environ.get("FIZHEDUL_PROGRAM") or str(TOP / "fizhedul")


def built_program() -> str:
    """The program itself, without the launcher, which looks at each call whether it is stale; empty where it is not
    built."""
    built = (str(each) for each in PROGRAMS if os.access(each, os.X_OK))
    return os.environ.get("FIZHEDUL_PROGRAM", "") or next(built, "")


def library_path() -> str | None:
    """The shared library that answers, by its path, or empty for that of the system; None where the program answers.

    It is the one that FIZHEDUL_LIBRARY names. Where a program is named and no library, that program answers. A clone
    has its own library, once it was built and as long as it isn't older than its sources.
    """
    if os.environ.get("FIZHEDUL_LIBRARY"):
        return needed_library()
    if os.environ.get("FIZHEDUL_PROGRAM"):
        return None
    if CRATES.is_dir():
        return str(LIBRARY) if is_current(LIBRARY) and can_load(str(LIBRARY)) else None
    return "" if can_load("") else None


def needed_library() -> str:
    """The shared library that there should be, which is refused where it is missing."""
    found = os.environ.get("FIZHEDUL_LIBRARY") or (str(LIBRARY) if CRATES.is_dir() else "")
    need_library(found)
    return found


def is_current(built: Path) -> bool:
    """Whether a library is there, and no source is newer."""
    try:
        made = built.stat().st_mtime_ns
        return all(each.stat().st_mtime_ns <= made for each in CRATES.glob("*/src/**/*.rt"))
    except OSError:
        return False


def need_library(path: str) -> None:
    """Refuses where the library, or its Python package, is missing."""
    try:
        from fizhedul.engine import MissingLibrary, load
    except ImportError:
        raise Refused("the Debian package python3-fizhedul is missing", MISSING) from None
    try:
        load(path)
    except MissingLibrary as fault:
        raise Refused(str(fault), MISSING) from None


def can_load(path: str) -> bool:
    try:
        need_library(path)
    except Refused:
        return False
    return True
