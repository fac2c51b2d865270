"""The library for C, built once for the tests that are about it."""

import fcntl
import functools
import os
import subprocess
import tempfile
import unittest
from pathlib import Path

from support import TOP, need

NAMED = os.environ.get("FIZHEDUL_ARCHIVE")
ARCHIVE = Path(NAMED or TOP / "crates/lrp_c/out/liblrp_c.a")
BUILD = TOP / "packaging/library"


def is_stale() -> bool:
    """Whether the archive is missing, or older than a source."""
    if NAMED or not ARCHIVE.exists():
        return not ARCHIVE.exists()
    built = ARCHIVE.stat().st_mtime
    return any(source.stat().st_mtime > built for source in TOP.glob("crates/*/src/**/*.rt"))


def call(*words: str | Path) -> subprocess.CompletedProcess[str]:
    """Runs a part of the build."""
    return subprocess.run(words, stdin=subprocess.DEVNULL, capture_output=True, text=True, check=False)


@functools.cache
def made_folder() -> tempfile.TemporaryDirectory[str]:
    """A folder with the library, until the process ends. Raises SkipTest where nothing can be built."""
    for tool in ("cc", "ld", "ar", "objcopy", "nm"):
        need(tool)
    with open(BUILD / "archive", encoding="utf-8") as turn:
        # Of the tests that run side by side the first one builds the archive.
        fcntl.flock(turn, fcntl.LOCK_EX)
        if is_stale():
            done = call(BUILD / "archive")
            if done.returncode:
                raise unittest.SkipTest(f"there is no archive at {ARCHIVE}: {(done.stderr or done.stdout).strip()[-300:]}")
    folder = tempfile.TemporaryDirectory()
    done = call(BUILD / "build", folder.name)
    if done.returncode:
        raise AssertionError(done.stderr)
    return folder


def library() -> Path:
    """The folder in which the library lies as it is installed."""
    return Path(made_folder().name)


def shared_library() -> Path:
    """The shared library."""
    return library() / "lib/libfizhedul.so.1"
