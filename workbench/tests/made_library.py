"""The shared library for the tests of it: the one that is named, or one that is made of a proved archive."""

import functools
import os
import subprocess
import tempfile
from pathlib import Path

import pytest
from tools import TOP

ARCHIVE = TOP / "crates/lrp_c/out/liblrp_c.a"
BUILD = TOP / "packaging/library/build"
BINDINGS = TOP / "bindings/python"


@functools.cache
def made_folder() -> tempfile.TemporaryDirectory[str]:
    """A folder with the library, until the process ends."""
    folder = tempfile.TemporaryDirectory()
    subprocess.run([str(BUILD), folder.name], check=True, capture_output=True)
    return folder


def shared_library() -> str:
    """The library. What needs it is left out where there is none."""
    named = os.environ.get("FIZHEDUL_LIBRARY")
    if named:
        return named
    if not ARCHIVE.exists() and not os.environ.get("FIZHEDUL_ARCHIVE"):
        pytest.skip("there is no library; packaging/library/archive makes its archive")
    return str(Path(made_folder().name) / "lib/libfizhedul.so.1")
