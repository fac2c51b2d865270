"""A package in the place of the library's, and what it tells of its calls."""

import json
from pathlib import Path
from typing import Any

import pytest
from tools import PROGRAM

# A package in the place of the library: it asks the program, waits at some words, and ends at others. It tells which
# databases it opened and closed.
PACKAGE = """
import json, os, subprocess, tempfile, time
from typing import NamedTuple
class MissingLibrary(OSError):
    pass
class Output(NamedTuple):
    status: int
    text: bytes
def tell(*what):
    with open(os.environ["TOLD"], "a") as file:
        file.write(json.dumps([os.getpid(), *what]) + chr(10))
def load(path):
    if path == "none":
        raise MissingLibrary("the shared library none can't be loaded: it isn't there")
def run(words, files):
    tell("run", *words[:1])
    if "cap=13" in words:
        os.kill(os.getpid(), 9)
    if "cap=14" in words:
        time.sleep(3000)
    if "cap=15" in words:
        time.sleep(0.05)
    with tempfile.TemporaryDirectory() as folder:
        for name, text in files.items():
            open(os.path.join(folder, name.replace("/", "_")), "wb").write(text)
        named = [word.replace("/", "_") for word in words]
        done = subprocess.run([os.environ["FIZHEDUL_PROGRAM"], *named], cwd=folder, capture_output=True)
    return Output(done.returncode, done.stdout)
class Kept:
    def __init__(self, files):
        self.files = dict(files)
        tell("open", *(len(text) for text in files.values()))
    def run(self, words, files):
        return run(words, {**self.files, **files})
    def __del__(self):
        tell("close", *(len(text) for text in self.files.values()))
"""


def standin(folder: Path, monkeypatch: pytest.MonkeyPatch) -> str:
    """Puts the package into a folder, which is given back."""
    monkeypatch.setenv("FIZHEDUL_PROGRAM", PROGRAM)
    monkeypatch.setenv("TOLD", str(folder / "told"))
    (folder / "fizhedul").mkdir()
    (folder / "fizhedul/__init__.py").touch()
    (folder / "fizhedul/engine.py").write_text(PACKAGE)
    return str(folder)


def told(library: str, *kinds: str) -> list[list[Any]]:
    """What the package told of these kinds, each with the number of its process."""
    lines = Path(library, "told").read_text().splitlines()
    return [line for line in map(json.loads, lines) if line[1] in kinds]
