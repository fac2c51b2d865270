"""What the tests share: where things are, and how the launcher is run."""

import os
import shutil
import subprocess
import tempfile
import unittest
from collections.abc import Sequence
from pathlib import Path
from typing import NamedTuple

TOP = Path(__file__).resolve().parent.parent
LAUNCHER = TOP / "fizhedul"
PROGRAM = Path(os.environ.get("FIZHEDUL_PROGRAM") or TOP / "crates/lrp_main/out/lrp_main")


class Run(NamedTuple):
    """How a run ended."""

    status: int
    out: str
    err: str


def environment(**more: str) -> dict[str, str]:
    """The environment of a run: that of the tests, with the program that is there, so that nothing is built."""
    return {**os.environ, "FIZHEDUL_PROGRAM": str(PROGRAM), "LC_ALL": "C.UTF-8", "TERM": "xterm", **more}


def run(*words: str | Path, folder: Path = TOP, explain: str = "never", **more: str) -> Run:
    """Runs the launcher on these words in a folder."""
    done = subprocess.run([LAUNCHER, *words], cwd=folder, stdin=subprocess.DEVNULL, capture_output=True, check=False,
                          env=environment(FIZHEDUL_EXPLAIN=explain, **more))
    return Run(done.returncode, done.stdout.decode(), done.stderr.decode())


def shell(line: str, folder: Path = TOP, explain: str = "never", **more: str) -> Run:
    """Runs a line of shell in which 'fizhedul' is the launcher."""
    with tempfile.TemporaryDirectory() as name:
        Path(name, "fizhedul").symlink_to(LAUNCHER)
        path = f"{name}:{os.environ['PATH']}"
        done = subprocess.run(["bash", "-c", line], cwd=folder, stdin=subprocess.DEVNULL, capture_output=True,
                              check=False, env=environment(FIZHEDUL_EXPLAIN=explain, PATH=path, HOME=name, **more))
    return Run(done.returncode, done.stdout.decode(), done.stderr.decode())


def in_front(command: Sequence[str | Path]) -> list[str | Path]:
    """A command that ends by the signals of a terminal even where the tests run in the background, with these ignored."""
    return ["env", "--default-signal=HUP,INT,QUIT,TERM", *command]


def need(tool: str, version: str = "") -> str:
    """The path of a tool that is a nicety, of which `--version` says these words: a test is left out where it isn't."""
    found = shutil.which(tool)
    if found is None or version not in subprocess.run([found, "--version"], capture_output=True, text=True, check=False,
                                                      stdin=subprocess.DEVNULL).stdout:
        raise unittest.SkipTest(f"'{tool}' is not installed (apt-get install {tool})")
    return found


def fake(folder: Path, script: str) -> Path:
    """A program of its own in place of the real one: a script of shell."""
    path = folder / "program"
    path.write_text("#!/bin/sh\n" + script)
    path.chmod(0o755)
    return path
