"""What the tests share: the tools as they are called, the program, and databases as Python reads them."""

import os
import re
import subprocess
import sys
from pathlib import Path

TOP = Path(__file__).resolve().parents[2]
RUN = TOP / "workbench" / "run"
PROGRAM = os.environ.get("FIZHEDUL_PROGRAM") or str(TOP / "crates" / "lrp_main" / "out" / "lrp_main")
TIME = 400


def environment(**more: str) -> dict[str, str]:
    """The environment of a tool, which asks the program where no library is given here."""
    plain = {name: value for name, value in os.environ.items() if name != "FIZHEDUL_LIBRARY"}
    return {**plain, "FIZHEDUL_PROGRAM": PROGRAM, **more}


def tool(*words: str, text: str = "", folder: Path | None = None) -> subprocess.CompletedProcess[str]:
    """Runs a tool of the workbench."""
    return subprocess.run(
        [str(RUN), *words], input=text, capture_output=True, text=True, cwd=folder, env=environment(), timeout=TIME
    )


def shell(folder: Path, text: str, *words: str) -> tuple[str, int]:
    """What the shell writes for these lines, with nothing on standard error, and its status."""
    done = tool("shell", *words, text=text, folder=folder)
    assert done.stderr == ""
    return done.stdout, done.returncode


def program(*words: str, text: str = "") -> str:
    """The output of the program, which has to be whole; the text is its standard input."""
    done = subprocess.run([PROGRAM, *words], capture_output=True, text=True, timeout=TIME, input=text)
    assert done.returncode == 0, done.stdout
    return done.stdout


def listed(database: Path, query: str, first: int, last: int) -> list[str]:
    """The lines of all answers of a window, page by page."""
    file = database.with_suffix(".lrq")
    file.write_text(query)
    words = ["list", f"db={database}", f"query={file}", f"from={first}", f"to={last}", "limit=1000000"]
    lines: list[str] = []
    after: list[str] = []
    while lines[-1:] != ["end"]:
        lines += program(*words, *after).splitlines()
        if lines[-1].startswith("more "):
            after = ["after=" + lines.pop().removeprefix("more ")]
    return lines[:-1]


ROW = re.compile(r"  \((.*?)\)(?: where (.*))?;")
BOUND = re.compile(r"(\w+) (<=|>=|=) (\w+)(?: ([+-]) (\d+))?")


def sources() -> list[Path]:
    return sorted((TOP / "workbench").rglob("*.py"))


if __name__ == "__main__":
    sys.exit("these are no tests of their own")
