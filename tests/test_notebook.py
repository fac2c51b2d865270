"""The package's notebook in Jupyter, where Debian's is installed."""

import json
import os
import subprocess
import tempfile
import unittest
from pathlib import Path

from made_library import shared_library
from support import PROGRAM, TOP, need

PACKAGE = TOP / "bindings/python"
BOOK = PACKAGE / "examples/guide.ipynb"


def shown(cell: dict) -> list[str]:
    """What the outputs of a cell are as plain texts."""
    return ["".join(output["data"]["text/plain"]) for output in cell.get("outputs", []) if "data" in output]


class Notebook(unittest.TestCase):
    """The notebook, run from its first cell to its last."""

    @classmethod
    def setUpClass(cls):
        convert, cls.temporary = need("jupyter-nbconvert"), tempfile.TemporaryDirectory()
        if not Path("/usr/share/jupyter/kernels/python3").exists():
            raise unittest.SkipTest("Jupyter has no kernel for Python (apt-get install python3-ipykernel)")
        cls.addClassCleanup(cls.temporary.cleanup)
        name = cls.temporary.name
        # The kernel finds the package and the workbench here, and asks nobody's home for settings.
        there = {"FIZHEDUL_LIBRARY": str(shared_library()), "FIZHEDUL_PROGRAM": str(PROGRAM), "HOME": name,
                 "PYTHONPATH": f"{PACKAGE}:{TOP / 'workbench/src'}"}
        words = [convert, "--execute", "--to", "notebook", "--output-dir", name, "--output", "ran.ipynb", BOOK]
        done = subprocess.run(words, env={**os.environ, **there}, stdin=subprocess.DEVNULL, capture_output=True, text=True, check=False)
        if done.returncode:
            raise AssertionError(done.stderr)
        cls.cells = json.loads(Path(name, "ran.ipynb").read_text())["cells"]

    def test_each_cell_shows_what_it_has_shown(self):
        kept = json.loads(BOOK.read_text())["cells"]
        wanted = [shown(cell) for cell in kept if shown(cell)]
        self.assertEqual([shown(cell) for cell, before in zip(self.cells, kept, strict=True) if shown(before)], wanted)
        self.assertEqual(len(wanted), 4)

    def test_a_query_is_shown_with_its_picture(self):
        [output] = self.cells[-1]["outputs"]
        self.assertIn("<svg", "".join(output["data"]["text/html"]))

