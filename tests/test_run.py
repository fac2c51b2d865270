"""What `tests/run` counts: tests that passed, and no other."""

import subprocess
import tempfile
import unittest
from pathlib import Path

from support import TOP, environment

MODULE = """
import unittest

class Without(unittest.TestCase):
    @classmethod
    def setUpClass(cls):
        raise unittest.SkipTest("a tool")

    def test_first(self):
        pass

    def test_second(self):
        pass

class Mixed(unittest.TestCase):
    def test_that_passes(self):
        pass

    def test_that_is_left_out(self):
        self.skipTest("another tool")
"""
FAILING = """
    def test_that_fails_in_two_parts(self):
        for part in "ab":
            with self.subTest(part):
                self.fail(part)
"""


class Counts(unittest.TestCase):
    """A module of its own, run by `tests/run`."""

    def last_line(self, module: str) -> tuple[str, int]:
        """The line that a run of this module ends with, and its status."""
        with tempfile.TemporaryDirectory() as folder:
            Path(folder, "test_made.py").write_text(module)
            done = subprocess.run([TOP / "tests/run", "test_made"], stdin=subprocess.DEVNULL, capture_output=True,
                                  text=True, check=False, env=environment(PYTHONPATH=folder))
        return done.stdout.splitlines()[-1], done.returncode

    def test_a_class_that_is_left_out_counts_as_none(self):
        self.assertEqual(self.last_line(MODULE), ("1 passed, 0 failed", 0))

    def test_a_test_that_fails_in_two_parts_counts_once(self):
        self.assertEqual(self.last_line(MODULE + FAILING), ("1 passed, 1 failed", 1))

    def test_where_all_is_left_out_nothing_passed(self):
        self.assertEqual(self.last_line(MODULE.split("class Mixed")[0]), ("0 passed, 0 failed", 1))


if __name__ == "__main__":
    unittest.main()
