"""The answers that the planning examples expect are those that a second count gives."""

import subprocess
import tempfile
import unittest
from pathlib import Path

from recounts import EXAMPLES
from recounts import FOLDERS as BY_NUMBERS
from recounts import RULES
from recounts_by_dates import dates
from support import environment, fake

PROBLEMS = {**BY_NUMBERS, "dates": dates}
FOLDERS = {**PROBLEMS, **RULES}
# Plans, refusals and normal forms, which follow from the rules of the formats and not from a count.
NOT_COUNTED = {"dates": {"rides", "unread", "boat_plan", "no_such_day"}, "maintenance": {"unattended", "far", "far_asked", "few_cells"}, "guide": {"check", "dates", "costly", "not_kept"}, "roster": {"not_kept"}, "cycles": {"silent_refused"}, "counting": {"one_time_at_most", "one_time", "sort_before_the_head", "period", "cells", "no_file", "usage"},
               "canon": {"two_rows", "a_million_rows", "one_cell", "three_cells", "needs_one", "no_file", "three_terms", "period", "bound", "a_pair"}}


def names_of(folder: str) -> set[str]:
    """The names of a folder's cases, which `examples/check` runs."""
    lines = (EXAMPLES / folder / "cases").read_text().splitlines()
    return {line.split()[0] for line in lines if line and not line.startswith("#")}


class Examples(unittest.TestCase):
    """Each folder of a planning problem, and those of rules that are counted too."""

    def test_expected_answers_are_counted_again(self):
        for folder, count in FOLDERS.items():
            counted = count()
            for name, text in counted.items():
                with self.subTest(f"{folder} {name}"):
                    self.assertEqual((EXAMPLES / folder / "expected" / name).read_text(), text)

    def test_each_case_is_counted(self):
        for folder, count in FOLDERS.items():
            self.assertEqual(names_of(folder), set(count()) | NOT_COUNTED.get(folder, set()), folder)

    def test_each_folder_begins_with_a_page_that_names_its_cases(self):
        for folder in PROBLEMS:
            page = (EXAMPLES / folder / "README.md").read_text()
            for query in (EXAMPLES / folder).glob("*.lrq"):
                self.assertIn(query.name, page, folder)


class Check(unittest.TestCase):
    """`examples/check`."""

    def call(self, program: str | Path) -> subprocess.CompletedProcess[str]:
        """Runs it with a program."""
        return subprocess.run([EXAMPLES / "check"], stdin=subprocess.DEVNULL, capture_output=True, text=True, check=False,
                              env=environment(FIZHEDUL_PROGRAM=str(program)), timeout=3600)

    def test_without_a_program_it_stops_at_once(self):
        done = self.call("/nowhere/program")
        self.assertEqual((done.returncode, done.stdout), (1, ""))
        self.assertIn("there is no program at /nowhere/program", done.stderr)

    def test_it_runs_the_program_that_is_named(self):
        with tempfile.TemporaryDirectory() as name:
            done = self.call(fake(Path(name), "echo other\n"))
            self.assertEqual(done.returncode, 1)
            self.assertRegex(done.stdout, r"(?m)^0 passed, [1-9]\d* failed$")


if __name__ == "__main__":
    unittest.main()
