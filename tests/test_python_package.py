"""The package for Python: its examples, its answers against the program's, its refusals, and its types."""

import ast
import contextlib
import doctest
import importlib
import io
import json
import os
import random
import subprocess
import sys
import tempfile
import threading
import unittest
from datetime import datetime

from made_library import shared_library
from support import PROGRAM, TOP

PACKAGE = TOP / "bindings/python"
MODULES = ["fizhedul", *(f"fizhedul.{path.stem}" for path in sorted((PACKAGE / "fizhedul").glob("*.py")) if path.stem != "__init__")]
GUIDE = TOP / "examples/guide"


class Package(unittest.TestCase):
    """The package over a library that is built once."""

    @classmethod
    def setUpClass(cls):
        os.environ["FIZHEDUL_LIBRARY"] = str(shared_library())
        if str(PACKAGE) not in sys.path:
            sys.path.insert(0, str(PACKAGE))
        cls.package = importlib.import_module("fizhedul")

    def guide(self, query: str, **how):
        """A query of the guide over its database."""
        return self.package.open(GUIDE / "line.lrp").query((GUIDE / query).read_text(), **how)

    def test_each_example_in_its_text_is_right(self):
        tried = 0
        for name in MODULES:
            result = doctest.testmod(importlib.import_module(name), verbose=False)
            self.assertEqual(result.failed, 0, name)
            tried += result.attempted
        self.assertGreater(tried, 30)

    def test_the_guides_question_has_the_guides_answers(self):
        uncovered = self.guide("uncovered.lrq")
        self.assertEqual(uncovered.decide(), (-235, -210))
        self.assertEqual(list(uncovered.list(0, 2880)), [(1205, 1230), (2645, 2670)])
        self.assertEqual(list(uncovered.list(0, 2880, limit=1)), [(1205, 1230), (2645, 2670)])
        self.assertEqual(uncovered.columns, [("d", "time"), ("a", "time")])

    def test_each_answer_is_the_programs(self):
        for name in ("departures", "uncovered", "trips", "within"):
            for command, ask in (("explain", lambda q: q.asked("explain")), ("ask", lambda q: q.asked("ask"))):
                words = [command, "db=line.lrp", f"query={name}.lrq", "plan=guarded"]
                ran = subprocess.run([PROGRAM, *words], cwd=GUIDE, capture_output=True, text=True, check=False)
                if ran.returncode == 0:
                    self.assertEqual(ask(self.guide(f"{name}.lrq")), ran.stdout)

    def test_rows_hold_what_the_pages_list(self):
        query = self.package.Database("relation r(t: time, l: line) { (5+60n, \"a, (\\\"b\\\")\") where t >= 65; (7, \"c\"); }")
        rows = query.query("{ t: time, l: line | r(t, l) }").ask()
        self.assertEqual([row.values[1] for row in rows], ['a, ("b")', "c"])
        listed = list(query.query("{ t: time, l: line | r(t, l) }").list(0, 200))
        self.assertEqual(listed, [(7, "c"), (65, 'a, ("b")'), (125, 'a, ("b")'), (185, 'a, ("b")')])
        self.assertTrue(all(any(time in row.values[0] for row in rows if row.values[1] == text) for time, text in listed))

    def test_dates_stand_for_minutes(self):
        database = self.package.open(GUIDE / "clock.lrp", civil=True)
        query = database.query((GUIDE / "costly.lrq").read_text())
        day = list(query.list(datetime(2026, 12, 24), datetime(2026, 12, 24, 23, 59)))
        self.assertEqual(day, [(datetime(2026, 12, 24, 20, 5), datetime(2026, 12, 24, 20, 30))])
        self.assertIsInstance(query.decide()[0], datetime)

    def test_a_refusal_says_where_and_what_to_do(self):
        database = self.package.Database("relation bus(t: time) { (5+60n); }")
        with self.assertRaises(self.package.Refused) as caught:
            database.query("{ t: time |\n  buss(t) }").decide()
        fault = caught.exception
        self.assertEqual((fault.line, fault.status, fault.kind, fault.place),
                         ("refused: query UnknownRelation at 2:3", 4, "UnknownRelation", (2, 3)))
        self.assertIn("  buss(t) }\n    ^~~~\n", fault.explanation)
        self.assertIn("relation", fault.explanation.splitlines()[2])
        with self.assertRaises(self.package.Refused) as caught:
            database.query("{ t: time | bus(t) }").list(0, 2**63).__next__()
        self.assertEqual((caught.exception.status, caught.exception.kind, caught.exception.place), (2, "", None))
        with self.assertRaises(OSError):
            self.package.open("/nowhere/at/all.lrp")

    def test_the_notebook_shows_what_it_has_shown(self):
        book = json.loads((PACKAGE / "examples/guide.ipynb").read_text())
        names: dict[str, object] = {}
        before, shown = os.getcwd(), 0
        os.chdir(PACKAGE / "examples")
        try:
            for cell in book["cells"]:
                if cell["cell_type"] == "code":
                    *front, last = ast.parse("".join(cell["source"])).body
                    with contextlib.redirect_stdout(io.StringIO()):
                        exec(compile(ast.Module(front, []), "cell", "exec"), names)
                        value = eval(compile(ast.Expression(last.value), "cell", "eval"), names)
                    for output in cell["outputs"]:
                        self.assertEqual(repr(value), "".join(output["data"]["text/plain"]))
                        shown += 1
        finally:
            os.chdir(before)
        self.assertEqual(shown, 4)

    def test_many_questions_share_nothing(self):
        database = self.package.Database("relation bus(t: time) { (5+60n); }")
        wrong = []

        def ask(seed: int) -> None:
            chance = random.Random(seed)
            for _ in range(100):
                least = chance.randrange(10000)
                found = database.query(f"{{ t: time | (bus(t) and t >= {least}) }}").decide()
                if found != (least + (5 - least) % 60,):
                    wrong.append((least, found))

        threads = [threading.Thread(target=ask, args=(seed,)) for seed in range(4)]
        for thread in threads:
            thread.start()
        for thread in threads:
            thread.join()
        self.assertEqual(wrong, [])

    def test_a_hundred_questions_are_asked_side_by_side_in_processes(self):
        done = subprocess.run([sys.executable, PACKAGE / "examples/many.py"], capture_output=True, text=True, check=False,
                              env={**os.environ, "PYTHONPATH": str(PACKAGE)})
        buses = [(d, d + 26) for d in range(367, 1321, 40)] + [(d, d + 20) for d in range(15, 3000, 60)]
        wanted = [f"from {minute}: {min(bus for bus in buses if bus[0] >= minute)}\n" for minute in range(0, 1400, 14)]
        self.assertEqual((done.returncode, done.stdout, done.stderr), (0, "".join(wanted), ""))

    def test_pages_of_two_queries_are_those_of_each_alone(self):
        texts = ["{ t: time | bus(t) }", "{ t: time | (bus(t) and t >= 100) }", "{ t: time | buss(t) }"]
        database = self.package.Database("relation bus(t: time) { (5+60n); (7+60n); }")
        alone = [list(self.package.Database(database.text).query(text).list(0, 600)) for text in texts[:2]]
        pages = [database.query(text).list(0, 600, limit=3) for text in texts[:2]]
        found = [[], []]
        while any(found[turn] != alone[turn] for turn in (0, 1)):
            for turn in (0, 1):
                if found[turn] != alone[turn]:
                    found[turn].append(next(pages[turn]))
            with self.assertRaises(self.package.Refused):
                database.query(texts[2]).decide()
            self.assertEqual(database.query(texts[0]).decide(), (5,))
        self.assertEqual([list(page) for page in pages], [[], []])

    def test_a_missing_library_is_told(self):
        done = subprocess.run([sys.executable, "-c", "import fizhedul\ntry: fizhedul.Database('').check()\nexcept OSError as e: print(type(e).__name__)"],
                              cwd=PACKAGE, capture_output=True, text=True, check=False,
                              env={**os.environ, "FIZHEDUL_LIBRARY": "/nowhere/lib.so"})
        self.assertEqual((done.returncode, done.stdout), (0, "MissingLibrary\n"))

    def test_types_and_form(self):
        for tool, words in (("mypy", []), ("flake8", ["--max-line-length=120", "--extend-ignore=E203"]),
                            ("black", ["--check", "-q"])):
            python = "/usr/bin/python3"
            if subprocess.run([python, "-c", f"import {tool}"], capture_output=True, check=False).returncode:
                continue
            with tempfile.TemporaryDirectory() as cache:
                more = [f"--cache-dir={cache}"] if tool == "mypy" else [*words, "fizhedul"]
                done = subprocess.run([python, "-m", tool, *more], cwd=PACKAGE, capture_output=True, text=True, check=False)
            self.assertEqual(done.returncode, 0, done.stdout + done.stderr)


if __name__ == "__main__":
    unittest.main()
