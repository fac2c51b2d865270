"""What the first command tells while it proves the program: how long that takes, and when it is told."""

import contextlib
import importlib.machinery
import importlib.util
import io
import re
import sys
import unittest

from support import TOP

sys.path.insert(0, str(TOP / "tools"))

# pylint: disable=wrong-import-position
from crates import Crates  # noqa: E402
from forecast import LINE, Forecast, costs_of, shown, turns  # noqa: E402

TABLE = """
| crate | proofs | tests |
|---|---|---|
| `lrp_low` | 2.0 | 1.5 |
| `lrp_left` | 0.5 |  |
| `lrp_laws` |  | 0.1 |
| all | 2.5 | 1.6 |
"""
# Two crates on one, and the program on both.
BELOW = {"low": [], "left": ["low"], "right": ["low"], "main": ["left", "right"]}
RANKS = {"low": 4, "left": 3, "right": 2, "main": 1}
COSTS = {"low": 60, "left": 120, "right": 30, "main": 10}


class Costs(unittest.TestCase):
    """What each crate costs."""

    def test_the_minutes_of_the_table_are_taken(self):
        lines = {"lrp_low": 200, "lrp_left": 50, "lrp_laws": 0}
        self.assertEqual(costs_of(TABLE, lines), {"lrp_low": 120, "lrp_left": 30, "lrp_laws": 3})

    def test_a_crate_without_a_row_costs_what_its_lines_cost_elsewhere(self):
        # 150 seconds for 300 lines, so half a second for each.
        lines = {"lrp_low": 200, "lrp_left": 100, "lrp_new": 40}
        self.assertEqual(costs_of(TABLE, lines)["lrp_new"], 20)

    def test_without_a_table_each_line_costs_the_same(self):
        self.assertEqual(costs_of("", {"lrp_low": 200}), {"lrp_low": 200 * LINE})

    def test_the_gate_has_rows_of_most_crates(self):
        page = (TOP / "docs/gate.md").read_text()
        crates = Crates()
        known = set(re.findall(r"(?m)^\| `(lrp_\w+)` \| [\d.]+ \|", page)) & set(crates.uses)
        self.assertGreater(len(known), 0.8 * len(crates.uses))
        costs = costs_of(page, crates.lines())
        self.assertEqual(set(costs), set(crates.uses))
        self.assertGreater(min(costs.values()), 0)


class Time(unittest.TestCase):
    """How long the crates that are left take."""

    def test_crates_run_side_by_side_and_in_order(self):
        # The chain of low, left and main: right runs beside left.
        forecast = Forecast(BELOW, {**COSTS, "low": 60, "right": 120}, RANKS, 2)
        forecast.note("low", 2, 60 / 1.6)
        self.assertAlmostEqual(forecast.seconds_left({"left", "right"}, {}), 120)

    def test_one_at_a_time_they_take_all_their_seconds(self):
        forecast = Forecast(BELOW, COSTS, RANKS, 1)
        self.assertAlmostEqual(forecast.seconds_left(set(BELOW), {}), 220)

    def test_a_slower_machine_takes_longer(self):
        forecast = Forecast(BELOW, COSTS, RANKS, 1)
        # Low took three minutes in place of one, so beside the minute of the table all takes twice its time.
        forecast.note("low", 1, 180)
        self.assertAlmostEqual(forecast.seconds_left({"left", "right", "main"}, {}), 320)

    def test_what_is_at_work_has_done_a_part(self):
        forecast = Forecast(BELOW, COSTS, RANKS, 1)
        self.assertAlmostEqual(forecast.seconds_left({"right", "main"}, {"left": (1, 90)}), 70)

    def test_what_takes_longer_than_it_should_is_not_done_yet(self):
        forecast = Forecast(BELOW, COSTS, RANKS, 1)
        self.assertAlmostEqual(forecast.seconds_left({"main"}, {"left": (1, 500), }), 22)

    def test_what_others_leave_goes_to_the_most_urgent(self):
        self.assertEqual(turns(["a"], 4), [("a", 4)])
        self.assertEqual(turns(["a", "b"], 4), [("a", 3), ("b", 1)])
        self.assertEqual(turns(["a", "b", "c"], 2), [("a", 1), ("b", 1)])
        self.assertEqual(turns(["a"], 0), [])

    def test_a_time_in_words(self):
        self.assertEqual([shown(seconds) for seconds in (0, 29, 31, 89, 1234)],
                         ["less than a minute", "less than a minute", "about 1 min", "about 1 min", "about 21 min"])


def build_program():
    """The tool that builds, as a module."""
    loader = importlib.machinery.SourceFileLoader("build_program", str(TOP / "tools/build_program"))
    module = importlib.util.module_from_spec(importlib.util.spec_from_loader("build_program", loader))
    loader.exec_module(module)
    return module


class Told(unittest.TestCase):
    """When it is told, and on which lines."""

    def lines(self, is_live: bool, seconds: int) -> str:
        """What is told in so many seconds, asked four times in each."""
        screen, said = build_program().Screen(), io.StringIO()
        screen.is_live, screen.start, screen.next = is_live, 0, 0 if is_live else 60
        with contextlib.redirect_stderr(said):
            for tick in range(4 * seconds):
                if screen.is_due(tick / 4):
                    screen.show(tick / 4, "1 of 4 crates proved, about 3 min left", ["low", "left"])
        return said.getvalue()

    def test_elsewhere_a_line_each_minute(self):
        how_far = "1 of 4 crates proved, about 3 min left; at work: low left\n"
        self.assertEqual(self.lines(False, 59), "")
        self.assertEqual(self.lines(False, 150), f"fizhedul: 1 min 00 s: {how_far}fizhedul: 2 min 00 s: {how_far}")

    def test_at_a_terminal_one_line_each_second(self):
        told = self.lines(True, 70)
        self.assertEqual(told.count("\r\033[Kfizhedul: "), 70)
        self.assertNotIn("\n", told)
        self.assertIn("fizhedul: 1 min 09 s: 1 of 4 crates", told)


if __name__ == "__main__":
    unittest.main()
