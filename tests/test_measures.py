"""What tells where the time of proofs goes: the table of the gate, and the lists of dear and of large functions."""

import collections
import contextlib
import importlib.machinery
import importlib.util
import io
import json
import os
import tempfile
import unittest
from pathlib import Path
from types import ModuleType
from unittest import mock

from support import TOP
from test_first_command import costs_of


def tool(name: str) -> ModuleType:
    """A tool, as a module."""
    loader = importlib.machinery.SourceFileLoader(name, str(TOP / "tools" / name))
    module = importlib.util.module_from_spec(importlib.util.spec_from_loader(name, loader))
    loader.exec_module(module)
    return module


def printed(call, *words) -> str:
    """What a call prints."""
    said = io.StringIO()
    with contextlib.redirect_stdout(said):
        call(*words)
    return said.getvalue()


class Gate(unittest.TestCase):
    """The table of what each crate costs."""

    def test_the_first_command_reads_the_table(self):
        watch = mock.Mock(most=collections.Counter(lrp_low=2e9, lrp_laws=5e8))
        minutes = collections.Counter({("lrp_low", "proofs"): 2.25, ("lrp_low", "edits"): 1.5, ("lrp_laws", "proofs"): 0.04})
        table = printed(tool("measure_gate").print_table, watch, minutes, {"lrp_low": 3.0})
        self.assertIn("\n| `lrp_low` | 2.2 |  |  | 1.5 | 2.0 | 3.0 |\n", table)
        self.assertEqual(costs_of(table, {"lrp_low": 9, "lrp_laws": 9}), {"lrp_low": 132, "lrp_laws": 3})

    def test_a_prover_works_for_the_part_that_its_words_say(self):
        part_of = tool("measure_gate").part_of
        self.assertEqual(part_of("lrp_low", ["rattle", "build"]), "proofs")
        self.assertEqual(part_of("lrp_low", ["rattle", "build", "--test"]), "tests")
        self.assertEqual(part_of("rt-edit-1", ["rattle", "check", "/tmp/rt-edit-1/seed"]), "once more")
        self.assertEqual(part_of("rt-edit-1", ["rattle", "check"]), "edits")


class Dear(unittest.TestCase):
    """The list of the functions whose proofs take longest."""

    # What a check leaves, with the seconds at which it was left.
    FILES = {
        "rattle-last-used": 0,
        "Rattle-lrp_low-specs.contracts.tables.Table.add.oantt": 10,
        "Rattle-lrp_low-proofs.tables.Table.add.Code.Mir.oantt": 11,
        "Rattle-lrp_low-proofs.tables.Table.add.Lts-with_each.decls.oantt": 31,
        "Rattle-lrp_low-proofs.tables.+walk.Proof.oantt": 36,
        "Rattle-lrp_low-proofs.Laws.oantt": 38, "Rattle-lrp_base-proofs.first.Met.oantt": 39, "something.else": 45,
        # The next check begins later.
        "Rattle-lrp_low-proofs.tables.Table.drop.Proof.oantt": 1000, "Rattle-lrp_low-proofs.tables.Table.drop.oantt": 1003,
    }

    def test_the_seconds_of_each_function_are_added_up(self):
        with tempfile.TemporaryDirectory() as name:
            folder = Path(name, "antt-checked-1")
            folder.mkdir()
            for file, second in self.FILES.items():
                (folder / file).touch()
                os.utime(folder / file, (10**9 + second, 10**9 + second))
            lines = printed(tool("dear_functions").main, ["4", name]).splitlines()
        self.assertEqual([line.split() for line in lines], [
            ["31", "s", "lrp_low::tables::Table::add"], ["5", "s", "lrp_low::tables::+walk"],
            ["3", "s", "lrp_low::tables::Table::drop"], ["2", "s", "lrp_low::Laws"]])


class Large(unittest.TestCase):
    """The list of the functions of which the prover is given most."""

    def test_the_modules_of_each_function_are_added_up(self):
        modules = {"proofs/tables/Table/add/Code": "a" * 400_000, "proofs/tables/Table/add/Code/Mir": "b" * 600_000,
                   "proofs/tables/+walk/Code": "c" * 2_000_000, "specs/Lib": "d" * 9_000_000}
        with tempfile.TemporaryDirectory() as name:
            folder = Path(name, "crates/lrp_low/out/rlib/lrp_low.rlib/lang/antt")
            folder.mkdir(parents=True)
            (folder / "made.json").write_text("".join(f"{json.dumps(module)}\n{text}\n" for module, text in modules.items()))
            large = tool("large_functions")
            large.TOP = name
            lines = printed(large.main, ["5"]).splitlines()
        self.assertEqual([line.split() for line in lines],
                         [["2.00", "MB", "lrp_low::tables::walk"], ["1.00", "MB", "lrp_low::tables::Table::add"]])


if __name__ == "__main__":
    unittest.main()
