"""'spread' by GNU parallel, on this machine and by ssh."""

import subprocess
import tempfile
import unittest
from collections.abc import Sequence
from pathlib import Path

from servers import home, small_disk, ssh
from spread_cases import PASSES, Cases, FewCases
from support import PROGRAM, Run, environment, need

CITY = """relation trip(t: time, l: line, c: city) { (5+60n, "7", "Port"); (7+60n, "8", "Zoo") where t >= 100; (9+60n, "9", "Mill"); }
relation pause(l: line, t: time) { ("8", 127); }
"""
LATE = "{ t: time | exists l: line exists c: city (trip(t, l, c) and not pause(l, t)) }\n"


def run_in(folder: Path, command: Sequence[str | Path]) -> Run:
    """Runs a command in a folder."""
    done = subprocess.run(command, cwd=folder, stdin=subprocess.DEVNULL, capture_output=True, text=True, check=False, env=environment())
    return Run(done.returncode, done.stdout, done.stderr)


class Here(Cases, unittest.TestCase):
    """On this machine."""

    words = ["engine=parallel", "jobs=4"]

    @classmethod
    def prepare(cls):
        need("parallel", "GNU parallel")

    def test_a_window_of_dates_is_cut_at_dates(self):
        (self.folder / "shift.lrp").write_text("relation shift(t: time) { (weekly mon 08:15); }")
        (self.folder / "shift.lrq").write_text("{ t: time | shift(t) }")
        words = ["list", "db=shift.lrp", "query=shift.lrq", "from=2024-02-26T00:00", "to=2024-03-10T23:59", "civil=yes"]
        done = self.spread(*words, "parts=5", folder=self.folder)
        self.assertEqual(done.status, 0, done.err)
        # 26 February 2024 and 4 March 2024 are the Mondays.
        self.assertEqual(self.out(), "2024-02-26 08:15\n2024-03-04 08:15\nend\n")
        self.assertIn("2024-02-28 19:12 to 2024-03-02 14:23", done.err)

    def test_a_refused_question_is_told_by_its_line(self):
        for name, query in (("a", "{ | bus(5) }"), ("b", "{ | bus(5 }"), ("c", "{ | tram(5) }"), ("d", "{ | bus(6) }")):
            (self.folder / f"{name}.lrq").write_text(query)
        (self.folder / "all.lrq").unlink()
        done = self.spread("decide", "db=bus.lrp", "queries=.", "parts=2", folder=self.folder)
        wanted = ["a.lrq\tNonempty", "a.lrq\t()", "b.lrq\trefused: query Syntax at 1:11",
                  "c.lrq\trefused: query UnknownRelation at 1:5", "d.lrq\tEmpty"]
        self.assertEqual(self.out().splitlines(), wanted)
        told = "refused: 2 of the questions, as their lines say; the first is b.lrq"
        self.assertEqual((done.status, done.err.splitlines()[-1]), (4, told))

    def test_a_database_is_cut_by_a_sort(self):
        (self.folder / "city.lrp").write_text(CITY)
        (self.folder / "late.lrq").write_text(LATE)
        words = ["db=city.lrp", "query=late.lrq", "by=line", "parts=3"]
        done = self.spread("decide", *words, folder=self.folder)
        # Of the times of the three lines 5 is the nearest to 0.
        self.assertEqual((done.status, self.out()), (0, "Nonempty\n5\n"), done.err)
        done = self.spread("list", *words, "from=100", "to=190", folder=self.folder)
        # Line 8 pauses at 127.
        self.assertEqual((done.status, self.out()), (0, "125\n129\n185\n187\n189\nend\n"), done.err)

    def test_a_full_disk_is_told_and_nothing_that_is_done_is_lost(self):
        # There is room for the files and for some of the parts, which are of 170,000 bytes each.
        room = PROGRAM.stat().st_size + 700_000
        with small_disk(self.folder / "disk", room) as disk:
            command = [*self.command("list", "db=bus.lrp", "query=all.lrq", "from=0", "to=5999999", "parts=5", "tries=1")[:-1], "out=disk/out"]
            done = run_in(self.folder, command)
            self.assertEqual(done.status, 7, done.err)
            self.assertRegex(done.err, r"(?m)^refused: .*No space left on device")
            self.assertEqual([path.name for path in disk.iterdir()], ["out.parts"])
            subprocess.run(["mount", "-o", f"remount,size={4 * room}", disk], check=True)
            done = run_in(self.folder, command)
            self.assertEqual(done.status, 0, done.err)
            self.assertIn("  kept  ", done.err)
            wanted = "".join(f"{number}\n" for number in range(5, 6_000_000, 60)) + "end\n"
            self.assertEqual((disk / "out").read_text(), wanted)


class Elsewhere(FewCases, unittest.TestCase):
    """On machines that are reached by ssh."""

    words = ["engine=parallel", "hosts=2/east,2/west"]

    @classmethod
    def prepare(cls):
        need("parallel", "GNU parallel")
        room = tempfile.TemporaryDirectory()
        cls.addClassCleanup(room.cleanup)
        cls.setting = cls.enterClassContext(ssh(Path(room.name), "east", "west"))

    def test_files_are_sent_by_their_digests(self):
        done = self.spread("decide", "db=sky.lrp", "queries=.")
        self.assertEqual(done.status, 0, done.err)
        store = home() / ".cache/fizhedul/spread"
        sent = [path for path in store.iterdir() if path.read_bytes() == (PASSES / "sky.lrp").read_bytes()]
        self.assertEqual(len(sent), 1)


if __name__ == "__main__":
    unittest.main()
