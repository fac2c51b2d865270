"""What holds of 'spread' with each engine; the modules of the engines say how it is started."""

import json
import signal
import subprocess
import tempfile
import time
import unittest
from collections.abc import Callable
from pathlib import Path

from recounts import passes
from support import LAUNCHER, PROGRAM, TOP, Run, environment, fake, in_front

PASSES = TOP / "examples/passes"
BUS = "relation bus(t: time) { (5+60n); }\n"
ALL = "{ t: time | bus(t) }\n"
# The departures from 0 to 299, by the row: five windows of an hour have one each.
DEPARTURES = "5\n65\n125\n185\n245\nend\n"
# A program that counts its runs, and does more before the part of some windows: lines of 'case'.
ODD = """echo run >>{folder}/runs
cd {folder}
case "$*" in
{cases}
esac
cd "$OLDPWD"
exec {program} "$@"
"""
# Once each: the one who started it is killed, the machine is out of memory, the output is cut.
FAULTS = """*from=60*) if mkdir killed; then kill -9 $PPID; sleep 9; fi ;;
*from=120*) if mkdir full; then echo 'refused: memory'; exit 8; fi ;;
*from=180*) if mkdir cut; then echo 185; exit 0; fi ;;"""
PATIENCE = 600


class Spreading:
    """How an engine is asked; a class of an engine is one of 'unittest.TestCase' too."""

    words: list[str] = []
    setting: dict[str, str] = {}
    why_not = ""

    @classmethod
    def setUpClass(cls):
        try:
            cls.prepare()
        except unittest.SkipTest as why:
            cls.why_not = str(why)

    @classmethod
    def prepare(cls) -> None:
        """Starts what all cases need; what can't be had here leaves them out."""

    def setUp(self):
        if self.why_not:
            self.skipTest(self.why_not)
        room = tempfile.TemporaryDirectory()
        self.addCleanup(room.cleanup)
        self.folder = Path(room.name)
        (self.folder / "bus.lrp").write_text(BUS)
        (self.folder / "all.lrq").write_text(ALL)

    def command(self, *words: str | Path) -> list[str | Path]:
        return [LAUNCHER, "spread", *words, *self.words, f"out={self.folder / 'out'}"]

    def spread(self, *words: str | Path, folder: Path = PASSES, **more: str) -> Run:
        """Runs 'spread' with the engine."""
        done = subprocess.run(self.command(*words), cwd=folder, stdin=subprocess.DEVNULL, capture_output=True, check=False,
                              env=environment(**self.setting, **more), timeout=PATIENCE)
        return Run(done.returncode, done.stdout.decode(), done.stderr.decode())

    def out(self) -> str:
        return (self.folder / "out").read_text()

    def one_run(self, *words: str, folder: Path = PASSES) -> str:
        """What one run of the program writes."""
        done = subprocess.run([PROGRAM, *words], cwd=folder, capture_output=True, text=True, check=True)
        return done.stdout

    def odd(self, cases: str) -> str:
        """The path of a program that does more in some cases."""
        return str(fake(self.folder, ODD.format(folder=self.folder, program=PROGRAM, cases=cases)))

    def list_departures(self, *words: str, program: str = str(PROGRAM)) -> Run:
        """Lists the departures of five hours in as many parts."""
        asked = ["db=bus.lrp", "query=all.lrq", "from=0", "to=299", "parts=5"]
        return self.spread("list", *asked, *words, folder=self.folder, FIZHEDUL_PROGRAM=program)

    def runs(self) -> int:
        return (self.folder / "runs").read_text().count("run")

    def wait_until(self, is_so: Callable[[], object]) -> None:
        end = time.monotonic() + PATIENCE
        while not is_so():
            self.assertLess(time.monotonic(), end)
            time.sleep(0.1)


class FewCases(Spreading):
    """What an engine is tried with at least."""

    def test_an_answer_of_several_times_is_of_the_part_where_its_first_one_lies(self):
        words = ["list", "db=sky.lrp", "query=conflicts.lrq", "from=0", "to=4339", "form=json"]
        # Pages of two lines, so that most parts have several.
        done = self.spread(*words, "parts=7", "limit=2")
        self.assertEqual(done.status, 0, done.err)
        self.assertEqual(self.out(), self.one_run(*words))
        self.assertGreater(self.out().count("\n"), 9)

    def test_an_interrupt_leaves_nothing_running(self):
        program = self.odd("*from=120*) echo $$ >number; exec sleep 1200 ;;")
        words = ["list", "db=bus.lrp", "query=all.lrq", "from=0", "to=299", "parts=5"]
        process = subprocess.Popen(in_front(self.command(*words)), cwd=self.folder, stdin=subprocess.DEVNULL,
                                   stderr=subprocess.PIPE, env=environment(**self.setting, FIZHEDUL_PROGRAM=program), text=True)
        number = self.folder / "number"
        self.wait_until(lambda: number.exists() and number.read_text().strip())
        process.send_signal(signal.SIGINT)
        _, said = process.communicate(timeout=PATIENCE)
        self.assertEqual(process.returncode, 130, said)
        self.assertIn("parts are done and kept in", said)
        self.wait_until(lambda: not is_running(int(number.read_text())))


class Cases(FewCases):
    """What each engine is tried with on this machine."""

    def test_windows_of_one_time_have_together_what_the_whole_has(self):
        words = ["list", "db=sky.lrp", "query=silence.lrq", "from=0", "to=1439"]
        done = self.spread(*words, "parts=3")
        self.assertEqual((done.status, done.out), (0, ""), done.err)
        self.assertEqual(self.out(), passes()["silence"])
        self.assertEqual(self.out(), self.one_run(*words))
        told = json.loads((self.folder / "out.how").read_text())
        self.assertEqual((told["parts"], f"engine={told['engine']}"), (3, self.words[0]))
        self.assertEqual(sorted(told["files"]), ["silence.lrq", "sky.lrp"])
        self.assertFalse((self.folder / "out.parts").exists())

    def test_the_number_of_a_window_is_the_sum_of_those_of_its_parts(self):
        words = ["count", "db=sky.lrp", "query=silence.lrq", "from=-1440", "to=4319"]
        done = self.spread(*words, "parts=7")
        self.assertEqual((done.status, done.out), (0, ""), done.err)
        self.assertEqual(self.out(), self.one_run(*words))
        # The passes repeat by the day, and so does what is left between them.
        self.assertEqual(self.out(), f"{4 * (passes()['silence'].count(chr(10)) - 1)}\n")
        done = self.spread(*words[:2], "query=conflicts.lrq", *words[3:], "parts=2")
        self.assertEqual((done.status, done.err.splitlines()[-1]), (4, "refused: count needs at most one time column"))

    def test_many_questions_are_answered_by_name(self):
        done = self.spread("decide", "db=sky.lrp", "queries=.")
        self.assertEqual(done.status, 0, done.err)
        wanted = ""
        for query in sorted(path.name for path in PASSES.glob("*.lrq")):
            wanted += "".join(f"{query}\t{line}\n" for line in self.one_run("decide", "db=sky.lrp", f"query={query}").splitlines())
        self.assertEqual(self.out(), wanted)
        self.assertIn("silence.lrq\tNonempty\nsilence.lrq\t24\n", wanted)

    def test_what_fails_is_tried_again_and_told(self):
        done = self.list_departures(program=self.odd(FAULTS))
        self.assertEqual(done.status, 0, done.err)
        self.assertEqual(self.out(), DEPARTURES)
        for number, why in ((2, "."), (3, "memory"), (4, "its last line is missing")):
            self.assertRegex(done.err, rf"(?m)^part {number} was tried again: .*{why}")

    def test_a_part_that_fails_again_and_again_ends_all_and_the_same_words_go_on(self):
        program = self.odd("*from=120*) if [ ! -e more ]; then echo 'refused: memory'; exit 8; fi ;;")
        done = self.list_departures("tries=2", program=program)
        self.assertEqual(done.status, 8, done.err)
        self.assertRegex(done.err, r"(?m)^refused: part 3 of 5 \(120 to 179\): memory; 4 of 5 parts are done and kept in ")
        self.assertFalse((self.folder / "out").exists())
        self.assertEqual(self.runs(), 6)
        (self.folder / "more").touch()
        done = self.list_departures("tries=2", program=program)
        self.assertEqual((done.status, self.out()), (0, DEPARTURES), done.err)
        self.assertEqual(self.runs(), 7)

    def test_a_refusal_is_that_of_one_run(self):
        done = self.list_departures("cap=0")
        self.assertEqual((done.status, done.err.splitlines()[-1]), (2, "refused: usage"))
        self.assertFalse((self.folder / "out").exists())


def is_running(number: int) -> bool:
    """Whether a process of this number runs, and has not only ended unseen."""
    try:
        return ") Z" not in Path(f"/proc/{number}/stat").read_text()
    except FileNotFoundError:
        return False


def has_module(name: str) -> bool:
    """Whether Debian's Python has a module."""
    return subprocess.run(["/usr/bin/python3", "-c", f"import {name}"], capture_output=True, check=False).returncode == 0


def leave_out(what: str, package: str) -> None:
    raise unittest.SkipTest(f"{what} is not installed (apt-get install {package})")
