"""A run that takes long shows itself on a terminal, and on a terminal alone."""

import os
import pty
import re
import select
import signal
import subprocess
import tempfile
import threading
import time
import unittest
from collections.abc import Callable
from pathlib import Path
from typing import NamedTuple

from support import LAUNCHER, environment, fake, in_front

CLEAR = "\r\x1b[K"
HINT = "; 'fizhedul explain' shows the plan, 'cap=' bounds the work"
# Waits until there is a file of this name, for minutes at most.
HELD = """tries=0
while [ ! -e {go} ] && [ $tries -lt 3000 ]; do sleep 0.1; tries=$((tries + 1)); done
"""


class Watched(NamedTuple):
    """A run that was watched: its status, its output, what the terminal got, and after how many seconds output came."""

    status: int
    out: bytes
    shown: str
    waited: float


def piece_of(end: int) -> bytes:
    """What can be read there now, which is empty at its end."""
    try:
        return os.read(end, 1 << 16)
    except OSError:
        # The last process that had the terminal has ended.
        return b""


def watch(program: Path, *words: str, see: Callable[[str, bytes], None] | None = None, **more: str) -> Watched:
    """Runs the launcher with a terminal as its standard error. What this and the output have got is seen with each piece."""
    reader, terminal = pty.openpty()
    start, waited = time.monotonic(), float("inf")
    child = subprocess.Popen([LAUNCHER, *words], stdin=subprocess.DEVNULL, stdout=subprocess.PIPE, stderr=terminal,
                             env={**environment(FIZHEDUL_PROGRAM=str(program)), "FIZHEDUL_EXPLAIN": "", **more})
    os.close(terminal)
    output = child.stdout.fileno()
    got = {reader: b"", output: b""}
    ends = set(got)
    while ends:
        for end in select.select(ends, [], [])[0]:
            piece = piece_of(end)
            got[end] += piece
            if not piece:
                ends.remove(end)
            elif end == output:
                waited = min(waited, time.monotonic() - start)
            if piece and see:
                see(got[reader].decode(), got[output])
    os.close(reader)
    with child:
        return Watched(child.wait(), got[output], got[reader].decode(), waited)


def seconds_of(shown: str) -> list[int]:
    """The times that a terminal was shown."""
    return [int(found) for found in re.findall(r"fizhedul: (\d+) s", shown)]


class LongWork(unittest.TestCase):
    """What a terminal shows."""

    def setUp(self):
        self.folder = tempfile.TemporaryDirectory()
        self.addCleanup(self.folder.cleanup)

    def program(self, script: str) -> Path:
        """A program of its own."""
        return fake(Path(self.folder.name), script)

    def test_the_time_comes_then_a_hint_and_both_go_when_output_begins(self):
        go, start, too_many = Path(self.folder.name, "go"), time.monotonic(), []

        def see(shown: str, _: bytes) -> None:
            seconds = seconds_of(shown)
            # The clock of whole seconds may be one before the time that has gone.
            too_many.extend(second for second in seconds[-1:] if second > time.monotonic() - start + 1)
            if HINT in shown and len(seconds) > 5:
                go.touch()

        status, out, shown, _ = watch(self.program(f"{HELD.format(go=go)}echo one\nsleep 0.3\necho two\n"),
                                      "decide", "db=a", "query=b", see=see)
        self.assertEqual((status, out), (0, b"one\ntwo\n"))
        self.assertTrue(go.exists(), shown)
        self.assertRegex(shown, rf"^{re.escape(CLEAR)}fizhedul: \d+ s")
        seconds = seconds_of(shown)
        self.assertGreaterEqual(seconds[0], 2)
        self.assertEqual(seconds, sorted(set(seconds)))
        self.assertEqual(too_many, [])
        hints = [int(found) for found in re.findall(rf"(\d+) s{re.escape(HINT)}", shown)]
        self.assertEqual(hints, [second for second in seconds if second >= 10])
        self.assertTrue(shown.endswith(CLEAR), shown[-80:])

    def test_a_quick_run_shows_nothing(self):
        for _ in range(20):
            status, out, shown, waited = watch(self.program("echo one\n"), "check", "db=a")
            self.assertEqual((status, out), (0, b"one\n"))
            # The launcher looks after a second for the first time. On a busy machine the run may take longer than that.
            if waited < 1:
                self.assertEqual(shown, "")
                return
        self.assertGreater(os.getloadavg()[0], os.cpu_count(), "output is late, and the machine is not busy")
        self.skipTest("this machine is too busy for what has to be done in a second")

    def test_a_slow_run_that_has_begun_to_write_shows_nothing(self):
        go, first = Path(self.folder.name, "go"), []

        def see(_: str, out: bytes) -> None:
            if out and not first:
                # From here on the program is at work for four seconds, at least.
                first.append(out)
                threading.Timer(4, go.touch).start()

        script = f"echo one\n{HELD.format(go=go)}echo two\n"
        status, out, shown, waited = watch(self.program(script), "check", "db=a", see=see)
        self.assertEqual((status, out), (0, b"one\ntwo\n"))
        self.assertEqual(first, [b"one\n"])
        self.assertEqual([second for second in seconds_of(shown) if second > waited + 1], [])
        # What came when the launcher looked for the first time came before a time is shown.
        if waited < 1.8:
            self.assertEqual(shown, "")

    def test_a_terminal_that_can_not_rewrite_a_line_shows_nothing(self):
        watched = watch(self.program("sleep 2.5\necho one\n"), "check", "db=a", TERM="dumb")
        self.assertEqual(watched[:3], (0, b"one\n", ""))

    def test_without_a_terminal_nothing_is_shown(self):
        done = subprocess.run([LAUNCHER, "check", "db=a"], stdin=subprocess.DEVNULL, capture_output=True, check=False,
                              env=environment(FIZHEDUL_PROGRAM=str(self.program("sleep 2.5\necho one\n"))))
        self.assertEqual((done.returncode, done.stdout, done.stderr), (0, b"one\n", b""))

    def test_a_refusal_is_explained_to_a_terminal(self):
        status, out, shown, _ = watch(self.program("echo 'refused: usage'\nexit 2\n"), "lst")
        self.assertEqual((status, out), (2, b"refused: usage\n"))
        self.assertIn("The nearest command is 'list'", shown)

    def test_a_signal_ends_both(self):
        program = self.program("echo $$ > pid\nexec sleep 600\n")
        for number in (signal.SIGINT, signal.SIGTERM, signal.SIGHUP):
            child = subprocess.Popen(in_front([LAUNCHER, "check", "db=a"]), cwd=self.folder.name, stdin=subprocess.DEVNULL,
                                     env=environment(FIZHEDUL_PROGRAM=str(program), FIZHEDUL_EXPLAIN="always"))
            pid = Path(self.folder.name, "pid")
            while not pid.exists() or not pid.read_text().strip():
                time.sleep(0.01)
            child.send_signal(number)
            self.assertEqual(child.wait(), -number)
            self.assertFalse(Path("/proc", pid.read_text().strip()).exists())
            pid.unlink()

    def test_a_program_that_is_killed(self):
        for explain in ("always", "never"):
            program = self.program("echo one\nkill -9 $$\n")
            done = subprocess.run([LAUNCHER, "check", "db=a"], stdin=subprocess.DEVNULL, capture_output=True,
                                  check=False, env=environment(FIZHEDUL_PROGRAM=str(program), FIZHEDUL_EXPLAIN=explain))
            self.assertEqual((done.returncode, done.stdout), (-signal.SIGKILL, b"one\n"))

    def test_much_output_passes_as_it_is(self):
        program = self.program("head -c 3000000 /dev/zero\nexit 5\n")
        done = subprocess.run([LAUNCHER, "check", "db=a"], stdin=subprocess.DEVNULL, capture_output=True, check=False,
                              env=environment(FIZHEDUL_PROGRAM=str(program), FIZHEDUL_EXPLAIN="always"))
        self.assertEqual((done.returncode, done.stdout, done.stderr), (5, bytes(3000000), b""))


if __name__ == "__main__":
    unittest.main()
