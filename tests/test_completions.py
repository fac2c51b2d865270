"""The completions, tried in the real shells: what is typed, a tab, and what the shell then runs."""

import os
import pty
import re
import select
import subprocess
import tempfile
import time
import unittest
from pathlib import Path

from support import TOP, environment, need
from table import read_table

COMPLETIONS = TOP / "share/completions"
# The seconds in which a shell shows what it is waited for.
PATIENCE = 300
# The seconds that a shell has for a tab: a line that ends while it still completes would end that early, so a busy machine
# gets more of them.
PAUSES = (0.15, 1, 5, 20)

# What is typed before the tab, and the words that then stand there.
CASES = [
    ("lis", "list"),
    ("lin", "lint"),
    ("lint db=plan.lrp qu", "lint db=plan.lrp query="),
    ("lint te", "lint tense="),
    ("help lin", "help lint"),
    ("de", "decide"),
    ("ch", "check"),
    ("sam", "sample"),
    ("sample si", "sample size="),
    ("sample size=5 s", "sample size=5 seed="),
    ("wa", "watch"),
    ("watch db=plan.lrp query=ask.lrq e", "watch db=plan.lrp query=ask.lrq edits="),
    ("watch edits=mo", "watch edits=moves.lre"),
    ("help sam", "help sample"),
    ("--vers", "--version"),
    ("--veri", "--verify"),
    ("help ref", "help refusals"),
    ("help expl", "help explain"),
    ("check d", "check db="),
    ("check db=plan.lrp ci", "check db=plan.lrp civil="),
    ("check civil=y", "check civil=yes"),
    ("list civil=n", "list civil=no"),
    ("sh", "shell"),
    ("im", "import"),
    ("import g", "import gtfs"),
    ("export ", "export csv"),
    ("spread dec", "spread decide"),
    ("spread cou", "spread count"),
    ("spread decide db=plan.lrp queri", "spread decide db=plan.lrp queries="),
    ("spread list engine=sl", "spread list engine=slurm"),
    ("shell d", "shell db="),
    ("draw format=h", "draw format=html"),
    ("draw from=0 to=9 query=a db=pl", "draw from=0 to=9 query=a db=plan.lrp"),
    ("import csv not", "import csv notes.txt"),
    ("explain db=plan.lrp q", "explain db=plan.lrp query="),
    ("explain query=ask.lrq civil=yes d", "explain query=ask.lrq civil=yes db="),
    ("explain db=plan.lrp te", "explain db=plan.lrp tense="),
    ("decide tense=y", "decide tense=yes"),
    ("list db=plan.lrp wi", "list db=plan.lrp wide="),
    ("ranges wide=y", "ranges wide=yes"),
    ("ask db=plan.lrp a", "ask db=plan.lrp as="),
    ("draw wi", "draw wide="),
    ("ask db=plan.lrp can", "ask db=plan.lrp canon="),
    ("ask cap=1 ca", "ask cap=1 canon="),
    ("ask canon=y", "ask canon=yes"),
    ("shell canon=n", "shell canon=no"),
    ("shell db=x li", "shell db=x limit="),
    ("pag", "page"),
    ("page db=x por", "page db=x port="),
    ("help pa", "help page"),
    ("list from=0 to=9 db=x query=y limit=1 after=z cap=1 f", "list from=0 to=9 db=x query=y limit=1 after=z cap=1 form="),
    ("check db=pl", "check db=plan.lrp"),
    ("check db=fold", "check db=folder/"),
    ("check db=folder/", "check db=folder/inner.lrp"),
    ("ask db=plan.lrp query=as", "ask db=plan.lrp query=ask.lrq"),
    ("list form=j", "list form=json"),
    ("list form=p", "list form=plain"),
    ("decide db=plan.lrp sh", "decide db=plan.lrp show="),
    ("decide show=d", "decide show=dates"),
    ("watch db=plan.lrp ke", "watch db=plan.lrp kept="),
    ("watch kept=a", "watch kept=auto"),
    ("co", "count"),
    ("ra", "ranges"),
    ("count db=plan.lrp fr", "count db=plan.lrp from="),
    ("ranges li", "ranges limit="),
    ("ranges form=j", "ranges form=json"),
    ("help ran", "help ranges"),
    ("ask nothing", "ask nothing"),
    ("check db=notes", "check db=notes"),
]


def make_files(folder: Path) -> None:
    """The files that are completed, and one that is not."""
    (folder / "folder").mkdir()
    for name in ("plan.lrp", "ask.lrq", "moves.lre", "folder/inner.lrp", "notes.txt", "plan.txt"):
        (folder / name).touch()


class Terminal:
    """A shell at a terminal. In it 'fizhedul' prints its words."""

    def __init__(self, words: list[str], folder: Path, setup: str):
        self.reader, terminal = pty.openpty()
        self.child = subprocess.Popen(words, cwd=folder, stdin=terminal, stdout=terminal, stderr=terminal,
                                      start_new_session=True, env={**environment(), "HOME": str(folder), "PS1": "> "})
        os.close(terminal)
        self.send(setup + "\nfizhedul() { echo \"GOT<$*>\"; }; echo REA''DY\n")
        self.read_to(r"READY\r?\n")

    def send(self, text: str) -> None:
        """Types a text."""
        os.write(self.reader, text.encode())

    def read_to(self, pattern: str) -> re.Match[str]:
        """Reads what the shell shows up to a match of the pattern."""
        shown, end = "", time.monotonic() + PATIENCE
        while time.monotonic() < end:
            if select.select([self.reader], [], [], 0.2)[0]:
                shown += os.read(self.reader, 4096).decode(errors="replace")
                found = re.search(pattern, shown)
                if found:
                    return found
        raise AssertionError(f"the shell showed {shown!r}")

    def complete(self, typed: str, pause: float) -> str:
        """The words that the shell runs once a tab stands after what is typed, and after a pause the end of the line."""
        self.send(f"fizhedul {typed}\t")
        time.sleep(pause)
        self.send("\n")
        return self.read_to(r"GOT<(.*)>\r?\n").group(1).rstrip(" ")

    def close(self) -> None:
        """Ends the shell."""
        self.child.kill()
        self.child.wait()
        os.close(self.reader)


class Completions(unittest.TestCase):
    """The same cases in each shell."""

    def try_cases(self, words: list[str], setup: str) -> None:
        """Runs the cases in a shell at a terminal."""
        with tempfile.TemporaryDirectory() as name:
            folder = Path(name)
            make_files(folder)
            terminal = Terminal(words, folder, setup)
            try:
                for typed, wanted in CASES:
                    with self.subTest(typed):
                        for pause in PAUSES:
                            got = terminal.complete(typed, pause)
                            if got == wanted:
                                break
                        self.assertEqual(got, wanted)
            finally:
                terminal.close()

    def test_bash(self):
        self.try_cases([need("bash"), "--norc", "--noprofile", "-i"], f"source {COMPLETIONS}/fizhedul.bash")

    def test_bash_that_does_not_cut_words_at_equal_signs(self):
        self.try_cases([need("bash"), "--norc", "--noprofile", "-i"],
                       f"COMP_WORDBREAKS=${{COMP_WORDBREAKS//=}}; source {COMPLETIONS}/fizhedul.bash")

    def test_zsh(self):
        self.try_cases([need("zsh"), "-f", "-i"],
                       f"fpath=({COMPLETIONS} $fpath); autoload -Uz compinit; compinit -u -D; unsetopt prompt_cr prompt_sp auto_remove_slash")

    def test_fish(self):
        fish = need("fish")
        with tempfile.TemporaryDirectory() as name:
            folder = Path(name)
            make_files(folder)
            for typed, wanted in CASES:
                with self.subTest(typed):
                    script = f"source {COMPLETIONS}/fizhedul.fish; complete -C 'fizhedul {typed}'"
                    done = subprocess.run([fish, "--no-config", "-c", script], cwd=folder, capture_output=True, text=True,
                                          check=False, env={**environment(), "HOME": name}, stdin=subprocess.DEVNULL)
                    offered = [line.split("\t")[0] for line in done.stdout.splitlines()]
                    last, wanted_last = typed.rpartition(" ")[2], wanted.rpartition(" ")[2]
                    self.assertEqual(offered, [] if wanted == typed else [wanted_last], last)


class Manual(unittest.TestCase):
    """The pages of the manual, and that all that is made is as it is made."""

    def test_what_is_made_is_as_it_is_made(self):
        done = subprocess.run([TOP / "tools/make_share", "--check"], capture_output=True, text=True, check=False)
        self.assertEqual((done.returncode, done.stdout), (0, ""), "run tools/make_share")

    def test_mandoc_finds_nothing(self):
        mandoc = need("mandoc")
        for page in ("fizhedul.1", "fizhedul-formats.5"):
            done = subprocess.run([mandoc, "-Tlint", TOP / "share/man" / page], capture_output=True, text=True, check=False)
            # The two pages name one another, and are not installed here.
            found = [line for line in done.stdout.splitlines() if "referenced manual not found" not in line]
            self.assertEqual(found, [])

    def test_the_manual_has_each_command_refusal_and_example(self):
        mandoc = need("mandoc")
        done = subprocess.run([mandoc, "-Tascii", "-Owidth=200", TOP / "share/man/fizhedul.1"], capture_output=True,
                              text=True, check=False)
        page = re.sub(".\x08", "", done.stdout)
        for name in ("overview", *read_table(), "refusals"):
            for line in (TOP / f"share/help/{name}.txt").read_text().splitlines():
                if line.startswith("refused: ") or (line.startswith("  $ ") and name not in ("overview", "refusals")):
                    self.assertIn(line.strip(), page)


if __name__ == "__main__":
    unittest.main()
