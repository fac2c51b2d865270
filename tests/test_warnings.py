"""Warnings of what is answered without a word and seldom meant: on standard error, each once, with place and remedy."""

import os
import re
import shutil
import subprocess
import tempfile
import unittest
from pathlib import Path

from catalogue import FINDINGS, read_catalogue
from support import LAUNCHER, TOP, Run, environment, fake, run, shell
from warn import MOST_BYTES, MOST_SHOWN

TRIP = "relation trip(dep: time, arr: time) {\n  (5+60n, 30+60n)%s;\n}\n"
SHIFT = 'relation shift(t: time, who: driver) { (0+60n, "Ada"); (1+60n, "Ben"); (2+60n, "Cleo"); }\nrelation town(c: city) { ("Rome"); }\n'
NO_ROW = "This row holds nothing: no times meet its values and its bounds. "
UNTIED = "The times of this row are not all tied to one another, so every time of the one goes with every time of the other. "
NO_TEXT = "No row has this text in a column of its sort. "
# A database, a query, the keys, and what is told: the place, what is marked there, and all sentences, on one line.
CASES = [
    (TRIP % " where arr = dep + 35", "", [], "a.lrp:2:3", "(5+60n, 30+60n) where arr = dep + 35;", NO_ROW +
     "'arr' is 25+60n after 'dep', and the bound asks for 35: did you mean 'arr = dep + 25'?"),
    (TRIP % " where dep = arr - 20", "", [], "a.lrp:2:3", "(5+60n, 30+60n) where dep = arr - 20;", NO_ROW +
     "'dep' is 35+60n after 'arr', and the bound asks for -20: did you mean 'dep = arr - 25'?"),
    (TRIP % " where arr <= dep + 2, arr >= dep", "", [], "a.lrp:2:3", "(5+60n, 30+60n) where arr <= dep + 2, arr >= dep;", NO_ROW +
     "Change a value or a bound, or take the row out."),
    ("relation r(t: time, u: time) { (480, 490) where u = t + 5; }", "", [], "a.lrp:1:32", "(480, 490) where u = t + 5;", NO_ROW +
     "'u' is 10 after 't', and the bound asks for 5: did you mean 'u = t + 10'?"),
    (TRIP % "", "", [], "a.lrp:2:3", "(5+60n, 30+60n);", UNTIED +
     "No bound ties 'dep' and 'arr': perhaps 'arr = dep + 25' is missing. Leave the row as it is where every pair is meant."),
    ("relation r(t: time, u: time) { (0+7n, 0+9n); }", "", [], "a.lrp:1:32", "(0+7n, 0+9n);", UNTIED +
     "No bound ties 't' and 'u'. Add a bound between two of its columns, as 'where arr = dep + 25'; leave the row as it is where"
     " every pair is meant."),
    ("relation r(t: time, u: time) { (0+4611686018427387904n, 0+3n) where u = t; }", "", [], "a.lrp:1:32",
     "(0+4611686018427387904n, 0+3n) where u = t;",
     "Whether this row holds anything isn't told: the common period of its values and its greatest bound are together above"
     " 4611686018427387904. Use smaller periods and bounds, perhaps by a coarser unit of time."),
    (SHIFT, '{ t: time | shift(t, "Cloe") }', [], "b.lrq:1:22", '"Cloe"', NO_TEXT + 'Did you mean "Cleo"?'),
    (SHIFT, '{ t: time | exists w: driver (shift(t, w) and not w = "ada") }', [], "b.lrq:1:55", '"ada"', NO_TEXT + 'Did you mean "Ada"?'),
    (SHIFT, '{ t: time | shift(t, "Rome") }', [], "b.lrq:1:22", '"Rome"', NO_TEXT +
     "It is a text of the sort 'city', and here the sort is 'driver'. Look at its spelling, also at capitals."),
    (SHIFT, '{ t: time | once t (-5, 0) shift(t, "Zoe") }', ["tense=yes"], "b.lrq:1:37", '"Zoe"', NO_TEXT +
     "The texts of the sort 'driver' are \"Ada\", \"Ben\", \"Cleo\". Look at its spelling, also at capitals."),
    ("relation bus(t: time) { }", "{ t: time | not bus(t) }", [], "b.lrq:1:17", "bus",
     "This relation has no rows, so no tuple is in it. Write its rows, or ask about another relation."),
    ("relation r(t: time, u: time) {\n  (daily 08:00, daily 09:00) where u = t + 70;\n}", "", ["civil=yes"], "a.lrp:2:3",
     "(daily 08:00, daily 09:00) where u = t + 70;", NO_ROW +
     "'u' is 60+1440n after 't', and the bound asks for 70: did you mean 'u = t + 60'?"),
]


def in_folder(database: str, query: str, *words: str, **more: str) -> Run:
    """Asks for the least answer of a query over a database, or checks it where there is no query."""
    with tempfile.TemporaryDirectory() as name:
        Path(name, "a.lrp").write_text(database)
        Path(name, "b.lrq").write_text(query)
        command = ["decide", "db=a.lrp", "query=b.lrq"] if query else ["check", "db=a.lrp"]
        return run(*command, *words, folder=Path(name), **more)


def at_terminal(folder: Path, *words: str, **more: str) -> str:
    """What the launcher writes to standard error where that is a terminal."""
    ours, theirs = os.openpty()
    process = subprocess.Popen([LAUNCHER, *words], cwd=folder, stdin=subprocess.DEVNULL, stdout=subprocess.DEVNULL, stderr=theirs,
                               env=environment(**more))
    os.close(theirs)
    written = b""
    try:
        while piece := os.read(ours, 1 << 16):
            written += piece
    except OSError:
        pass  # The terminal is closed from the other side.
    process.wait()
    os.close(ours)
    return written.decode().replace("\r\n", "\n")


class Warnings(unittest.TestCase):
    """What is told, and what is not."""

    def test_each_finding_has_its_place_and_its_remedy(self):
        for database, query, words, place, marked, said in CASES:
            with self.subTest(said):
                told = in_folder(database, query, *words, FIZHEDUL_WARN="always")
                first, line, caret, *rest = told.err.splitlines()
                self.assertEqual(first, f"fizhedul: warning: {place}")
                begin, tail = caret.index("^"), len(caret)
                self.assertEqual(line[begin:tail], marked)
                self.assertEqual(" ".join(rest), said)
                # What is written, and the status, are as without.
                self.assertEqual((told.status, told.out), tuple(in_folder(database, query, *words))[:2])

    def test_each_finding_is_told_once(self):
        database = (TRIP % " where arr = dep + 35") + (TRIP % "").replace("trip", "tram")
        query = "{ d: time, a: time | (trip(d, a) and tram(d, a)) }"
        self.assertEqual(in_folder(database, query, FIZHEDUL_WARN="always").err.count("warning"), 2)

    def test_what_is_meant_has_no_warning(self):
        for database in (TRIP % " where arr = dep + 25", "relation r(t: time, u: time) { (480, 505); (5+60n, 480); }",
                         "relation r(t: time, u: time) { (0+1n, 0+1n) where t <= 480, t >= 480, u = 505; }"):
            self.assertEqual(in_folder(database, "", FIZHEDUL_WARN="always").err, "")

    def test_nobody_is_warned_without_a_terminal_and_where_none_is_wanted(self):
        database, query, *_ = CASES[0]
        self.assertEqual(in_folder(database, query).err, "")
        self.assertEqual(in_folder(database, query, FIZHEDUL_WARN="never").err, "")
        with tempfile.TemporaryDirectory() as name:
            Path(name, "a.lrp").write_text(database)
            self.assertIn("warning: a.lrp:2:3\n", at_terminal(Path(name), "check", "db=a.lrp"))
            self.assertEqual(at_terminal(Path(name), "check", "db=a.lrp", FIZHEDUL_WARN="never"), "")

    def test_long_files_are_looked_through_where_that_is_asked_for(self):
        database = CASES[0][0]
        with tempfile.TemporaryDirectory() as name:
            file = Path(name, "a.lrp")
            for size, is_warned in ((MOST_BYTES, True), (MOST_BYTES + 1, False)):
                file.write_text(database.ljust(size))
                self.assertEqual("warning" in at_terminal(Path(name), "check", "db=a.lrp"), is_warned)
            self.assertIn("warning", run("check", "db=a.lrp", folder=Path(name), FIZHEDUL_WARN="always").err)
        self.assertIn(f"\nmost_bytes={MOST_BYTES}\n", (TOP / "share/launcher/warn.sh").read_text())
        self.assertRegex(FINDINGS.read_text(), rf"more than {MOST_BYTES}\s+bytes")

    def test_a_refusal_has_no_warning_beside_it(self):
        told = in_folder(CASES[0][0], "{ d: time | tram(d) }", FIZHEDUL_WARN="always")
        self.assertEqual((told.status, told.err), (4, ""))
        self.assertEqual(run("chek", "db=a", FIZHEDUL_WARN="always").err, "")

    def test_many_findings_are_counted(self):
        for number, rest in ((MOST_SHOWN, ""), (MOST_SHOWN + 1, "one more finding is not shown"), (30, "25 more findings are not shown")):
            rows = "(5+60n, 30+60n) where u = t + 35;\n" * number
            told = in_folder(f"relation r(t: time, u: time) {{\n{rows}}}", "", FIZHEDUL_WARN="always").err
            self.assertEqual(len(re.findall(r"(?m)^fizhedul: warning: a\.lrp:", told)), min(number, MOST_SHOWN))
            self.assertIn(rest, " ".join(told.split()))
            self.assertEqual("not shown" in told, bool(rest))

    def test_twenty_thousand_findings_are_counted_soon(self):
        rows = "".join(f"({number}+99991n, 0+7n);\n" for number in range(20_000))
        told = in_folder(f"relation r(t: time, u: time) {{\n{rows}}}", "", FIZHEDUL_WARN="always")
        self.assertIn("19995 more findings are not shown", " ".join(told.err.split()))

    def test_texts_in_the_words_have_names(self):
        told = shell("fizhedul decide db=- query='{ t: time | shift(t, \"Cloe\") }' <<<'" + SHIFT.replace("\n", " ") + "'",
                     FIZHEDUL_WARN="always")
        self.assertEqual((told.status, told.out), (0, "Empty\n"))
        self.assertTrue(told.err.startswith("fizhedul: warning: query:1:22\n"), told.err)
        told = shell("fizhedul check db=- <<<'relation r(t: time, u: time) { (5+60n, 6+60n); }'", FIZHEDUL_WARN="always")
        self.assertTrue(told.err.startswith("fizhedul: warning: db:1:32\n"), told.err)

    def test_a_pipe_is_read_once(self):
        with tempfile.TemporaryDirectory() as name:
            Path(name, "a.lrp").write_text(CASES[0][0])
            told = shell("fizhedul check db=<(cat a.lrp)", Path(name), FIZHEDUL_WARN="always")
            self.assertEqual((told.status, told.err), (0, ""))
            self.assertIn("(5+60n, 30+60n)", told.out)

    def test_a_program_of_which_little_is_known_is_asked_quietly(self):
        with tempfile.TemporaryDirectory() as name:
            folder = Path(name)
            Path(name, "a.lrp").write_text(CASES[0][0])
            # One without the command, one that writes what nobody knows, and one that is killed.
            for script in ('[ "$1" != lint ] || { echo "refused: usage"; exit 2; }\n', '[ "$1" != lint ] || echo "database Odd r 1"\n',
                           '[ "$1" != lint ] || kill -9 $$\n'):
                told = run("check", "db=a.lrp", folder=folder, FIZHEDUL_WARN="always", FIZHEDUL_PROGRAM=str(fake(folder, script + "echo ran\n")))
                self.assertEqual(tuple(told), (0, "ran\n", ""))

    def test_python_is_started_for_a_finding_alone(self):
        with tempfile.TemporaryDirectory() as name:
            folder = Path(name)
            shutil.copy(LAUNCHER, folder)
            shutil.copytree(TOP / "share", folder / "share")
            (folder / "share/launcher/warn.py").write_text("print('warned')\n")
            (folder / "a.lrp").touch()
            program = fake(folder, 'case $2 in db=a.lrp) echo "database EmptyRow r 1" ;; esac\necho end\n')
            for file, wanted in (("a.lrp", "warned\n"), ("program", "")):
                said = shell(f"./fizhedul check db={file}", folder, FIZHEDUL_WARN="always", FIZHEDUL_PROGRAM=str(program))
                self.assertEqual(said.err, wanted)

    def test_each_entry_is_one_sentence_and_what_to_do(self):
        entries = read_catalogue(FINDINGS)
        self.assertEqual([entry.heading.split()[1] for entry in entries],
                         ["EmptyRow", "UntiedTimes", "RowLimit", "UnknownText", "EmptyRelation"])
        for entry in entries:
            self.assertRegex(entry.means, r"^[A-Z][^.]*\.$")
            self.assertRegex(entry.to_do, r"^[A-Z].*\.$")


if __name__ == "__main__":
    unittest.main()
