"""Each kind of refusal is explained, on standard error alone, with the caret where the fault is."""

import os
import re
import subprocess
import tempfile
import unittest
from pathlib import Path
from typing import NamedTuple

import support
from catalogue import read_catalogue
from places import Place, caret_line, clean, show_place
from support import TOP, fake, run
from usage import find_fault

BUS = "relation bus(t: time) { (5+60n); }"
TRIP = 'relation trip(t: time, l: line) { (5+60n, "7"); }'
ASK = "{ t: time | bus(t) }"
BIG = "4611686018427387905"
LONG = "x" * 256
NINE = ", ".join(f"c{i}: time" for i in range(9))
DOUBLED = "define d0() as 0 = 0; " + "".join(f"define d{i}() as d{i - 1}() or d{i - 1}(); " for i in range(1, 21)) + "{ | d20() }"
DEEP = "define d0() as 0 = 0; " + "".join(f"define d{i}() as {'not ' * 60}d{i - 1}(); " for i in range(1, 8)) + "{ | d7() }"
TOKEN = "T2/" + "0" * 64 + "/5/"


class Case(NamedTuple):
    """A refusal that is wanted, for a database and a query, with the text that begins under the caret."""

    line: str
    db: str | bytes
    query: str | bytes = ASK
    caret: str = ""
    more: tuple[str, ...] = ()
    command: str = "decide"
    edits: str | bytes = ""
    said: str = ""


DATABASE = [
    Case("refused: database Utf8 at 2:3", b"# \xc3\xa4\n# \xff\n", caret="\ufffd"),
    Case("refused: database Syntax at 1:33", "relation bus(t: time) { (5+60n) }", caret="}",
         said="Syntax error: this is not expected here. Here may stand: 'where' or ';'."),
    Case("refused: database Number at 2:4", f"relation r(t: time) {{\n  ({BIG}); }}", caret=BIG),
    Case("refused: database Period at 1:26", "relation r(t: time) { (5+0n); }", caret="0"),
    Case("refused: database TextTooLong at 1:23", f'relation r(d: data) {{("{LONG}"); }}', caret='"x'),
    Case("refused: database Name at 2:10", f"{BUS}\nrelation bus() {{ }}", caret="bus"),
    Case("refused: database Arity at 1:23", "relation r(t: time) { (5, 6); }", caret="(",
         said="The relation 'r' has 1 column, but the row has 2 values: r(t: time)."),
    Case("refused: database Sort at 1:24", 'relation r(t: time) { ("7"); }', caret='"7"',
         said="The column 't' is of sort time, so it holds points and numbers, and no texts."),
    Case("refused: database Column at 1:34", "relation r(t: time) { (5) where  u <= 5; }", caret="u"),
    Case("refused: database Wide at 1:92", f"relation r({NINE}) {{ }}", caret="c8"),
]
QUERY = [
    Case("refused: query Utf8 at 1:3", BUS, b"# \xff", caret="\ufffd"),
    Case("refused: query Syntax at 1:20", BUS, "{ t: time | bus(t) and bus(t) }", caret="and",
         said="A list stands in parentheses: (bus(t) and bus(t))."),
    Case("refused: query Number at 1:18", BUS, f"{{ t: time | t <= {BIG} }}", caret=BIG),
    Case("refused: query Period at 1:20", BUS, "{ t: time | t in 3+0n }", caret="0"),
    Case("refused: query Deep at 1:69", BUS, "{ | " + "(" * 64 + "0 = 0" + ")" * 64 + " }", caret="0"),
    Case("refused: query TextTooLong at 1:5", BUS, f'{{ | "{LONG}" = "7" }}', caret='"x'),
    Case("refused: query UnknownRelation at 1:13", BUS, "{ t: time | buss(t) }", caret="buss",
         said="The nearest name is 'bus'. Its relations are bus(t: time)."),
    Case("refused: query Arity at 1:13", BUS, "{ t: time | bus(t, t) }", caret="bus",
         said="The relation 'bus' has 1 column, but 2 terms are given: bus(t: time)."),
    Case("refused: query Sort at 1:17", BUS, '{ t: time | bus("7") }', caret='"7"',
         said="Its relations are bus(t: time)."),
    Case("refused: query Unbound at 1:30", BUS, "{ t: time | (bus(t) and t <= u) }", caret="u",
         said="No column of the head and no quantifier around it names 'u'."),
    Case("refused: query Rebound at 1:20", BUS, "{ t: time | exists t: time bus(t) }", caret="t"),
    Case("refused: query Wide at 1:83", BUS, f"{{ {NINE} | bus(c0) }}", caret="c8"),
    Case("refused: query Defined at 2:8", BUS, "define x(t: time) as bus(t);\ndefine x() as 0 = 0;\n{ | x(5) }", caret="x",
         more=("wide=yes",)),
    Case("refused: query UnknownSort at 1:6", TRIP, "{ l: lime | l = l }", caret="lime",
         said="Its sorts are time, line."),
]
EDITS = [
    Case("refused: edits Utf8 at 1:3", BUS, edits=b"# \xff", caret="\ufffd"),
    Case("refused: edits Syntax at 1:13", BUS, edits="+ bus (0+7n)", caret="",
         said="Here may stand: 'where' or ';'."),
    Case("refused: edits Number at 2:8", BUS, edits=f"# one\n+ bus ({BIG});", caret=BIG),
    Case("refused: edits Period at 1:10", BUS, edits="+ bus (5+0n);", caret="0"),
    Case("refused: edits TextTooLong at 1:9", TRIP, "{ t: time, l: line | trip(t, l) }", edits=f'+ trip ("{LONG}");', caret='"x'),
    Case("refused: edits UnknownRelation at 1:3", BUS, edits="- tram (1);", caret="tram",
         said="Its relations are bus(t: time)."),
    Case("refused: edits Arity at 1:7", BUS, edits="+ bus (5, 6);", caret="(",
         said="The relation 'bus' has 1 column, but the row has 2 values: bus(t: time)."),
    Case("refused: edits Sort at 1:8", BUS, edits='+ bus ("7");', caret='"7"',
         said="The column 't' is of sort time, so it holds points and numbers, and no texts."),
    Case("refused: edits Column at 1:17", BUS, edits="+ bus (5) where u <= 5;", caret="u",
         said="Its relations are bus(t: time)."),
]
OTHERS = [
    Case("refused: read of edits", BUS, more=("edits=none",), command="watch",
         said="The file that 'edits=' names can't be read: none: No such file or directory."),
    Case("refused: edits longer than 16777216 bytes", BUS, edits=" " * 16777217),
    Case("refused: query not kept", BUS, "{ t: time | not bus(t) }", edits="+ bus (1);"),
    Case("refused: period above 4611686018427387904 at edit 1", BUS, edits="+ bus (0+4611686018427387903n);"),
    Case("refused: bound above 4611686018427387904 at edit 0", BUS, "{ t: time | (bus(t) and t >= 4611686018427387904) }", edits="+ bus (1);"),
    Case("refused: more than 59 cells at edit 2", BUS, edits="- bus (0); + bus (0+7n);", more=("cap=59",)),
    Case("refused: read of database", "",
         said="The file that 'db=' names can't be read: a.lrp: No such file or directory."),
    Case("refused: read of query", BUS, "",
         said="The file that 'query=' names can't be read: b.lrq: No such file or directory."),
    Case("refused: database longer than 16777216 bytes", " " * 16777217),
    Case("refused: query longer than 16777216 bytes", BUS, " " * 16777217),
    Case("refused: period above 4611686018427387904", "relation r(t: time) { (0+4611686018427387904n); (0+3n); }",
         "{ t: time | r(t) }"),
    Case("refused: more than 1000000 formulas", BUS, DOUBLED, more=("wide=yes",)),
    Case("refused: deeper than 400 formulas", BUS, DEEP, more=("wide=yes",)),
    Case("refused: bound above 4611686018427387904", BUS, "{ t: time | (bus(t) and t >= 4611686018427387904) }"),
    Case("refused: more than 1 cells at step 1", "relation r(t: time) { (0+4n); (1+4n); }", "{ t: time | r(t) }",
         more=("cap=1",)),
    Case("refused: canon needs one time column", "relation r(t: time, u: time) { (0+7n, 0+7n); }",
         "{ t: time, u: time | r(t, u) }", more=("canon=yes",), command="ask"),
    Case("refused: more than 2 canonical rows", "relation r(t: time) { (0+2n) where t >= 0, t <= 4; }",
         "{ t: time | r(t) }", more=("canon=yes", "cap=2"), command="ask"),
    Case("refused: count needs at most one time column", "relation r(t: time, u: time) { (0+7n, 0+7n); }",
         "{ t: time, u: time | r(t, u) }", more=("from=0", "to=9"), command="count"),
    Case("refused: ranges needs one time column", TRIP, "{ t: time, l: line | trip(t, l) }", more=("from=0", "to=9"),
         command="ranges"),
    Case("refused: token form", BUS, more=("from=0", "to=9", "after=5"), command="list"),
    Case("refused: token shape", BUS, more=("from=0", "to=9", "after=T1/5,6/"), command="list"),
    Case("refused: token stale", BUS, more=("from=0", "to=9", "after=" + TOKEN), command="list"),
]
USAGE = [
    ((), "", "A command is missing.", "ask, decide, watch, list, count, ranges, explain, check, lint, sample"),
    (("lst", "db=a"), "lst", "'lst' is no command.", "'list'"),
    (("xyzzy",), "xyzzy", "'xyzzy' is no command.", "ask, decide, watch, list, count, ranges, explain, check, lint, sample, shell, draw, "),
    (("shel", "db=a"), "shel", "'shel' is no command.", "'shell'"),
    (("drw", "db=a"), "drw", "'drw' is no command.", "'draw'"),
    (("list", "db=a", "query=b", "from=2026-12-24", "to=9"), "from=2026", "'2026-12-24' has no time of day.",
     "Write from=2026-12-24T00:00, and add civil=yes."),
    (("list", "db=a", "query=b", "to=2026-12-24", "civil=yes"), "to=2026", "no time of day.", "Write to=2026-12-24T23:59."),
    (("smaple",), "smaple", "'smaple' is no command.", "'sample'"),
    (("sample", "seed=1", "size=501"), "size=501", "'501' is no value of 'size'.", "from 1 to 500"),
    (("sample", "seed=1000001", "size=1"), "seed=1", "'1000001' is no value of 'seed'.", "from 0 to 1000000"),
    (("sample", "size=5"), "", "'sample' needs the key 'seed'.", "seed=1"),
    (("sample", "seed=1", "size=5", "cap=1"), "cap=1", "'sample' has no key 'cap'.", "seed, size"),
    (("ask", "db=a", "query=b", "as=9x"), "as=9x", "'9x' is no value of 'as'.", "Write a name of letters"),
    (("ask", "db=a", "query=b", "as=in"), "as=in", "'in' is no value of 'as'.", "no word of the language"),
    (("list", "db=a", "query=b", "as=x"), "as=x", "'list' has no key 'as'.", "wide"),
    (("watch", "db=a", "wide=yes"), "wide=yes", "'watch' has no key 'wide'.", "db, query, edits"),
    (("check", "a.lrp"), "a.lrp", "'a.lrp' is no KEY=VALUE.", "db=a.lrp"),
    (("check", "--help"), "--help", "'--help' is no KEY=VALUE.", "'fizhedul help check'"),
    (("check", "db", "=a"), "db", "'db' is no KEY=VALUE.", "without a blank"),
    (("check", "dv=a"), "dv=a", "'check' has no key 'dv'.", "'db'"),
    (("ask", "db=a", "qery=b"), "qery=b", "'ask' has no key 'qery'.", "'query'"),
    (("check", "db=a", "cap=5"), "cap=5", "'check' has no key 'cap'.", "db"),
    (("check", "db=a", "db=b"), "db=b", "The key 'db' stands twice.", "one of the two"),
    (("check", "db="), "db=", "'db' has no value.", "the name of a file"),
    (("ask", "db=a", "query=b", "cap=0"), "cap=0", "'0' is no value of 'cap'.", "from 1 to 1000000000"),
    (("ask", "db=a", "query=b", "cap=1000000001"), "cap=1", "'1000000001' is no value", "from 1 to 1000000000"),
    (("list", "db=a", "query=b", "from=05", "to=9"), "from=05", "'05' is no value of 'from'.", "leading zeros"),
    (("list", "db=a", "query=b", "from=-0", "to=9"), "from=-0", "'-0' is no value of 'from'.", "whole number"),
    (("list", "db=a", "query=b", "from=0", "to=" + BIG), "to=", f"'{BIG}' is no value of 'to'.", "whole number"),
    (("list", "db=a", "query=b", "from=0", "to=9", "limit=1e3"), "limit=1e3", "'1e3' is no value", "whole number"),
    (("list", "db=a", "query=b", "from=0", "to=9", "form=xml"), "form=xml", "'xml' is no value", "plain or json"),
    (("list", "db=a", "query=b", "from=0", "to=9", "form=csv"), "form=csv", "'csv' is no value", "'fizhedul export csv'"),
    (("decide", "db=a", "query=b", "show=dates"), "show=dates", "Dates are shown of civil times alone.", "Add civil=yes"),
    (("decide", "db=a", "query=b", "show=date", "civil=yes"), "show=date", "'date' is no value of 'show'.", "minutes or dates"),
    (("list", "db=a", "query=b", "from=0", "to=9", "show=dates"), "show=dates", "'list' has no key 'show'.", "civil"),
    (("watch", "db=a", "query=b", "edits=c", "kept=no"), "kept=no", "'no' is no value of 'kept'.", "yes or auto"),
    (("decide", "db=a", "query=b", "kept=auto"), "kept=auto", "'decide' has no key 'kept'.", "db, query"),
    (("cuont", "db=a"), "cuont", "'cuont' is no command.", "'count'"),
    (("range", "db=a"), "range", "'range' is no command.", "'ranges'"),
    (("count", "db=a", "query=b", "from=0", "to=9", "limit=5"), "limit=5", "'count' has no key 'limit'.", "db, query, from, to, cap"),
    (("ranges", "db=a", "query=b", "from=0", "to=9", "after=5"), "after=5", "'ranges' has no key 'after'.", "limit, form"),
    (("ranges", "db=a", "query=b", "from=0"), "", "'ranges' needs the key 'to'.", "to=NUMBER"),
    (("count", "db=a", "query=b", "from=2024-02-29", "civil=yes"), "from=2024", "no time of day.", "Write from=2024-02-29T00:00."),
    (("check", "db=a", "tense=yes"), "tense=yes", "'check' has no key 'tense'.", "db, civil"),
    (("ask", "db=a", "query=b", "tense=on"), "tense=on", "'on' is no value of 'tense'.", "no or yes"),
    (("decide", "db=a", "query=b", "canon=yes"), "canon=yes", "'decide' has no key 'canon'.", "db, query, cap, plan, tense, wide, civil, show"),
    (("ask", "db=a", "query=b", "canon=on"), "canon=on", "'on' is no value of 'canon'.", "no or yes"),
    (("ask", "db=a", "query=b", "cannon=yes"), "cannon=yes", "'ask' has no key 'cannon'.", "'canon'"),
    (("check", "db=a", "civil=true"), "civil=true", "'true' is no value of 'civil'.", "no or yes"),
    (("ask", "db=a", "query=b", "cvil=yes"), "cvil=yes", "'ask' has no key 'cvil'.", "'civil'"),
    (("list", "civil=yes", "db=a", "query=b", "from=5"), "from=5", "'5' is no value of 'from'.", "civil=no beside a number"),
    (("list", "db=a", "query=b", "from=2023-02-29T00:00", "civil=yes"), "from=2023", "no value", "a date and a time of day"),
    (("list", "db=a", "query=b", "from=2024-02-29T00:00"), "from=2024", "is a date, and times are numbers", "add civil=yes"),
    (("list", "db=a", "query=b", "from=2024-02-29T00:00", "to=2024-02-29 08:15", "civil=yes"), "to=2024", "no value",
     "as 2024-02-26T08:15"),
    (("list", "db=a", "query=b", "from=0"), "", "'list' needs the key 'to'.", "to=NUMBER"),
    (("ask", "db=a"), "", "'ask' needs the key 'query'.", "query=FILE.lrq"),
    (("watch", "db=a", "query=b"), "", "'watch' needs the key 'edits'.", "edits=FILE.lre"),
    (("watch", "db=a", "query=b", "c.lre"), "c.lre", "'c.lre' is no KEY=VALUE.", "edits=c.lre"),
    (("watch", "db=a", "query=b", "edits=c", "civil=yes"), "civil=yes", "'watch' has no key 'civil'.", "db, query, edits, cap, kept, plan"),
]


def write(path: Path, content: str | bytes) -> None:
    """Writes a file, but for one without content, which is to be missing."""
    if content:
        path.write_bytes(content.encode() if isinstance(content, str) else content)


def sentences_of(heading: str) -> tuple[str, str]:
    """What the page says of a refusal."""
    entry = next(entry for entry in read_catalogue() if entry.heading == heading)
    return entry.means, entry.to_do


def heading_of(line: str) -> str:
    """The heading of the page for a line of the program."""
    return next(entry.heading for entry in read_catalogue() if entry.pattern.fullmatch(line))


class Explained(unittest.TestCase):
    """The program's own refusals."""

    def explain(self, case: Case) -> None:
        """The refusal of a case, its caret and its sentences."""
        with tempfile.TemporaryDirectory() as name:
            folder = Path(name)
            write(folder / "a.lrp", case.db)
            write(folder / "b.lrq", case.query)
            write(folder / "c.lre", case.edits)
            command = ["watch", "edits=c.lre"] if case.edits else [case.command]
            words = [*command, "db=a.lrp", "query=b.lrq", *case.more]
            plain = run(*words, folder=folder)
            told = run(*words, folder=folder, explain="always")
        self.assertEqual((plain.out, plain.err), (case.line + "\n", ""))
        self.assertEqual((told.status, told.out), (plain.status, plain.out))
        means, to_do = sentences_of(heading_of(case.line))
        words_told = " ".join(told.err.split())
        if case.said:
            # What is said exactly of a case is not said in general too.
            self.assertIn(case.said, words_told)
            self.assertNotIn(to_do, words_told)
        else:
            self.assertIn(means, words_told)
            self.assertIn(to_do, words_told)
        if case.caret:
            self.assertTrue(under_caret(told.err).startswith(case.caret), told.err)

    def test_database_faults(self):
        for case in DATABASE:
            with self.subTest(case.line):
                self.explain(case)

    def test_query_faults(self):
        for case in QUERY:
            with self.subTest(case.line):
                self.explain(case)

    def test_faults_of_edits(self):
        for case in EDITS:
            with self.subTest(case.line):
                self.explain(case)

    def test_files_limits_and_tokens(self):
        for case in OTHERS:
            with self.subTest(case.line):
                self.explain(case)

    def test_no_kind_is_left_out(self):
        tested = {heading_of(case.line) for case in DATABASE + QUERY + EDITS + OTHERS}
        others = {"refused: usage", "refused: memory", "no line, status 7"}
        self.assertEqual(tested | others, {entry.heading for entry in read_catalogue()})

    def test_each_entry_is_one_sentence_and_what_to_do(self):
        for entry in read_catalogue():
            self.assertRegex(entry.means, r"^[A-Z].*\.$")
            self.assertRegex(entry.to_do, r"^[A-Z].*\.$")

    def test_what_a_program_may_say_of_the_machine(self):
        with tempfile.TemporaryDirectory() as name:
            # The query fills six million cells, and the program gets 16 MB.
            program = fake(Path(name), f"ulimit -v 16000\nexec '{support.PROGRAM}' \"$@\"\n")
            told = run("decide", "db=line.lrp", "query=costly.lrq", "cap=1000000000", folder=TOP / "examples/guide",
                       explain="always", FIZHEDUL_PROGRAM=str(program))
            self.assertEqual((told.status, told.out), (8, "refused: memory\n"))
            self.assertIn(sentences_of("refused: memory")[0], " ".join(told.err.split()))

    def test_an_output_that_can_not_be_written(self):
        words = [support.LAUNCHER, "check", "db=examples/bus/bus.lrp"]
        for explain, wanted in (("never", ""), ("always", sentences_of("no line, status 7")[0])):
            with open("/dev/full", "wb") as full:
                done = subprocess.run(words, cwd=TOP, stdout=full, stderr=subprocess.PIPE, check=False, text=True,
                                      env=support.environment(FIZHEDUL_EXPLAIN=explain))
            self.assertEqual(done.returncode, 7)
            self.assertIn(wanted, " ".join(done.stderr.split()))

    def test_a_reader_that_leaves_is_no_matter(self):
        script = f"'{support.LAUNCHER}' check db=examples/week/week.lrp | true; echo ${{PIPESTATUS[0]}}"
        for explain in ("never", "always"):
            done = support.shell(script, explain=explain)
            self.assertEqual(done.err, "")

    def test_outputs_that_are_closed(self):
        for explain in ("never", "always"):
            for line, wanted in (("fizhedul check db=bus.lrp >&-", (7, "")), ("fizhedul lst >&-", (7, "")),
                                 ("fizhedul lst 2>&-", (2, "refused: usage\n")), ("fizhedul lst <&-", (2, "refused: usage\n"))):
                with self.subTest(line):
                    done = support.shell(line, TOP / "examples/bus", explain)
                    self.assertEqual((done.status, done.out), wanted)

    def test_words_that_a_terminal_must_not_obey(self):
        told = run("\x1b[31mred", explain="always")
        self.assertEqual((told.status, told.out), (2, "refused: usage\n"))
        self.assertNotIn("\x1b", told.err)

    def test_a_pipe_and_a_folder(self):
        with tempfile.TemporaryDirectory() as name:
            os.mkfifo(Path(name, "pipe"))
            told = support.shell("echo x >pipe & fizhedul check db=pipe", Path(name), "always")
            self.assertEqual((told.status, told.out), (3, "refused: database Syntax at 1:1\n"))
            self.assertIn(sentences_of("refused: database Syntax at L:C")[1], " ".join(told.err.split()))
            told = run("check", "db=" + name, explain="always")
            self.assertIn("Is a directory.", told.err)

    def test_details_of_the_files(self):
        folder = TOP / "examples/bus"
        told = run("decide", "db=bus.lrp", "query=misspelt.lrq", folder=folder, explain="always")
        self.assertIn("Its relations are bus(t: time).", told.err)
        told = run("check", "db=tram.lrp", folder=folder, explain="always")
        self.assertIn("tram.lrp: No such file or directory.", told.err)
        folder = TOP / "examples/maintenance"
        told = run("decide", "db=maintenance.lrp", "query=far.lrq", folder=folder, explain="always")
        self.assertIn("The greatest numbers in both files are 4611686018427387904, 504, 336, 168.", " ".join(told.err.split()))
        told = run("decide", "db=maintenance.lrp", "query=unattended.lrq", "cap=5", folder=folder, explain="always")
        self.assertIn("'2 scan due(t, m) [period 1008, reach 1008]'", " ".join(told.err.split()))

    def test_details_of_civil_values(self):
        for row, wanted in (
                ("weekly mon 24:00", "Hours are 00 to 23, and minutes 00 to 59."),
                ("daily 08:60", "Hours are 00 to 23, and minutes 00 to 59."),
                ("weekly monday 08:15", "'monday' is no day of the week: they are mon, tue, wed, thu, fri, sat, sun."),
                ("on 2023-02-29 08:15", "There is no day 2023-02-29."),
                ("on 2024-13-01 08:15", "There is no day 2024-13-01."),
                ("daily  08:15", "with one blank where one is shown."),
                ("daily 8:15", "A civil value is 'daily HH:MM'"),
                ("on 24-02-29 08:15", "A civil value is 'daily HH:MM'"),
                ("daily 08:155", "A civil value is 'daily HH:MM'"),
                ("5 daily 08:15", "'daily 08:15' is read as 495+1440n, which can't stand here."),
                ("daily", "Here may stand: ')' or a value."),
                ("daily 08:15 5", "Here may stand: ',' or ')'.")):
            with self.subTest(row), tempfile.TemporaryDirectory() as name:
                Path(name, "a.lrp").write_text(f'relation r(t: time) {{ # daily 08:15, "\n  ({row}); }}')
                told = run("check", "db=a.lrp", "civil=yes", folder=Path(name), explain="always")
                self.assertRegex(told.out, r"^refused: database Syntax at 2:\d+\n$")
                self.assertIn(wanted, " ".join(told.err.split()))
        with tempfile.TemporaryDirectory() as name:
            Path(name, "a.lrp").write_text("relation r(t: time) { (0+1n) where t <= daily 08:15; }")
            for keys, place, wanted in (([], 47, "Civil values, as 'daily 08:15', are read with civil=yes."),
                                        (["civil=yes"], 44, "'daily 08:15' is read as 495+1440n, which can't stand here.")):
                told = run("check", "db=a.lrp", *keys, folder=Path(name), explain="always")
                self.assertEqual(told.out, f"refused: database Syntax at 1:{place}\n")
                self.assertIn(wanted, " ".join(told.err.split()))

    def test_details_of_temporal_operators(self):
        for formula, keys, wanted in (
                ("once t (0, 5) bus(t)", [], "Temporal operators, as 'once t (-10, 0) ..', are read with tense=yes."),
                ("not since t (bus(t), bus(t))", ["tense=no"], "are read with tense=yes."),
                ("once t (0 5) bus(t)", ["tense=yes"], "Here may stand: ','."),
                ("once t = 5", ["tense=yes"], "Here may stand: '('."),
                ("since t (bus(t))", ["tense=yes"], "Here may stand: ','."),
                ("until t (bus(t), 5)", ["tense=yes"], "Here may stand: 'in', '<=', '>=', '<', '>' or '='."),
                ("once 5", ["tense=yes"], "Here may stand: a name, '(', '+', '-', 'in',")):
            with self.subTest(formula), tempfile.TemporaryDirectory() as name:
                Path(name, "a.lrp").write_text(BUS)
                Path(name, "b.lrq").write_text(f"{{ t: time | {formula} }}")
                told = run("explain", "db=a.lrp", "query=b.lrq", *keys, folder=Path(name), explain="always")
                self.assertRegex(told.out, r"^refused: query Syntax at 1:\d+\n$")
                self.assertIn(wanted, " ".join(told.err.split()))

    def test_details_of_the_wide_language(self):
        for query, keys, wanted in (
                ("define x() as 0 = 0; { | x() }", [], "This is in the wide language, which is read with wide=yes."),
                ("{ | exists a, b: time bus(a) }", ["wide=no"], "Or give wide=yes: then it may be written so."),
                ("{ | exists a, b: time bus(a }", [], "Each variable has a quantifier and a sort of its own"),
                ("{ | bus(*) }", ["tense=yes"], "Or give wide=yes: then it may be written so."),
                ("{ | bus(on 2026-03-01 00:00) }", [], "which is read with wide=yes and civil=yes."),
                ("{ | bus(on 2026-03-01 00:00) }", ["wide=yes"], "are read with civil=yes."),
                ("{ t: time | t in every 3 days from 2026-01-05 08:15 }", ["wide=yes", "civil=yes"], "here '1935+4320n' says the same."),
                ("{ | * = 5 }", ["wide=yes"], "Here may stand: a formula."),
                ("{ | bus(5) & bus(6) }", ["wide=yes"], "Write 'and'."),
                ("{ | 5 <> 6 }", ["wide=yes"], "'Not equal' is written 'a != b'."),
                ("define x(t: time) as bus(t) { | x(5) }", ["wide=yes"], "Here may stand: 'and', 'or', 'implies' or ';'.")):
            with self.subTest(query), tempfile.TemporaryDirectory() as name:
                Path(name, "a.lrp").write_text(BUS)
                Path(name, "b.lrq").write_text(query)
                told = run("explain", "db=a.lrp", "query=b.lrq", *keys, folder=Path(name), explain="always")
                self.assertRegex(told.out, r"^refused: query Syntax at 1:\d+\n$")
                self.assertIn(wanted, " ".join(told.err.split()))

    def test_a_key_is_told_where_the_command_has_it(self):
        with tempfile.TemporaryDirectory() as name:
            Path(name, "a.lrp").write_text(BUS)
            Path(name, "b.lrp").write_text("relation r(t: time) { (every 3 days from 2026-01-05 08:15); }")
            Path(name, "c.lre").write_text("")
            query = "query={ t: time | bus(t) and bus(t) }"
            for words, told in ((["list", query, "from=0", "to=9"], True), (["lint", query], False),
                                (["watch", query, "edits=c.lre"], False)):
                said = run(words[0], "db=a.lrp", *words[1:], folder=Path(name), explain="always")
                self.assertEqual(said.out, "refused: query Syntax at 1:20\n")
                self.assertIn("A list stands in parentheses: (bus(t) and bus(t)).", " ".join(said.err.split()))
                self.assertEqual("wide=yes" in said.err, told, words)
            for words, wanted in ((["check"], "are read where a query is asked with wide=yes."), (["decide", query], "are read with wide=yes.")):
                said = run(words[0], "db=b.lrp", "civil=yes", *words[1:], folder=Path(name), explain="always")
                self.assertEqual(said.out, "refused: database Syntax at 1:24\n")
                self.assertIn(wanted, " ".join(said.err.split()))

    def test_details_of_definitions(self):
        for query, wanted in (
                ("define x() as y(); define y() as 0 = 0; { | x() }", "The definition of 'y' doesn't stand before this place"),
                ("define x() as x(); { | x() }", "The definition of 'x' doesn't stand before this place"),
                ("define late(t: time) as bus(t); { | lat(5) }", "The nearest name is 'late'."),
                ("define late(t: time) as bus(t); { | late() }",
                 "The definition 'late' has 1 column, but 0 terms are given: late(t: time). A column that doesn't matter gets a '*'."),
                ("define late() as bus(u); { | late() }", "No column of the definition and no quantifier around it names 'u'."),
                ("{ | bus(_) }", "A column that doesn't matter has a '*' in place of a term.")):
            with self.subTest(query), tempfile.TemporaryDirectory() as name:
                Path(name, "a.lrp").write_text(BUS)
                Path(name, "b.lrq").write_text(query)
                told = run("explain", "db=a.lrp", "query=b.lrq", "wide=yes", folder=Path(name), explain="always")
                self.assertRegex(told.out, r"^refused: query (UnknownRelation|Arity|Unbound) at 1:\d+\n$")
                self.assertIn(wanted, " ".join(told.err.split()))

    def test_the_step_of_a_query_with_operators(self):
        words = ["decide", "db=line.lrp", "query=pause.lrq", "tense=yes", "cap=5"]
        told = run(*words, folder=TOP / "examples/guide", explain="always")
        self.assertRegex(" ".join(told.err.split()), r"The step is '\d+ [^']*t~1")

    def test_the_columns_of_a_head_without_a_canonical_form(self):
        for head, wanted in (("d: data, t: time , u:time", ["Its columns of sort time are t, u."]), ("d: data", [])):
            with self.subTest(head), tempfile.TemporaryDirectory() as name:
                Path(name, "a.lrp").write_text("relation r() { (); }")
                Path(name, "b.lrq").write_text("# { x: time |\n{ %s | (r() and not r()) }" % head)
                told = run("ask", "db=a.lrp", "query=b.lrq", "canon=yes", folder=Path(name), explain="always")
                self.assertEqual(told.out, "refused: canon needs one time column\n")
                self.assertEqual(re.findall(r"Its columns [^.]*\.", " ".join(told.err.split())), wanted)

    def test_the_columns_of_a_head_without_ranges(self):
        for head, wanted in (("d: data,\n t: time", "Its columns are d: data, t: time."), ("", "The head has no column.")):
            with self.subTest(head), tempfile.TemporaryDirectory() as name:
                Path(name, "a.lrp").write_text("relation r() { (); } relation s(t: time, d: data) { }")
                Path(name, "b.lrq").write_text("{ %s | r() }" % head)
                told = run("ranges", "db=a.lrp", "query=b.lrq", "from=0", "to=5", folder=Path(name), explain="always")
                self.assertEqual(told.out, "refused: ranges needs one time column\n")
                self.assertIn(wanted, " ".join(told.err.split()))

    def test_the_step_and_the_numbers_of_a_civil_database(self):
        folder = TOP / "examples/dates"
        words = ["decide", "db=rides.lrp", "query=connections.lrq", "civil=yes"]
        told = run(*words, "cap=20", folder=folder, explain="always")
        self.assertRegex(" ".join(told.err.split()), r"The step is '1 scan trip\(d, b, \"Airport\", h\) ")
        with tempfile.TemporaryDirectory() as name:
            Path(name, "a.lrp").write_text("relation r(t: time) { (daily 08:15); (0+4611686018427387903n); }")
            Path(name, "b.lrq").write_text(ASK.replace("bus", "r"))
            told = run("decide", "db=a.lrp", "query=b.lrq", "civil=yes", folder=Path(name), explain="always")
            self.assertIn("The greatest periods in both files are 4611686018427387903, 1440.", " ".join(told.err.split()))

    def test_a_file_that_is_read_once_has_its_sentences(self):
        for words in ("db=<(echo relation)", "db=/dev/stdin < <(echo relation)"):
            told = support.shell(f"fizhedul check {words}", explain="always")
            self.assertEqual((told.status, told.out), (3, "refused: database Syntax at 2:1\n"))
            self.assertIn(sentences_of("refused: database Syntax at L:C")[0], " ".join(told.err.split()))

    def test_without_a_terminal_nothing_is_told(self):
        done = subprocess.run([support.LAUNCHER, "lst"], stdin=subprocess.DEVNULL, capture_output=True, check=False,
                              env={**support.environment(), "FIZHEDUL_EXPLAIN": ""})
        self.assertEqual((done.returncode, done.stdout, done.stderr), (2, b"refused: usage\n", b""))


TWO = "relation bus(dep: time, arr: time) { (5+60n, 30+60n) where arr = dep + 25; }"
# Mistakes of newcomers: the kind of text, the text, and what is said of it; the general sentences are not said then.
HINTS = [
    ("db", "relation bus(t: time, l: line) { (5+60n, Ada); }", 'A text stands between quotes: "Ada".'),
    ("db", "relation bus(t: time, l: line) { (5+60n, \u201c7\u201d); }", 'Texts stand between straight double quotes, as "7".'),
    ("db", "relation bus(t: time, l: line) { (5+60n, '7'); }", 'Texts stand between straight double quotes, as "7".'),
    ("db", "\ufeff" + BUS, "The file has a byte order mark; save it as UTF-8 without one."),
    ("db", "relation bus(t: Time) { (5+60n); }", "Capitals count: times are of the sort 'time', and 'Time' is a sort of texts."),
    ("db", "Relation bus(t: time) { }", "Words of the language have small letters: write 'relation'."),
    ("db", "relation bus(a, b: time) { }", "Each column has its sort: 'a: time, b: time'."),
    ("db", "relation bus(t: time) { (08:15); }", "Write a time of day as 'daily 08:15' or 'weekly mon 08:15', and give civil=yes."),
    ("db", "relation bus(t: time) { (2026-12-24 08:15); }", "Write a date as 'on 2026-12-24 08:15', and give civil=yes."),
    ("db", "relation bus(t: time) { (on 2026-12-24 08:15); }", "Civil values, as 'daily 08:15', are read with civil=yes."),
    ("db", "relation bus(t: time) { (2.5); }", "Numbers are whole: choose a smaller unit of time."),
    ("query", "{ t: Time | bus(t, t) }", "Capitals count: write 'time'."),
    ("query", "{ | exists a, b: time bus(a, b) }", "Each variable has a quantifier and a sort of its own: 'exists a: time exists b: time F'."),
    ("query", "{ a, b: time | bus(a, b) }", "Each column has its sort: 'a: time, b: time'."),
    ("query", "{ a: time | exists b: time (bus(a, b) and a != b) }", "'Not equal' is written 'not a = b'."),
    ("query", "{ a: time | exists b: time (bus(a, b) and a <> b) }", "'Not equal' is written 'not a = b'."),
    ("query", "{ a: time | bus(a, _) }", "There is no wildcard: a column that doesn't matter has a variable of its own"),
    ("query", "{ a: time | exists b: time (bus(a, b) and 2*a = b) }", "Products can't be said."),
    ("query", "{ a: time | exists b: time (bus(a, b) and b - a <= 25) }", "'b - a <= 25' is 'b <= a + 25'."),
    ("query", "{ a: time | exists b: time (bus(a, b) and b = a + b) }", "Sums of two times can't be said; an offset is a number."),
    ("query", "{ a: time | exists b: time bus(a, b) and a <= 480 }", "A list stands in parentheses: (exists b: time bus(a, b) and a <= 480)."),
    ("query", "{ a: time | (a = 1 and a = 2 or a = 3) }", "A list has one kind of word"),
    ("query", "{ a: time | (a = 1 && a = 2) }", "Write 'and', with the list in parentheses"),
    ("query", "{ a: time | a == 1 }", "Write '='."),
    ("query", "{ a: time | exists b: time (bus(a, b) and 5 <= a + 1 < b) }",
     "A comparison has two sides; write two of them, as '(.. <= a + 1 and a + 1 < ..)'."),
    ("db", "relation bus(t: time, u: time) { (5+60n, 6+60n) where t <= u <= 9; }",
     "A comparison has two sides; write two of them, as 'where .. <= u, u <= ..'."),
    ("query", "{ a: time | a \u2264 1 }", "Write '<='."),
    ("query", "{ a: time | bus(a) }", "The relation 'bus' has 2 columns, but 1 term is given: bus(dep: time, arr: time)."),
    ("query", "{ | exists t: time bus(t, Ada) }", 'a text stands between quotes: "Ada".'),
    ("query", "{ t: time | bus(08:15, t) }", "In queries times are numbers: minutes since 1970-01-01 00:00"),
    ("edits", "+ bus (Ada, 5);", 'A text stands between quotes: "Ada".'),
]


class Hints(unittest.TestCase):
    """What to write instead of what newcomers write."""

    def test_each_mistake_has_its_remedy_and_nothing_general(self):
        for kind, text, wanted in HINTS:
            with self.subTest(text), tempfile.TemporaryDirectory() as name:
                texts = {"db": TWO, "query": "{ d: time, a: time | bus(d, a) }", "edits": ""} | {kind: text}
                for key, ending in (("db", "lrp"), ("query", "lrq"), ("edits", "lre")):
                    Path(name, f"a.{ending}").write_text(texts[key])
                command = {"db": ["check"], "query": ["decide", "query=a.lrq"], "edits": ["watch", "query=a.lrq", "edits=a.lre"]}
                told = run(*command[kind], "db=a.lrp", folder=Path(name), explain="always")
                said = " ".join(told.err.split())
                self.assertIn(wanted, said)
                for sentence in sentences_of(heading_of(told.out.rstrip("\n"))):
                    self.assertNotIn(sentence, said)

    def test_files_that_are_exchanged(self):
        with tempfile.TemporaryDirectory() as name:
            Path(name, "a.lrp").write_text("# A plan.\n" + BUS)
            Path(name, "b.lrq").write_text("# A question.\n" + ASK)
            told = run("ask", "db=b.lrq", "query=a.lrp", folder=Path(name), explain="always")
            self.assertIn("The files of 'db=' and 'query=' are exchanged: 'b.lrq' is a query, and 'a.lrp' is a database.",
                          " ".join(told.err.split()))
            told = run("ask", "db=b.lrq", "query=b.lrq", folder=Path(name), explain="always")
            self.assertIn("'b.lrq' is a query, and 'db=' names a database.", " ".join(told.err.split()))

    def test_a_text_in_place_of_a_file(self):
        told = run("ask", "db=examples/bus/bus.lrp", "query=bus(t)", explain="always")
        self.assertEqual(told.out, "refused: read of query\n")
        self.assertIn("'bus(t)' looks like a text and not like the name of a file; a query that is given here begins with '{', "
                      "or with 'define' where its '{' comes later.", " ".join(told.err.split()))
        told = run("check", "db=relation bus(t: time) { (5); }", explain="always")
        self.assertEqual(told.out, "refused: read of database\n")
        self.assertIn("looks like a text and not like the name of a file; the text goes into a file of its own.",
                      " ".join(told.err.split()))

    def test_a_letter_of_several_bytes_is_shown_whole(self):
        for text in ("\ufeff" + BUS, "relation bus(t: time, l: line) { (5, \u201c7\u201d); }"):
            with tempfile.TemporaryDirectory() as name:
                Path(name, "a.lrp").write_text(text)
                told = run("check", "db=a.lrp", folder=Path(name), explain="always").err
                self.assertIn(text.replace("\ufeff", "\ufffd"), told)
                self.assertRegex(told, r"(?m)^ +\^$")

    def test_a_higher_cap_has_its_price(self):
        folder = TOP / "examples/guide"
        told = run("decide", "db=line.lrp", "query=costly.lrq", "cap=100000", folder=folder, explain="always")
        self.assertRegex(" ".join(told.err.split()),
                         r"A step with 1000000 cells may take \d+\.\d GB and \d+ seconds; this machine has \d+ GB\.")
        told = run("decide", "db=line.lrp", "query=costly.lrq", "cap=10", folder=folder, explain="always")
        self.assertNotIn("this machine has", " ".join(told.err.split()))


class Usage(unittest.TestCase):
    """Which word is wrong, and the nearest one."""

    def test_each_fault_of_words(self):
        for words, caret, means, to_do in USAGE:
            with self.subTest(words):
                told = run(*words, explain="always")
                self.assertEqual((told.status, told.out), (2, "refused: usage\n"))
                self.assertEqual(under_caret(told.err)[:len(caret)], caret)
                said = " ".join(told.err.split())
                self.assertIn(means, said)
                self.assertIn(to_do, said.split(means)[1])

    def test_words_that_spell_a_command_have_no_fault(self):
        for words in ("check db=a", "ask query=b db=a", "ask db=a query=b cap=1000000000", "list db=a query=b to=0 from=-5",
                      "list db=a query=b from=0 to=0 limit=1000000 after= form=json cap=1", "decide db=a=b query=b",
                      "list db=a query=b from=-4611686018427387904 to=4611686018427387904",
                      "ask db=a query=b tense=yes civil=no", "ask canon=yes db=a query=b cap=1", "ask db=a query=b as=define wide=yes", "explain wide=no db=a query=b", "ask db=a query=b canon=no", "explain db=a query=b tense=no",
                      "list db=a query=b from=0001-01-01T00:00 to=9999-12-31T23:59 civil=yes", "count db=a query=b from=0 to=-9 plan=guarded",
                      "count db=a query=b from=2024-02-29T00:00 to=2024-02-29T08:15 civil=yes cap=5 tense=yes",
                      "ranges db=a query=b from=0 to=0 limit=1000000 form=json cap=1 plan=written tense=no civil=no", "check civil=no db=a",
                      "list db=a query=b civil=yes from=2024-02-29T23:59 to=1969-12-31T00:00", "explain db=a query=b civil=yes",
                      "decide db=a query=b show=dates civil=yes", "decide show=minutes db=a query=b",
                      "sample seed=0 size=1", "sample size=500 seed=1000000", "watch db=a query=b edits=c", "watch cap=1 edits=a query=a db=a", "watch db=a query=b edits=c kept=auto plan=guarded", "watch kept=yes db=a query=b edits=c"):
            self.assertIsNone(find_fault(words.split()), words)
            self.assertNotEqual(run(*words.split()).out, "refused: usage\n", words)


class Places(unittest.TestCase):
    """The line of a file and the caret under a place."""

    def test_columns_count_bytes_and_carets_stand_under_characters(self):
        line = '  ("Zürich", 日本, x)'.encode()
        for token in ("日本", "x"):
            shown = caret_line(line, line.index(token.encode()), 80).splitlines()
            cells_before = len(shown[1]) - len(shown[1].lstrip())
            wanted = {"日本": 2 + 2 + len('("Zürich", '), "x": 2 + 2 + len('("Zürich", ') + 4 + 2}
            self.assertEqual(cells_before, wanted[token])

    def test_a_long_line_is_cut_around_the_place(self):
        line = b"a " * 300 + b"here " + b"b " * 300
        shown = caret_line(line, 600, 60).splitlines()
        self.assertLess(max(map(len, shown)), 61)
        self.assertTrue(shown[0][shown[1].index("^"):].startswith("here"))

    def test_what_a_terminal_must_not_obey_is_not_shown(self):
        self.assertEqual(clean("a\x1b[2J\tb\u202e\x9b\r"), "a\ufffd[2J b\ufffd\ufffd")

    def test_the_end_of_a_file(self):
        with tempfile.TemporaryDirectory() as name:
            path = Path(name) / "a.lrp"
            path.write_text("relation r(\n\n")
            shown = show_place(Place(str(path), 3, 1), 80)
            self.assertEqual(shown, f"{path}:3:1\n  relation r(\n  \n  ^\n")

    def test_a_place_that_is_no_longer_there(self):
        with tempfile.TemporaryDirectory() as name:
            path = Path(name) / "a.lrp"
            self.assertEqual(show_place(Place(str(path), 1, 1), 80), "")
            path.write_text("x")
            self.assertEqual(show_place(Place(str(path), 7, 1), 80), "")
            os.truncate(path, 0)
            self.assertEqual(show_place(Place(str(path), 1, 9), 80), f"{path}:1:9\n  \n  ^\n")


def under_caret(told: str) -> str:
    """What stands above the caret of an explanation, from there on."""
    lines = told.splitlines()
    for above, line in zip(lines, lines[1:]):
        if re.fullmatch(r" *\^~*", line):
            return above[line.index("^"):]
    return ""


if __name__ == "__main__":
    unittest.main()
