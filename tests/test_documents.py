"""The documents: each command that they show writes what stands under it, and each file that they show is as shown."""

import re
import tempfile
import unittest
from collections import Counter
from collections.abc import Iterable
from pathlib import Path

from reached import Specs, lines_of
from recounts import passes
from support import TOP, need, run, shell

GUIDE = TOP / "docs/guide.md"
FOLDER = TOP / "examples/guide"


def blocks_of(document: Path) -> list[tuple[str, str]]:
    """The indented blocks of a document, each with the paragraph before it."""
    parts = document.read_text().split("\n\n")
    blocks: list[tuple[str, str]] = []
    before = ""
    for part in parts:
        if part.startswith("    "):
            blocks.append((before, re.sub(r"(?m)^    ", "", part).rstrip("\n") + "\n"))
        else:
            before = part
    return blocks


def commands_of(block: str) -> list[tuple[str, str]]:
    """The commands of a block, each with what stands under it."""
    return [(line, out) for line, out in re.findall(r"(?m)^\$ (.*)\n((?:(?!\$ ).*\n)*)", block)]


class Guide(unittest.TestCase):
    """The planner's guide, the first page, and those of the examples."""

    def test_each_command_writes_what_is_shown(self):
        count = 0
        pages = [(page, page.parent) for page in sorted(TOP.glob("examples/*/README.md"))]
        for document, folder in [(GUIDE, FOLDER), (TOP / "README.md", TOP), *pages]:
            for _, block in blocks_of(document):
                for line, wanted in commands_of(block):
                    with self.subTest(line):
                        done = shell(line, folder)
                        self.assertEqual((done.out, done.err), (wanted, ""))
                        count += 1
        self.assertGreater(count, 10)

    def test_each_file_is_as_it_is_shown(self):
        files = set()
        for before, block in blocks_of(GUIDE):
            named = re.findall(r"`([a-z]+\.lr[peq])`", before)
            if named and not block.startswith("$ "):
                with self.subTest(named[0]):
                    self.assertEqual((FOLDER / named[0]).read_text(), block)
                    files.add(named[0])
        self.assertEqual(files, {"line.lrp", "departures.lrq", "uncovered.lrq", "hourly.lrq", "trips.lrq", "costly.lrq", "within.lrq",
                                 "pause.lrq", "road.lrq", "driverless.lrq", "nobody.lrq", "doubtful.lrq", "doubled.lrq", "changes.lre", "closing.lre", "dates.lrp", "shifts.lrq"})


class Formats(unittest.TestCase):
    """What the formats show of an answer."""

    def test_the_canonical_answer_is_as_it_is_shown(self):
        section = (TOP / "docs/formats.md").read_text().split("### Canonical answers")[1].split("## Words")[0]
        database, wanted = re.findall(r"(?m)^    relation .*\n(?:    .*\n)+", section)
        query = re.findall(r"(?m)^The query `(\{.*\})` over$", section)[0]
        with tempfile.TemporaryDirectory() as name:
            Path(name, "a.lrp").write_text(database)
            Path(name, "b.lrq").write_text(query)
            answer = run("ask", "db=a.lrp", "query=b.lrq", folder=Path(name)).out
            self.assertEqual(len(re.findall(r"\+120n", answer)), 6)
            answer = run("ask", "db=a.lrp", "query=b.lrq", "canon=yes", folder=Path(name)).out
            self.assertEqual(answer, re.sub(r"(?m)^    ", "", wanted))


    def test_numbers_and_ranges_are_as_they_are_shown(self):
        page = (TOP / "docs/formats.md").read_text()
        database = re.findall(r"(?m)^Over `(relation bus.*)`, for", page)[0]
        count = 0
        for command, after in re.findall(r"(?ms)^`(count|ranges) db=F query=G from=A to=B` (.*?)(?=^`|^With `civil=yes` the times)", page):
            query = re.findall(r"[Ff]or `(\{.*?\})`", after)[0]
            with tempfile.TemporaryDirectory() as name:
                Path(name, "a.lrp").write_text(database)
                Path(name, "b.lrq").write_text(query)
                for words, shown in re.findall(r"(?m)^\| `(from=[^`]*)` \| (`.*`).* \|$", after):
                    with self.subTest(f"{command} {words}"):
                        wanted = "".join(line + "\n" for line in re.findall("`([^`]*)`", shown))
                        said = run(command, "db=a.lrp", "query=b.lrq", *words.split(), folder=Path(name))
                        self.assertEqual(said.out, wanted)
                        count += 1
        self.assertEqual(count, 12)


    def test_findings_are_as_they_are_shown(self):
        section = (TOP / "docs/formats.md").read_text().split("`lint db=F` and ")[1].split("`explain db=F")[0]
        head = re.findall(r"(?m)^\| Row of `(.*)` \| Output \|$", section)[0]
        rows = re.findall(r"(?m)^\| `(\(.*?)` \| (`.*) \|$", section)
        database = re.findall(r"(?m)^Over `(relation .*)`, which has no finding:$", section)[0]
        queries = re.findall(r"(?m)^\| `(\{.*?\})` \| (`.*) \|$", section)
        cases = [(f"{head} {{ {row}; }}", "", shown) for row, shown in rows]
        cases += [(database, query, shown) for query, shown in queries] + [(database, "", "`end`")]
        with tempfile.TemporaryDirectory() as name:
            for text, query, shown in cases:
                Path(name, "a.lrp").write_text(text)
                said = run("lint", "db=a.lrp", *([f"query={query}"] if query else []), folder=Path(name))
                self.assertEqual((said.out.splitlines(), said.status), (re.findall("`([^`]*)`", shown), 0), text + query)
        self.assertEqual(len(cases), 10)
        kinds = set(re.findall(r"(?m)^\| `(?:database|query) (\w+) .*` \|", section))
        self.assertEqual(kinds, set(re.findall(r"(?:database|query) (\w+) (?:r 1|at)", str(cases))))

    def test_lines_of_what_is_decided_anew_are_as_they_are_shown(self):
        section = (TOP / "docs/formats.md").read_text().split("With `kept=auto` a query")[1].split("### Canonical answers")[0]
        query, database = re.findall(r"(?m)^For `(\{.*?\})` over `(relation .*?)`:$", section)[0]
        rows = re.findall(r"(?m)^\| (?:`(.*?)`|none) \| (`.*`) \|$", section)
        self.assertEqual(len(rows), 4)
        with tempfile.TemporaryDirectory() as name:
            Path(name, "a.lrp").write_text(database)
            Path(name, "b.lrq").write_text(query)
            for edits, shown in rows:
                Path(name, "c.lre").write_text(edits)
                said = run("watch", "db=a.lrp", "query=b.lrq", "edits=c.lre", "kept=auto", folder=Path(name))
                self.assertEqual(said.out.splitlines(), re.findall("`([^`]*)`", shown))


BUS = "relation bus(dep: time, arr: time) { (5+60n, 30+60n)%s; }"
NIGHT = 'relation shift(b: time, e: time) { (1200+1440n, 240+1440n) where %s; }'
NEXT_DAY = "{ | exists b: time shift(b, b + 1920) }"
# What the guide says of each mistake: a database, or that of the guide, a query, and what comes of it.
MISTAKES = [
    (BUS % "", "{ | exists d: time exists a: time (bus(d, a) and a < d) }", "Nonempty\n()\n"),
    (BUS % " where arr = dep + 25", "{ | exists d: time exists a: time (bus(d, a) and a < d) }", "Empty\n"),
    (NIGHT % "e >= b", NEXT_DAY, "Nonempty\n()\n"),
    (NIGHT % "e = b + 480", NEXT_DAY, "Empty\n"),
    ("", "{ d: time, a: time | bus(d, a) and a <= 480 }", "refused: query Syntax at 1:32\n"),
    ("", "{ | forall d: time bus(d, d) }", "Empty\n"),
    ("", "{ n: time | bus(n, n) }", "refused: query Syntax at 1:3\n"),
    ("", "{ b: time, e: time | shift(b, e, Ada) }", "refused: query Unbound at 1:34\n"),
    ("", '{ b: time, e: time | shift(b, e, "ada") }', "Empty\n"),
    ("", '{ b: time, e: time | shift(b, e, "Ada") }', "Nonempty\n240, 720\n"),
]


class Mistakes(unittest.TestCase):
    """The mistakes that the guide warns of."""

    def test_each_mistake_does_what_is_said(self):
        for database, query, wanted in MISTAKES:
            with self.subTest(query), tempfile.TemporaryDirectory() as name:
                folder = Path(name)
                folder.joinpath("a.lrp").write_text(database or (FOLDER / "line.lrp").read_text())
                folder.joinpath("b.lrq").write_text(query)
                self.assertEqual(run("decide", "db=a.lrp", "query=b.lrq", folder=folder).out, wanted)


class Scale(unittest.TestCase):
    """How work is spread."""

    def setUp(self):
        for name in ("answers", "silence", "conflicts", "minutes"):
            for path in (Path("/tmp", name), Path("/tmp", f"{name}.how")):
                path.unlink(missing_ok=True)
                self.addCleanup(path.unlink, missing_ok=True)

    def test_each_command_writes_what_is_shown(self):
        need("parallel", "GNU parallel")
        lines = [each for _, block in blocks_of(TOP / "docs/scale.md") for each in commands_of(block)]
        self.assertEqual(len(lines), 5)
        for line, wanted in lines:
            with self.subTest(line):
                self.assertEqual(shell(line, TOP / "examples/passes").out, wanted)

    def test_what_is_shown_is_counted_again(self):
        counted, page = passes(), (TOP / "docs/scale.md").read_text()
        # The passes repeat by the day, so the last lines of three days are those of the first one, two days later.
        silence, conflicts = (counted[name].splitlines()[:-1] for name in ("silence", "conflicts"))
        self.assertIn(f"wc -l </tmp/silence\n    {3 * len(silence) + 1}\n", page)
        self.assertIn(f"cat /tmp/minutes\n    {365 * len(silence)}\n", page)
        self.assertIn(f"\n    {int(silence[-1]) + 2880}\n    end\n", page)
        rise, over, names = conflicts[-1].split(", ", 2)
        self.assertIn(f"\n    {int(rise) + 2880}, {int(over) + 2880}, {names}\n    end\n", page)
        self.assertEqual(counted["nearest_silence"], "Nonempty\n24\n")
        self.assertEqual(counted["seen"], "Empty\n")


class Definitions(unittest.TestCase):
    """The list of what to read for the promise of a run, and the tables of crates."""

    def rows_to_read(self) -> list[list[str]]:
        """The cells of each row that has files to read."""
        page = (TOP / "docs/definitions.md").read_text().split("## What to read")[1].split("\n## ")[0]
        rows = [line.strip("| ").split(" | ") for line in page.splitlines() if line.startswith("| `lrp_")]
        self.assertGreater(len(rows), 15)
        return rows

    def files_of(self, row: list[str]) -> list[str]:
        """The files of a row, as `crate/File`; a crate alone has all of its files."""
        files = []
        for crate, names in re.findall(r"`(lrp_\w+)`(?:: ([^;(]*))?", row[0]):
            every = sorted(file.stem for file in (TOP / "crates" / crate / "specs").glob("*.antt"))
            files += [f"{crate}/{name}" for name in (re.split(r", | of ", names.strip()) if names else every) if name != "Task"]
        return files

    def test_each_file_to_read_is_there_and_has_what_it_is_named_for(self):
        for row in self.rows_to_read():
            text = "".join((TOP / "crates" / file.replace("/", "/specs/")).with_suffix(".antt").read_text() for file in self.files_of(row))
            for name in re.findall(r"`(\w+)`", row[2] if len(row) == 5 else ""):
                self.assertRegex(text, rf"(?m)^ *(?:\w+ )*{name} ")

    def test_each_file_that_a_run_reaches_is_to_be_read(self):
        named = {file for row in self.rows_to_read() for file in self.files_of(row)}
        self.assertEqual(set(lines_of(Specs().reached(["IsRun"]))) - named, set())

    def test_as_much_is_to_be_read_as_is_told(self):
        specs, page = Specs(), (TOP / "docs/definitions.md").read_text()
        told = re.findall(r"(?m)^\| [^|]* \| ([^|]*` reach(?:es)?\b[^|]*) \| ([\d,]+) \| ([\d,]+) \| [^|]* \|$", page)
        for names, number, lines in told:
            if "for them" not in names:
                found = specs.reached(re.findall(r"`(\w+)`", names))
                for wanted, shown in ((len(found), number), (sum(lines_of(found).values()), lines)):
                    self.assertLessEqual(abs(int(shown.replace(",", "")) - wanted), wanted / 20, names)
        self.assertEqual(len(told), 4)
        self.assertAlmostEqual(sum(int(row[-2]) for row in self.rows_to_read()) / int(told[-1][2].replace(",", "")), 1, delta=0.05)

    def test_each_crate_has_its_rows(self):
        crates = re.findall(r"(?m)^(lrp_\w+)(?: staticlib)?:", (TOP / "crates.txt").read_text())
        for document in ("docs/architecture.md", "docs/proved.md"):
            rows = re.findall(r"(?m)^\| (`lrp_[^|]*) \|", (TOP / document).read_text())
            self.assertEqual(sorted(crates), sorted(re.findall(r"lrp_\w+", " ".join(rows))), document)

    def test_inner_definitions_are_cited_in_their_own_crate_alone(self):
        cited: dict[str, set[str]] = {}
        for file in [*TOP.glob("crates/*/src/**/*.rt"), *TOP.glob("crates/*/specs/**/*.antt")]:
            crate = file.relative_to(TOP / "crates").parts[0]
            for home, name in re.findall(r"Rattle\.(lrp_\w+)\.specs\.(\w+)\.", file.read_text()):
                if home != crate:
                    cited.setdefault(home, set()).add(name)
        for page in TOP.glob("crates/*/specs/Lib.antt"):
            inner = page.read_text().partition("-- What functions inside say")[2]
            crate = page.parts[-3]
            self.assertEqual(set(re.findall(r"pub mod (\w+)", inner)) & cited.get(crate, set()), set(), crate)

    def test_each_promise_is_read_at_a_glance(self):
        page = (TOP / "docs/proved.md").read_text()
        cells = re.findall(r"(?m)^\| `lrp_[^|]* \| ([^|]*) \|$", page)
        self.assertGreater(len(cells), 40)
        for cell in cells:
            self.assertLessEqual(len(cell.split()), 60, cell)


class Names(unittest.TestCase):
    """A public name means one thing in all crates; a rule of a grammar alone has the grammar's own name."""

    RULES = {"column", "period", "point"}

    def test_each_definition_has_a_name_of_its_own(self):
        line = r"(?m)^(?:abbrev |unfoldable )*pub (?:abbrev |unfoldable |data |record )*(?!mod |use )(\w+)"
        self.once(TOP.glob("crates/*/specs/**/*.antt"), line, self.RULES)

    def test_each_type_has_a_name_of_its_own(self):
        self.once(TOP.glob("crates/*/src/**/*.rt"), r"(?m)^pub (?:struct|enum|trait) (\w+)", set())

    def once(self, files: Iterable[Path], line: str, rules: set[str]) -> None:
        """Only these rules are told by such lines in two of the files."""
        homes: dict[str, set[Path]] = {}
        for file in files:
            for name in re.findall(line, file.read_text()):
                homes.setdefault(name, set()).add(file)
        self.assertGreater(len(homes), 100)
        self.assertEqual({name for name, there in homes.items() if len(there) > 1}, rules)


class Memory(unittest.TestCase):
    """Want of memory is made in one file, and handed on from there."""

    MADE = TOP / "crates/lrp_model/src/memory.rt"

    def places(self) -> Iterable[str]:
        """The other files, as `crate/file`, with such a place."""
        for file in sorted(TOP.glob("crates/lrp_*/src/**/*.rt")):
            if file != self.MADE and any(self.is_made(line) for line in self.bodies(file.read_text())):
                yield f"{file.relative_to(TOP / 'crates').parts[0]}/{file.name}"

    def bodies(self, text: str) -> Iterable[str]:
        """The lines of code of a file, but for faults, conversions and for arms that hand a want of memory on."""
        text = re.sub(r"(?m)//.*|^ *(?:pub )?use [^;]*;|^ *ghost [^;]*;", "", text)
        text = re.sub(r"(?ms)^( *)(?:pub(?:\(crate\))? enum|impl[^{]* From<).*?^\1\}", "", text)
        text = re.sub(r"(?ms)^( *)Err\((?:\w+::)?Memory(?: \{ \.\. \})?\) => \{$.*?^\1\}", "", text)
        for line in text.splitlines():
            pattern, arrow, value = line.rpartition(" => ")
            if not (arrow and "Memory" in pattern):
                yield value

    def is_made(self, line: str) -> bool:
        """Whether the line makes a want of memory."""
        return bool(re.search(r"(?:Err\(|ok_or\(|_ => |^ *)(?:\w+::)?Memory\)*[,;?]*$", line)) and "Result<" not in line

    def test_no_other_crate_can_make_it(self):
        self.assertRegex(self.MADE.read_text(), r"\n#\[non_exhaustive\]\npub struct Memory;\n")

    def test_it_is_made_in_one_file(self):
        self.assertTrue(any(self.is_made(line) for line in self.bodies(self.MADE.read_text())))
        self.assertEqual(list(self.places()), [])

    def test_a_number_is_asked_for_of_a_count(self):
        for file in TOP.glob("crates/lrp_*/src/**/*.rt"):
            with self.subTest(file.name):
                self.assertEqual(re.findall(r"\bnumbered\((?:\d|\w+::MAX).*", file.read_text()), [])


class Walk(unittest.TestCase):
    """The way of a query, with the functions that go it."""

    def test_each_call_is_a_function_of_its_crate(self):
        text = (TOP / "docs/architecture.md").read_text().split("## The way of a query")[1].split("\n## ")[0]
        listed = re.findall(r"(?m)^    (lrp_\w+) +(.*)$", text)
        calls = [(crate, name) for crate, names in listed for name in names.split(", ")]
        calls += [(crate, name) for name, crate in re.findall(r"`(\w+)` (?:\(|of )`(lrp_\w+)`", text) if name[0].islower()]
        self.assertGreater(len(calls), 30)
        for crate, name in calls:
            with self.subTest(f"{crate} {name}"):
                code = "\n".join(file.read_text() for file in TOP.glob(f"crates/{crate}/src/*.rt"))
                self.assertRegex(code, rf"\bfn {name}\b")


class Links(unittest.TestCase):
    """What documents and pages name is there."""

    def test_named_files_are_there(self):
        documents = [page for folder in (".", "docs", "bench", "examples", "examples/*", "editors/*") for page in TOP.glob(f"{folder}/*.md")]
        self.assertGreater(len(documents), 20)
        for document in documents:
            for name in re.findall(r"`((?:docs|examples|tests|share|tools|packaging|bindings|editors|bench|hostile|crates)/[\w./-]*)`",
                                   document.read_text()):
                # Definitions and proofs are named without their ending.
                self.assertTrue((TOP / name).exists() or (TOP / f"{name}.antt").exists(), f"{document.name}: {name}")

    def test_calls_that_no_command_makes_have_a_test(self):
        decisions = (TOP / "docs/DECISIONS.md").read_text()
        told = decisions.split("**A public call that no command makes")[1].split("\n- ")[0]
        named = re.findall(r"`(?:\w+::)?(\w+)`", told.split("These are ")[1].split(". In their place")[0])
        self.assertGreater(len(named), 10)
        homes = ("lrp_tests", "lrp_table_tests")
        tests = "".join(file.read_text() for crate in homes for file in TOP.glob(f"crates/{crate}/src/*.rt"))
        for name in named:
            self.assertRegex(tests, rf"\b{name}\b")

    def test_wrong_bodies_have_their_edits(self):
        table = (TOP / "docs/gate.md").read_text().split("## Wrong bodies that are refused")[1].split("\n## ")[0]
        named = [(crate, name) for crate, names in re.findall(r"`(lrp_\w+)`: ((?:`\w+`(?:, )?)+)", table)
                 for name in re.findall(r"\w+", names)]
        self.assertGreater(len(named), 10)
        for crate, name in named:
            self.assertTrue((TOP / f"crates/{crate}/must-fail/{name}.edit").exists(), f"{crate}: {name}")

    def test_edits_are_few_and_each_applies(self):
        edits = sorted(TOP.glob("crates/*/must-fail/*.edit"))
        counts = Counter(edit.parts[-3] for edit in edits)
        self.assertLessEqual(len(edits), 115)
        for crate, count in counts.items():
            self.assertLessEqual(count, 4 if crate in ("lrp_top", "lrp_model") else 6, crate)
        for edit in edits:
            text = edit.read_text()
            code = (edit.parent.parent / re.findall(r"(?m)^file: (.*)$", text)[0]).read_text()
            for old, new in re.findall(r"(?m)^old: (.*)\nnew: ?(.*)$", text):
                self.assertEqual(code.count(old), 1, edit.name)
                code = code.replace(old, new)

    def test_named_definitions_are_there(self):
        crates = re.findall(r"(?m)^(lrp_\w+)(?: staticlib)?:", (TOP / "crates.txt").read_text())
        folders = [TOP / "crates" / crate / kind for crate in crates for kind in ("src", "specs", "proofs")]
        words = {*crates, *(file.stem for folder in folders for file in folder.rglob("*"))}
        words.update(file.stem for file in TOP.glob("crates/*/must-fail/*.edit"))
        for file in (file for folder in folders for file in folder.rglob("*.*")):
            words.update(re.findall(r"\w+", file.read_text()))
        count = 0
        for name in ("DECISIONS", "architecture", "definitions", "gate", "headline", "proofs", "proved"):
            named = set(re.findall(r"`(?:\w+::)?([a-z]\w*_\w+|[A-Z]\w*[a-z][A-Z]\w*)`", (TOP / f"docs/{name}.md").read_text()))
            self.assertEqual(named - words, set(), name)
            count += len(named)
        self.assertGreater(count, 300)


if __name__ == "__main__":
    unittest.main()
