"""The pages of help: each example in them works as it stands."""

import os
import re
import shutil
import tempfile
import tomllib
import unittest
from pathlib import Path

from support import LAUNCHER, PROGRAM, TOP, fake, run, shell
from table import read_table

PAGES = sorted((TOP / "share/help").glob("*.txt"))


def examples_of(text: str) -> list[tuple[str, str]]:
    """The commands of a page, each a line after '  $ ', with the lines under it up to an empty one."""
    found = re.findall(r"^  \$ (.*)\n((?:  .*\n)*)", text, re.MULTILINE)
    return [(line, re.sub(r"^  ", "", out, flags=re.MULTILINE)) for line, out in found]


class Help(unittest.TestCase):
    """Help by its words."""

    def test_each_spelling_shows_the_overview(self):
        wanted = run("help")
        self.assertEqual(wanted.status, 0)
        self.assertTrue(wanted.out.startswith("fizhedul - "))
        for word in ("--help", "-h"):
            self.assertEqual(run(word), wanted)

    def test_each_command_and_topic_has_its_page(self):
        for topic in [*read_table(), "language", "refusals"]:
            page = run("help", topic)
            self.assertEqual((page.status, page.err), (0, ""), topic)
            self.assertGreater(len(page.out), 300, topic)

    def test_the_overview_names_each_command(self):
        overview = run("help").out
        for command, keys in read_table().items():
            self.assertRegex(overview, rf"(?m)^  {command} +{next(iter(keys))}=")

    def test_a_page_names_each_key_of_its_command(self):
        for command, keys in read_table().items():
            page = run("help", command).out
            for key in keys:
                self.assertRegex(page, rf"(?m)^  ([a-z]+=[^ ]+ )*{key}=", f"{command} {key}")

    def test_a_page_that_is_not_there(self):
        for topic in ("nothing", "../version", "", "ask.txt"):
            page = run("help", topic)
            self.assertEqual((page.status, page.out), (2, ""))
            self.assertIn("the topics are: ", page.err)

    def test_pages_fit_a_terminal(self):
        for page in PAGES:
            for line in page.read_text().splitlines():
                self.assertTrue(len(line) < 80 or "=" in line or "T2/" in line, f"{page.name}: {line}")

    def test_examples_work_as_they_stand(self):
        count = 0
        for page in PAGES:
            for line, wanted in examples_of(page.read_text()):
                self.assertEqual(shell(line, TOP / "examples").out, wanted, f"{page.name}: {line}")
                count += 1
        self.assertGreater(count, 9)

    def test_pages_name_the_folder_of_the_examples(self):
        self.assertIn(f"from the folder {TOP}/examples", run("help").out)

    def test_the_language_page_is_in_the_language(self):
        page = (TOP / "share/help/language.txt").read_text()
        blocks = re.findall(r"^  #.*\n(?:  .*\n)+", page, re.MULTILINE)
        database, query = blocks
        with tempfile.TemporaryDirectory() as name:
            folder = Path(name)
            (folder / "bus.lrp").write_text(database)
            (folder / "soon.lrq").write_text(query)
            self.assertEqual(run("check", "db=bus.lrp", folder=folder).status, 0)
            # Line 7 leaves at 485 = 5 + 8 * 60, and the night bus a quarter of an hour later; else the next bus is
            # an hour away.
            answer = run("decide", "db=bus.lrp", "query=soon.lrq", folder=folder)
            self.assertEqual((answer.status, answer.out), (0, 'Nonempty\n485, "7"\n'))


    def test_the_temporal_operators_of_the_language_page_mean_what_it_says(self):
        page = (TOP / "share/help/language.txt").read_text()
        forms = re.findall(r"^((?:once|always|since|until) v \(.*?\)(?: F)?)  +\S", page, re.MULTILINE)
        self.assertEqual(len(forms), 4)
        with tempfile.TemporaryDirectory() as name:
            folder = Path(name)
            (folder / "a.lrp").write_text("relation f(t: time) { (3+10n); (5+10n); } relation g(t: time) { (4+10n); }")
            # F holds at 3 and 5 of each ten, G at 4.
            for form, wanted in zip(forms, ("0 1 2 3 4 5 6 7 8 9", "", "4 5", "3 4")):
                query = "{ v: time | %s }" % re.sub(r"\bG\b", "g(v)", re.sub(r"\bF\b", "f(v)", form))
                (folder / "b.lrq").write_text(query)
                listed = run("list", "db=a.lrp", "query=b.lrq", "from=0", "to=9", "tense=yes", folder=folder).out
                self.assertEqual(listed.split()[:-1], wanted.split(), query)

    def test_the_wide_language_of_the_language_page_means_what_it_says(self):
        page = (TOP / "share/help/language.txt").read_text()
        file = re.findall(r"(?m)^  define .*\n(?:  .*\n)+", page)[0]
        with tempfile.TemporaryDirectory() as name:
            folder = Path(name)
            # Both lines leave at 0, nothing at 3 and one line in the other minutes of each ten.
            (folder / "a.lrp").write_text('relation bus(dep: time, arr: time, line: data) { (0+10n, 9, "7"); (0+10n, 9, "8"); '
                                          + "".join(f'({minute}+10n, 9, "7"); ' for minute in (1, 2, 4, 5, 6, 7, 8, 9)) + "}")
            (folder / "b.lrq").write_text(file)
            listed = run("list", "db=a.lrp", "query=b.lrq", "from=0", "to=13", "wide=yes", folder=folder).out
            self.assertEqual(listed.split(), ["0", "3", "10", "end"])

    def test_the_civil_times_of_the_language_page_mean_what_it_says(self):
        page = (TOP / "share/help/language.txt").read_text()
        values = re.findall(r"^((?:daily|weekly|on) [a-z0-9: -]+?)  +\S", page, re.MULTILINE)
        self.assertEqual(values, ["daily 08:15", "weekly mon 08:15", "on 2024-02-26 08:15"])
        with tempfile.TemporaryDirectory() as name:
            folder = Path(name)
            (folder / "bus.lrp").write_text("relation bus(t: time) { %s }" % " ".join(f"({value});" for value in values))
            (folder / "all.lrq").write_text("{ t: time | bus(t) }")
            self.assertIn("(495+1440n);", run("check", "db=bus.lrp", "civil=yes", folder=folder).out)
            window = "from=2024-02-26T00:00", "to=2024-02-27T23:59"
            listed = run("list", "db=bus.lrp", "query=all.lrq", *window, "civil=yes", folder=folder)
            self.assertEqual(listed.out, "2024-02-26 08:15\n2024-02-27 08:15\nend\n")


class Version(unittest.TestCase):
    """One version for all that shows one."""

    def test_version_commit_toolchain_and_program(self):
        lines = run("--version").out.splitlines()
        self.assertRegex(lines[0], rf"^fizhedul {re.escape((TOP / 'share/version').read_text().strip())}(-dev)?$")
        self.assertRegex(lines[1], r"^commit ([0-9a-f]{12}(, with changes)?|unknown)$")
        self.assertEqual(lines[2], "toolchain " + (TOP / "share/toolchain").read_text().strip())
        self.assertEqual(lines[3:], [f"program {PROGRAM}, which FIZHEDUL_PROGRAM names"])

    def test_a_working_copy_is_told_from_a_version(self):
        with tempfile.TemporaryDirectory() as name:
            folder = Path(name)
            shutil.copy(LAUNCHER, folder)
            shutil.copytree(TOP / "share", folder / "share")
            (folder / "share/version").write_text("7.8.9\n")
            (folder / "crates").mkdir()

            def told() -> tuple[str, str, str]:
                number, commit, _, program = shell("./fizhedul --version", folder, FIZHEDUL_PROGRAM="").out.splitlines()
                return number, commit[19:], program

            def git(line: str) -> None:
                shell(f"git -c user.name=a -c user.email=b@c {line}", folder)

            self.assertEqual(told()[0], "fizhedul 7.8.9")
            git("init -q && git add . ; git -c user.name=a -c user.email=b@c commit -qm one")
            self.assertEqual(told(), ("fizhedul 7.8.9-dev", "", "program not built yet"))
            git("tag v7.8.9")
            self.assertEqual(told()[:2], ("fizhedul 7.8.9", ""))
            (folder / "more").touch()
            self.assertEqual(told()[:2], ("fizhedul 7.8.9-dev", ", with changes"))

    def test_the_toolchain_is_that_of_the_readme(self):
        self.assertIn((TOP / "share/toolchain").read_text().strip(), (TOP / "README.md").read_text())

    def test_the_changelog_begins_with_the_version(self):
        changes = (TOP / "CHANGELOG.md").read_text()
        self.assertEqual(re.findall(r"^## ([0-9.]+)", changes, re.MULTILINE)[0],
                         (TOP / "share/version").read_text().strip())

    def test_the_workbench_has_the_version(self):
        project = tomllib.loads((TOP / "workbench/pyproject.toml").read_text())["project"]
        self.assertEqual(project["version"], (TOP / "share/version").read_text().strip())


class Launcher(unittest.TestCase):
    """How the launcher finds its parts."""

    def test_it_runs_from_any_folder_and_through_a_link(self):
        with tempfile.TemporaryDirectory() as name:
            link = Path(name) / "fiz"
            link.symlink_to(LAUNCHER)
            found = shell(f"'{link}' help", Path(name))
            self.assertEqual((found.status, found.out), (0, run("help").out))

    def test_words_go_to_the_program_as_they_are(self):
        with tempfile.TemporaryDirectory() as name:
            folder = Path(name)
            shutil.copy(TOP / "examples/bus/bus.lrp", folder / "a b.lrp")
            self.assertEqual(run("check", "db=a b.lrp", folder=folder).out, run("check", "db=examples/bus/bus.lrp").out)

    def test_the_library_is_built_where_it_is_asked_for(self):
        with tempfile.TemporaryDirectory() as name:
            folder = Path(name)
            shutil.copy(LAUNCHER, folder)
            shutil.copytree(TOP / "share", folder / "share")
            said = shell("./fizhedul --library", folder)
            self.assertEqual((said.status, said.out), (70, ""))
            self.assertIn("there are no sources here", said.err)
            (folder / "crates").mkdir()
            for part in ("tools/build_program", "packaging/library/archive", "packaging/library/build"):
                (folder / part).parent.mkdir(parents=True, exist_ok=True)
                (folder / part).write_text(f'#!/bin/sh\necho {part} "$@" >>told\n')
                (folder / part).chmod(0o755)
            said = shell("./fizhedul --library", folder)
            library = folder.resolve() / "crates/lrp_c/out/library"
            self.assertEqual((said.status, said.out), (0, f"{library}/lib/libfizhedul.so.1\n"))
            done = ["tools/build_program", "packaging/library/archive", f"packaging/library/build {library}"]
            self.assertEqual([line.strip() for line in (folder / "told").read_text().splitlines()], done)
            (folder / "packaging/library/archive").write_text("#!/bin/sh\nexit 71\n")
            said = shell("./fizhedul --library", folder)
            self.assertEqual((said.status, said.out), (71, ""))

    def test_words_of_the_workbench_go_to_it(self):
        with tempfile.TemporaryDirectory() as name:
            folder = Path(name)
            shutil.copy(LAUNCHER, folder)
            shutil.copytree(TOP / "share", folder / "share")
            said = shell("./fizhedul draw db=a", folder)
            self.assertEqual((said.status, said.out), (70, ""))
            self.assertIn("'draw'", said.err)
            (folder / "workbench").mkdir()
            tool = folder / "workbench/run"
            tool.write_text('#!/bin/sh\nprintf "<%s>" "$@"\nexit 5\n')
            tool.chmod(0o755)
            for word in ("shell", "draw", "page", "import", "export"):
                said = shell(f"./fizhedul {word} 'db=a b' x", folder)
                self.assertEqual((said.status, said.out, said.err), (5, f"<{word}><db=a b><x>", ""))

    def test_a_program_that_is_missing_or_stale_is_built(self):
        with tempfile.TemporaryDirectory() as name:
            folder = Path(name)
            shutil.copy(LAUNCHER, folder)
            shutil.copytree(TOP / "share", folder / "share")
            source, tool = folder / "crates/low/src/lib.rt", folder / "tools/build_program"
            out = folder / "crates/lrp_main/out"
            for each in (source, tool):
                each.parent.mkdir(parents=True)
                each.touch()
            tool.write_text(f"""#!/bin/sh
echo built >&2
mkdir -p {out}; rm -f {out}/building
printf '#!/bin/sh\\necho ran\\n' >{out}/lrp_main; chmod +x {out}/lrp_main
""")
            tool.chmod(0o755)

            def call() -> tuple[int, str, str]:
                return tuple(shell("./fizhedul check db=a", folder, FIZHEDUL_PROGRAM=""))

            self.assertEqual(call(), (0, "ran\n", "built\n"))
            self.assertEqual(call(), (0, "ran\n", ""))
            (out / "building").touch()
            self.assertEqual(call(), (0, "ran\n", "built\n"))
            later = (out / "lrp_main").stat().st_mtime + 5
            os.utime(source, (later, later))
            self.assertEqual(call(), (0, "ran\n", "built\n"))
            tool.write_text("#!/bin/sh\necho 'fizhedul: there is no space' >&2\nexit 70\n")
            self.assertEqual(call(), (70, "", "fizhedul: there is no space\n"))

    def test_a_query_may_stand_in_the_words(self):
        for query in ("{ t: time | bus(t) }", " { t: time | bus(t) }"):
            said = run("ask", "db=examples/bus/bus.lrp", f"query={query}")
            self.assertEqual((said.status, said.out, said.err), (0, "relation answer(t: time) {\n  (5+60n);\n}\n", ""))
        said = run("ask", "db=examples/bus/bus.lrp", "query={ t: time | buss(t) }", explain="always")
        self.assertEqual((said.status, said.out), (4, "refused: query UnknownRelation at 1:13\n"))
        self.assertTrue(said.err.startswith("query:1:13\n  { t: time | buss(t) }\n              ^~~~\n"), said.err)

    def test_definitions_may_stand_in_the_words_before_a_query(self):
        for query in ("define x(t: time) as bus(t); { t: time | x(t) }", " define\nx(t: time) as bus(t); { t: time | x(t) }",
                      "define # A name.\n x(t: time) as bus(t);\n{ t: time | x(t) }", "# All.\n{ t: time | bus(t) }"):
            with self.subTest(query):
                said = run("ask", "db=examples/bus/bus.lrp", f"query={query}", "wide=yes")
                self.assertEqual((said.status, said.out, said.err), (0, "relation answer(t: time) {\n  (5+60n);\n}\n", ""))
        query = "define x(t: time) as buss(t); { t: time | x(t) }"
        said = run("ask", "db=examples/bus/bus.lrp", f"query={query}", "wide=yes", explain="always")
        self.assertEqual((said.status, said.out), (4, "refused: query UnknownRelation at 1:22\n"))
        self.assertTrue(said.err.startswith(f"query:1:22\n  {query}\n{' ' * 23}^~~~\n"), said.err)
        said = run("ask", "db=examples/bus/bus.lrp", f"query={query}", explain="always")
        self.assertEqual((said.status, said.out), (4, "refused: query Syntax at 1:1\n"))
        self.assertIn("This is in the wide language, which is read with wide=yes.", " ".join(said.err.split()))

    def test_a_file_may_be_called_as_a_definition_begins(self):
        with tempfile.TemporaryDirectory() as name:
            folder = Path(name)
            (folder / "a.lrp").write_text("relation bus(t: time) { (5+60n); }")
            for file in ("define", "define.lrq", "define x.lrq", "defined{}.lrq", "#.lrq"):
                (folder / file).write_text("{ t: time | bus(t) }")
                said = run("decide", "db=a.lrp", f"query={file}", folder=folder)
                self.assertEqual((said.status, said.out), (0, "Nonempty\n5\n"), file)

    def test_a_query_may_stand_in_the_words_of_the_workbench(self):
        said = shell("fizhedul export csv db=- query='{ t: time | bus(t) }' from=0 to=100 <examples/bus/bus.lrp")
        self.assertEqual((said.status, said.out, said.err), (0, "t: time\n5\n65\n", ""))
        line = "fizhedul export csv db=examples/bus/bus.lrp query='{ t: time | bus(t) and bus(t) }' from=0 to=100"
        self.assertEqual(shell(line).err, "refused: query Syntax at 1:20\n")
        self.assertIn("\nquery:1:20\n", shell(line, explain="always").err)
        self.assertTrue(shell(line, explain="always").err.endswith(
            "\nA list stands in parentheses: (bus(t) and bus(t)). Or give wide=yes: then it may be written so.\n"))
        self.assertEqual(shell(f"{line} wide=yes").out, "t: time\n5\n65\n")
        query = "define x(t: time) as bus(t) and t != 65; { t: time | x(t) }"
        line = f"fizhedul export csv db=examples/bus/bus.lrp query='{query}' from=0 to=200 wide=yes"
        self.assertEqual(shell(line).out, "t: time\n5\n125\n185\n")

    def test_a_minus_is_standard_input(self):
        with tempfile.TemporaryDirectory() as name:
            folder = Path(name)
            (folder / "a.lrp").write_text("relation bus(t: time) { (5+60n); }")
            (folder / "b.lrq").write_text("{ t: time | bus(t) }")
            (folder / "c.lre").write_text("- bus (5+60n);")
            wanted = run("watch", "db=a.lrp", "query=b.lrq", "edits=c.lre", folder=folder).out
            self.assertEqual(wanted, "5\nnone\n")
            for words in ("db=- query=b.lrq edits=c.lre <a.lrp", "db=a.lrp query=- edits=c.lre <b.lrq",
                          "db=a.lrp query=b.lrq edits=- <c.lre", "db=a.lrp query=- edits=c.lre < <(cat b.lrq)"):
                self.assertEqual(shell(f"fizhedul watch {words}", folder).out, wanted, words)
            said = shell("fizhedul ask db=- query=- <a.lrp", folder)
            self.assertEqual((said.status, said.out), (2, ""))
            self.assertIn("'query=-' is the second one", said.err)
            said = shell("echo 'relation bus(' | fizhedul check db=-", folder, "always")
            self.assertTrue(said.err.startswith("db:2:1\n"), said.err)

    def test_nothing_is_left_of_texts_in_the_words(self):
        with tempfile.TemporaryDirectory() as name:
            run("ask", "db=examples/bus/bus.lrp", "query={ t: time | bus(t) }", TMPDIR=name)
            run("ask", "db=examples/bus/bus.lrp", "query={ t: time | bs(t) }", explain="always", TMPDIR=name)
            self.assertEqual(list(Path(name).iterdir()), [])

    def test_a_window_that_nothing_lies_in_is_warned_of(self):
        words = ["list", "db=examples/bus/bus.lrp", "query={ t: time | bus(t) }"]
        civil = ["from=2026-12-25T00:00", "to=2026-12-24T23:59", "civil=yes"]
        for window, wanted in ((["from=9", "to=0"], "from=9 is after to=0"), (["to=-10", "from=-9"], "from=-9 is after to=-10"),
                               (civil, "from=2026-12-25T00:00 is after to=2026-12-24T23:59"), (["from=0", "to=0"], ""),
                               (["from=9", "to=10"], "")):
            self.assertEqual(run(*words, *window).err, "")
            said = run(*words, *window, FIZHEDUL_WARN="always")
            self.assertEqual(said.status, 0)
            self.assertEqual(said.err.count("\n"), 1 if wanted else 0)
            self.assertIn(wanted, said.err)
            self.assertEqual(run(*words, *window, FIZHEDUL_WARN="never").err, "")

    def test_python_is_started_for_an_explanation_alone(self):
        with tempfile.TemporaryDirectory() as name:
            folder = Path(name)
            (folder / "fizhedul").write_text(LAUNCHER.read_text())
            (folder / "fizhedul").chmod(0o755)
            shutil.copytree(TOP / "share", folder / "share")
            # An explanation that shows that it was asked for.
            (folder / "share/launcher/explain.py").write_text("print('explained')\n")
            program = fake(folder, 'echo "$1"; [ "$1" = list ]\n')
            program.write_text('#!/bin/sh\necho "refused: $1"\n[ "$1" = list ] || exit 2\n')
            for word, wanted in (("list", ""), ("lst", "explained\n")):
                said = shell(f"./fizhedul {word}", folder, "always", FIZHEDUL_PROGRAM=str(program))
                self.assertEqual((said.out, said.err), (f"refused: {word}\n", wanted))

    def test_a_program_that_is_not_there(self):
        for explain in ("never", "always"):
            said = run("check", "db=a", explain=explain, FIZHEDUL_PROGRAM="/nowhere/program")
            self.assertEqual((said.status, said.out), (127, ""))
            self.assertIn("/nowhere/program: No such file or directory", said.err)


if __name__ == "__main__":
    unittest.main()
