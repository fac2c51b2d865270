"""The bundle: built, looked at, unpacked into a clean root without a toolchain or Python, run there, and compared."""

import hashlib
import os
import re
import shutil
import tempfile
import unittest
from pathlib import Path

from support import PROGRAM, TOP, environment, need
from test_package import call, lay_tool

# What the launcher calls, here and for '--verify'; each is in Debian's package coreutils, but for bash.
NEEDED = ["bash", "cat", "dirname", "env", "readlink", "sha256sum"]
VERSION = (TOP / "share/version").read_text().strip()
NAME = f"fizhedul-{VERSION}"
BUS = "relation bus(t: time) {\n  (5+60n);\n}\n"


def build(folder: Path, top: Path = TOP, umask: int = 0o022, **more: str) -> Path:
    """Builds the bundle of a tree into a folder."""
    done = call(top / "packaging/bundle/build", folder, env=environment(**more), umask=umask)
    if done.returncode:
        raise AssertionError(done.stderr)
    return Path(done.stdout.strip())


def unpack(bundle: Path, folder: Path) -> Path:
    """Unpacks a bundle, and gives the folder that is in it."""
    folder.mkdir(parents=True)
    done = call("tar", "xzf", bundle, "-C", folder)
    if done.returncode:
        raise AssertionError(done.stderr)
    return folder / NAME


def sum_of(file: Path) -> str:
    """The sum of a file."""
    return hashlib.sha256(file.read_bytes()).hexdigest()


def tree_with_a_record(top: Path) -> None:
    """Lays a tree out that has two small crates, a program, and the record of its proof; all else is this one's."""
    shutil.copytree(TOP / "packaging", top / "packaging")
    for each in ("fizhedul", "README.md", "CHANGELOG.md", "LICENSE", "share", "docs", "workbench", "editors"):
        (top / each).symlink_to(TOP / each)
    shutil.copytree(TOP / "examples/bus", top / "examples/bus")
    sources = {"crates/low/src/lib.rt": "low", "crates/lrp_main/src/main.rt": "main", "crates.txt": "low:\nlrp_main: low\n"}
    for name, text in sources.items():
        (top / name).parent.mkdir(parents=True, exist_ok=True)
        (top / name).write_text(text)
    record = top / "crates/lrp_main/out/proof"
    record.mkdir(parents=True)
    shutil.copy(PROGRAM, record.parent / "lrp_main")
    (record / "sources").write_text("".join(f"{sum_of(top / name)}  {name}\n" for name in sorted(sources)))
    lines = [f"program {sum_of(record.parent / 'lrp_main')}", f"sources {sum_of(record / 'sources')}", "toolchain kit 1",
             "low logic=proved functions=3 sum=ab", "lrp_main logic=proved functions=5 sum=cd"]
    (record / "verdict").write_text("\n".join([*lines, ""]))


class Bundle(unittest.TestCase):
    """One bundle, built once."""

    @classmethod
    def setUpClass(cls):
        cls.temporary = tempfile.TemporaryDirectory()
        cls.addClassCleanup(cls.temporary.cleanup)
        cls.folder = Path(cls.temporary.name)
        cls.bundle = build(cls.folder)

    def run_in(self, root: Path, *words: str) -> tuple[int, str, str]:
        """Runs the launcher of an unpacked bundle with nothing on the path but what it needs."""
        path = self.folder / "bin"
        if not path.exists():
            path.mkdir()
            for tool in NEEDED:
                (path / tool).symlink_to(shutil.which(tool))
        done = call(root / "fizhedul", *words, cwd=root, env={"PATH": str(path)})
        return done.returncode, done.stdout, done.stderr

    def test_the_same_tree_gives_the_same_bytes(self):
        again = self.folder / "again"
        again.mkdir()
        self.assertEqual(build(again, umask=0o077).read_bytes(), self.bundle.read_bytes())

    def test_it_has_one_folder_and_owners_of_no_machine(self):
        listed = call("tar", "tvzf", self.bundle, "--numeric-owner", env={**os.environ, "TZ": "UTC"}).stdout.splitlines()
        day = re.findall(rf"(?m)^## {re.escape(VERSION)} \((.*)\)$", (TOP / "CHANGELOG.md").read_text())[0]
        for line in listed:
            self.assertRegex(line, rf"^(-rw-r--r--|[-d]rwxr-xr-x) 0/0 +\d+ {day} 00:00 {re.escape(NAME)}/")
        self.assertFalse([line for line in listed if re.search(r"/\.|__pycache__|/crates/|/out/", line)])

    def test_it_runs_with_nothing_but_coreutils_on_the_path(self):
        root = unpack(self.bundle, self.folder / "bare")
        self.assertEqual(self.run_in(root, "check", "db=examples/bus/bus.lrp"), (0, BUS, ""))
        self.assertEqual(self.run_in(root, "decide", "db=examples/guide/line.lrp", "query=examples/guide/uncovered.lrq"),
                         (0, "Nonempty\n-235, -210\n", ""))
        self.assertEqual(self.run_in(root, "lst"), (2, "refused: usage\n", ""))
        self.assertIn(f"from the folder {root}/examples:", self.run_in(root, "help")[1])

    def test_it_runs_in_a_clean_root(self):
        if os.geteuid() != 0:
            self.skipTest("only root may enter another root")
        root = self.folder / "root"
        for tool in NEEDED:
            lay_tool(root, tool)
        unpack(self.bundle, root / "opt")
        inside = [need("chroot"), root, shutil.which("bash"), "-c"]
        lacks = "refused: the Debian package python3 is missing (apt-get install python3)\n"
        for line, wanted in ((f"/opt/{NAME}/fizhedul check db=/opt/{NAME}/examples/bus/bus.lrp", BUS),
                             (f"cd /opt; {NAME}/fizhedul lst; echo $?", "refused: usage\n2\n"),
                             (f"/opt/{NAME}/fizhedul draw db=a 2>&1", lacks),
                             (f"line=$(/opt/{NAME}/fizhedul --verify); echo ${{line%:*}}", "as it was bundled\n")):
            done = call(*inside, line, env={"PATH": "/usr/bin:/bin"})
            self.assertEqual((done.stdout, done.stderr), (wanted, ""))

    def test_it_tells_of_a_program_without_a_record(self):
        with tempfile.TemporaryDirectory() as name:
            other = Path(name, "program")
            other.write_text("#!/bin/sh\necho ran\n")
            other.chmod(0o755)
            root = unpack(build(Path(name), FIZHEDUL_PROGRAM=str(other)), Path(name, "unpacked"))
            self.assertEqual(self.run_in(root, "check", "db=a"), (0, "ran\n", ""))
            told = self.run_in(root, "--version")[1].splitlines()
            self.assertEqual(told[0], f"fizhedul {VERSION}")
            self.assertRegex(told[1], r"^commit ([0-9a-f]{12}(, with changes)?|unknown)$")
            self.assertEqual(told[2], "toolchain " + (TOP / "share/toolchain").read_text().strip())
            self.assertEqual(told[3:], ["verdict none: no record of a proof was bundled with the program",
                                        f"program sha256 {sum_of(other)}"])

    def test_each_file_that_the_first_page_names_is_there(self):
        root = unpack(self.bundle, self.folder / "named")
        page = (root / "README.md").read_text()
        self.assertIn(NAME + "-x86_64-linux.tar.gz", page)
        named = re.findall(r"(?:db|query|edits)=(examples/\S+\.lr[peq])\b", page) + re.findall(r"`(docs/\w+\.md)`", page)
        self.assertGreater(len(named), 15)
        for name in named:
            self.assertTrue((root / name).exists(), name)

    def test_a_whole_bundle_is_as_it_was_bundled(self):
        root = unpack(self.bundle, self.folder / "whole")
        files = [path for path in root.rglob("*") if path.is_file()]
        self.assertEqual(self.run_in(root, "--verify"), (0, f"as it was bundled: {len(files)} files\n", ""))
        done = call("sha256sum", "--quiet", "-c", "sums", cwd=root)
        self.assertEqual((done.returncode, done.stdout), (0, ""))
        self.assertEqual(len((root / "sums").read_text().splitlines()), len(files) - 1)

    def test_what_differs_is_told(self):
        root = unpack(self.bundle, self.folder / "changed")
        with open(root / "share/help/ask.txt", "a", encoding="utf-8") as file:
            file.write("more\n")
        (root / "docs/guide.md").unlink()
        (root / "share/launcher/re.py").write_text("raise SystemExit\n")
        (root / "examples/.hidden file").touch()
        status, told, err = self.run_in(root, "--verify")
        self.assertEqual((status, err), (1, ""))
        self.assertEqual(told.splitlines(), [
            "docs/guide.md is missing", "share/help/ask.txt differs", "examples/.hidden file was added",
            "share/launcher/re.py was added", "not as it was bundled: 4 files"])

    def test_there_is_nothing_to_compare_in_a_clone(self):
        done = call(TOP / "fizhedul", "--verify", env=environment())
        self.assertEqual((done.returncode, done.stdout), (2, ""))
        self.assertIn("compares a bundle with its sums", done.stderr)


class Record(unittest.TestCase):
    """What was proved of the program that is bundled."""

    def setUp(self):
        self.temporary = tempfile.TemporaryDirectory()
        self.addCleanup(self.temporary.cleanup)
        self.folder = Path(self.temporary.name)
        self.top = self.folder / "top"
        tree_with_a_record(self.top)
        self.record = self.top / "crates/lrp_main/out/proof"

    def version(self, name: str) -> list[str]:
        """What the bundle of the tree tells of its proof."""
        (self.folder / name).mkdir()
        root = unpack(build(self.folder / name, self.top, FIZHEDUL_PROGRAM=""), self.folder / name / "unpacked")
        self.assertEqual(call(root / "fizhedul", "--verify").returncode, 0)
        return call(root / "fizhedul", "--version").stdout.splitlines()[3:]

    def test_it_is_told(self):
        program = self.record.parent / "lrp_main"
        self.assertEqual(self.version("first"), [
            "verdict logic=proved functions=5 sum=cd", f"program sha256 {sum_of(program)}",
            f"sources sha256 {sum_of(self.record / 'sources')}", "proof of 2 crates, as proof/verdict and proof/sources tell"])
        root = self.folder / "first/unpacked" / NAME
        self.assertEqual(call("sha256sum", "--quiet", "-c", root / "proof/sources", cwd=self.top).returncode, 0)
        self.assertEqual((root / "proof/verdict").read_text(), (self.record / "verdict").read_text())

    def test_it_is_of_this_program_alone(self):
        with open(self.record.parent / "lrp_main", "ab") as program:
            program.write(b"\0")
        self.assertRegex(self.version("other")[0], "^verdict none: ")

    def test_it_is_of_these_sources_alone(self):
        (self.top / "crates/low/src/lib.rt").write_text("something else")
        self.assertRegex(self.version("other")[0], "^verdict none: ")

    def test_sources_that_were_changed_in_the_record_are_not_taken(self):
        (self.record / "sources").write_text("")
        self.assertRegex(self.version("other")[0], "^verdict none: ")


if __name__ == "__main__":
    unittest.main()
