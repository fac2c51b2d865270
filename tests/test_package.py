"""The Debian package: built, looked at, installed into a clean root without a toolchain, run there, and taken out."""

import os
import re
import shutil
import subprocess
import tempfile
import unittest
from pathlib import Path

from support import PROGRAM, TOP, environment, need

# What the launcher calls; a Debian system always has these.
ESSENTIAL = ["bash", "cat", "dirname", "env", "readlink", "sed"]


def call(*words: str | Path, **more) -> subprocess.CompletedProcess[str]:
    """Runs a program, and gives what it wrote."""
    return subprocess.run(words, stdin=subprocess.DEVNULL, capture_output=True, text=True, check=False, **more)


def build(folder: Path) -> Path:
    """Builds the package into a folder."""
    done = call(TOP / "packaging/deb/build", folder, env=environment())
    if done.returncode:
        raise AssertionError(done.stderr)
    return Path(done.stdout.strip())


def lay_tool(root: Path, tool: str) -> None:
    """Copies a program, with the libraries that it is linked to, into a root."""
    path = Path(shutil.which(tool) or tool)
    for each in [str(path), *re.findall(r"(/\S+) \(0x", call("ldd", path).stdout)]:
        place = root / each.lstrip("/")
        place.parent.mkdir(parents=True, exist_ok=True)
        shutil.copy(each, place)


def files_of(root: Path) -> set[str]:
    """All files of a root, but for what the package manager keeps; it takes empty folders with it."""
    return {str(path.relative_to(root)) for path in root.rglob("*") if not path.is_dir()} - {
        str(path.relative_to(root)) for path in (root / "var").rglob("*")}


class Package(unittest.TestCase):
    """One package, built once."""

    @classmethod
    def setUpClass(cls):
        need("dpkg-deb")
        cls.temporary = tempfile.TemporaryDirectory()
        cls.addClassCleanup(cls.temporary.cleanup)
        cls.folder = Path(cls.temporary.name)
        cls.package = build(cls.folder)

    def test_it_says_version_and_what_it_needs(self):
        fields = call("dpkg-deb", "-f", self.package).stdout
        self.assertIn(f"Version: {(TOP / 'share/version').read_text().strip()}\n", fields)
        self.assertRegex(fields, r"(?m)^Depends: libc6 \(>= 2\.\d+\)$")

    def test_the_program_is_linked_to_the_c_library_alone(self):
        linked = set(re.findall(r"^\s*(\S+)", call("ldd", PROGRAM).stdout, re.MULTILINE))
        self.assertLessEqual({name.rsplit("/")[-1].split(".so")[0] for name in linked},
                             {"linux-vdso", "libc", "ld-linux-x86-64", "ld-linux-aarch64"})

    def test_the_same_sources_give_the_same_bytes(self):
        again = self.folder / "again"
        again.mkdir()
        self.assertEqual(build(again).read_bytes(), self.package.read_bytes())

    def test_each_file_is_whole(self):
        root = self.folder / "whole"
        call("dpkg-deb", "-x", self.package, root)
        call("dpkg-deb", "-e", self.package, root / "DEBIAN")
        done = call("md5sum", "--quiet", "-c", "DEBIAN/md5sums", cwd=root)
        self.assertEqual((done.returncode, done.stdout), (0, ""))

    def test_it_runs_where_it_is_unpacked(self):
        root = self.folder / "unpacked"
        call("dpkg-deb", "-x", self.package, root)
        launcher = root / "usr/bin/fizhedul"
        plain = {key: value for key, value in environment(FIZHEDUL_EXPLAIN="always").items() if key != "FIZHEDUL_PROGRAM"}
        examples = root / "usr/share/doc/fizhedul/examples"
        done = call(launcher, "ask", "db=bus/bus.lrp", "query=bus/misspelt.lrq", cwd=examples, env=plain)
        self.assertEqual((done.returncode, done.stdout), (4, "refused: query UnknownRelation at 1:13\n"))
        self.assertIn("^~~~", done.stderr)
        done = call(launcher, "ask", "db=bus/bus.lrp", "query={ t: time | bus(t) }", cwd=examples, env=plain)
        self.assertEqual((done.returncode, done.stdout), (0, "relation answer(t: time) {\n  (5+60n);\n}\n"))
        self.assertIn("toolchain rattle", call(launcher, "--version", env=plain).stdout)

    def test_it_has_the_page_of_the_workbench_and_what_that_shows(self):
        root = self.folder / "pages"
        call("dpkg-deb", "-x", self.package, root)
        pages = root / "usr/share/doc/fizhedul"
        text = (pages / "workbench.md").read_text()
        named = re.findall(r"\b((?:workbench/)?examples/[\w./-]+)", text) + re.findall(r"\((pictures/[^)]+)\)", text)
        self.assertGreater(len(named), 8)
        for name in named:
            self.assertTrue((pages / name.rstrip(".")).exists(), name)
        self.assertTrue((root / "usr/share/vim/vimfiles/after/plugin/fizhedul.vim").exists())

    def test_it_installs_runs_and_leaves_a_clean_root(self):
        if os.geteuid() != 0:
            self.skipTest("only root may enter another root")
        root = self.folder / "root"
        for tool in ESSENTIAL:
            lay_tool(root, tool)
        (root / "dev").mkdir()
        (root / "dev/null").touch()
        for folder in ("var/lib/dpkg/info", "var/lib/dpkg/updates", "usr/share", "usr/lib", "usr/bin"):
            (root / folder).mkdir(parents=True, exist_ok=True)
        (root / "var/lib/dpkg/status").touch()
        before = files_of(root)
        # The libraries stand in this root without being known to it as packages.
        done = call("dpkg", f"--root={root}", "--force-depends", "-i", self.package)
        self.assertEqual(done.returncode, 0, done.stderr)
        plain = {"PATH": "/usr/bin:/bin", "LC_ALL": "C"}
        inside = [need("chroot"), root, shutil.which("bash"), "-c"]
        for line, out in (
                ("fizhedul check db=/usr/share/doc/fizhedul/examples/bus/bus.lrp", "relation bus(t: time) {\n  (5+60n);\n}\n"),
                ("cd /usr/share/doc/fizhedul/examples/guide; fizhedul decide db=line.lrp query=uncovered.lrq",
                 "Nonempty\n-235, -210\n"),
                ("FIZHEDUL_EXPLAIN=always fizhedul lst; echo $?", "refused: usage\n2\n"),
                ("fizhedul --version | cat | { read -r a b; echo $a; }", "fizhedul\n")):
            done = call(*inside, line, env=plain)
            self.assertEqual((done.stdout, done.stderr), (out, ""))
        page = call(*inside, "fizhedul help", env=plain).stdout
        self.assertIn("from the folder /usr/share/doc/fizhedul/examples:", page)
        self.assertEqual(call("dpkg", f"--root={root}", "-P", "fizhedul").returncode, 0)
        self.assertEqual(files_of(root), before)

    def test_lintian_finds_nothing(self):
        lintian = need("lintian")
        done = call(lintian, "--allow-root", "--fail-on", "error,warning", self.package)
        self.assertEqual((done.returncode, done.stdout), (0, ""))


if __name__ == "__main__":
    unittest.main()
