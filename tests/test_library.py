"""The library for C: what it shows, how it is found, and its calls, from C and under the address sanitizer."""

import ctypes
import re
import subprocess
import sys
import tempfile
import unittest
import zipfile
from pathlib import Path

from made_library import BUILD, library, shared_library
from support import PROGRAM, TOP, need

BUS = b"relation bus(t: time) { (5+60n); }\n"
ALL = b"{ t: time | bus(t) }\n"
ANSWER = b"relation answer(t: time) {\n  (5+60n);\n}\n"
EXAMPLE = "5\n65\n125\nend\nNonempty\n5\n"
ASK = ("ask", "db=d", "query=q")
FLAGS = ["-std=c99", "-Wall", "-Wextra", "-Werror", "-O1"]


def packed(texts) -> bytes:
    """Byte strings in one, each after its length."""
    return b"".join(len(text).to_bytes(8, "little") + text for text in texts)


def call(words: bytes, files: bytes, room: int = 4096) -> tuple[int, int, bytes]:
    """The status, the number of all bytes, and what stands in the room and eight bytes after it."""
    size = ctypes.c_size_t
    run = ctypes.CDLL(str(shared_library())).fizhedul_run
    run.argtypes = [ctypes.c_char_p, size, ctypes.c_char_p, size, ctypes.c_char_p, size, ctypes.POINTER(size)]
    text, length = ctypes.create_string_buffer(b"?" * (room + 8), room + 8), size(12345)
    status = run(words, len(words), files, len(files), text, room, ctypes.byref(length))
    return status, length.value, text.raw


def asked(*words: str, room: int = 4096, **files: bytes) -> tuple[int, int, bytes]:
    """A call with these words over these files."""
    held = packed(part for name, text in files.items() for part in (name.encode(), text))
    return call(packed(word.encode() for word in words), held, room)


class Database(ctypes.Structure):
    """Files that the library keeps, as the header says."""

    _fields_ = [("is_open", ctypes.c_uint8), ("memory", ctypes.c_void_p)]

    def call(self, name: str, *words) -> int:
        """The status of a call on it."""
        return getattr(ctypes.CDLL(str(shared_library())), f"fizhedul_{name}")(ctypes.byref(self), *words)

    def open_packing(self, files: bytes) -> int:
        """The status of opening these files."""
        opened = ctypes.CDLL(str(shared_library())).fizhedul_open
        return opened(ctypes.c_char_p(files), ctypes.c_size_t(len(files)), ctypes.byref(self))

    def open(self, **files: bytes) -> int:
        """The same, of files by their names."""
        return self.open_packing(packed(part for name, text in files.items() for part in (name.encode(), text)))

    def ask(self, *words: str, **files: bytes) -> tuple[int, bytes]:
        """The status and the text of a question, over these files in front of those that are kept."""
        said = packed(word.encode() for word in words)
        held = packed(part for name, text in files.items() for part in (name.encode(), text))
        text, length, size = ctypes.create_string_buffer(4096), ctypes.c_size_t(12345), ctypes.c_size_t
        status = self.call("ask", said, size(len(said)), held, size(len(held)), text, size(4096), ctypes.byref(length))
        return status, text.raw[: length.value]

    def close(self) -> int:
        """The status of letting them go."""
        return self.call("close")


class Library(unittest.TestCase):
    """One library, built once."""

    @classmethod
    def setUpClass(cls):
        library()

    def test_it_writes_what_the_program_writes(self):
        status, length, text = asked(*ASK, d=BUS, q=ALL)
        self.assertEqual((status, length, text[:length]), (0, len(ANSWER), ANSWER))
        self.assertEqual(set(text[length:]), {ord("?")})

    def test_each_room_holds_a_front_and_no_byte_past_it(self):
        for room in range(len(ANSWER) + 3):
            status, length, text = asked(*ASK, room=room, d=BUS, q=ALL)
            self.assertEqual((status, length), (0, len(ANSWER)))
            self.assertEqual(text, (ANSWER[:room] + b"?" * (room + 8))[:room + 8])

    def test_a_refusal_has_its_line_and_its_status(self):
        for wanted, line, words, files in (
                (2, b"refused: usage\n", (), {}),
                (3, b"refused: database Syntax at 1:1\n", ASK, {"d": b"x", "q": ALL}),
                (4, b"refused: query UnknownRelation at 1:13\n", ASK, {"d": BUS, "q": b"{ t: time | buss(t) }"}),
                (5, b"refused: more than 1 cells at step 1\n", ("decide", "db=d", "query=q", "cap=1"),
                 {"d": b"relation bus(t: time) { (5+60n); (6+60n); }", "q": ALL}),
                (6, b"refused: read of query\n", ASK, {"d": BUS}),
                (6, b"refused: read of database\n", ASK, {"q": ALL})):
            status, length, text = asked(*words, **files)
            self.assertEqual((status, text[:length]), (wanted, line))

    def test_of_two_files_of_one_name_the_first_counts(self):
        held = packed([b"d", BUS, b"q", ALL, b"d", b"nothing", b"q", b"nothing"])
        status, length, text = call(packed(word.encode() for word in ASK), held)
        self.assertEqual((status, text[:length]), (0, ANSWER))

    def test_what_is_not_packed_is_refused_and_nothing_is_written(self):
        words, files = packed(word.encode() for word in ASK), packed([b"d", BUS, b"q", ALL])
        wrong = [(words[:cut], files) for cut in range(1, len(words)) if cut not in (11, 23)]
        wrong += [(words, files[:cut]) for cut in range(1, len(files)) if cut not in (9 + 8 + len(BUS), len(files))]
        wrong += [(words + b"\0", files), (words, files + packed([b"name alone"])), (packed([b"\xff"]), files),
                  (words, packed([b"\xff", b""])), ((2**64 - 1).to_bytes(8, "little") + b"x", files)]
        for asked_words, held in wrong:
            status, length, text = call(asked_words, held)
            self.assertEqual((status, length, set(text)), (10, 0, {ord("?")}), (asked_words, held))

    def test_a_call_sees_no_file_of_the_one_before(self):
        self.assertEqual(asked(*ASK, d=BUS, q=ALL)[0], 0)
        self.assertEqual(asked(*ASK)[0], 6)

    def test_a_database_is_kept_until_it_is_closed(self):
        other = b"relation bus(t: time) { (7+60n); }\n"
        database = Database()
        self.assertEqual(database.ask(*ASK, q=ALL), (11, b""))
        self.assertEqual(database.close(), 11)
        for text in (BUS, other):
            self.assertEqual(database.open(d=text), 0)
            for words in (ASK, ("list", *ASK[1:], "from=0", "to=200", "limit=2"), ASK, ("decide", *ASK[1:])):
                status, length, told = asked(*words, d=text, q=ALL)
                self.assertEqual(database.ask(*words, q=ALL), (status, told[:length]))
        self.assertEqual(database.ask(*ASK, q=ALL, d=BUS), (0, ANSWER))
        self.assertEqual(database.ask(*ASK)[0], 6)
        self.assertEqual((database.open_packing(b"x"), database.ask(*ASK, q=ALL)[1]), (10, ANSWER.replace(b"5+", b"7+")))
        self.assertEqual((database.close(), database.close()), (0, 11))

    def test_each_page_of_a_kept_database_is_that_of_a_run(self):
        database, words = Database(), ("list", *ASK[1:], "from=0", "to=600", "limit=3")
        self.assertEqual(database.open(d=BUS), 0)
        token, last = (), b""
        while last != b"end":
            status, length, text = asked(*words, *token, d=BUS, q=ALL)
            self.assertEqual(database.ask(*words, *token, q=ALL), (status, text[:length]))
            self.assertEqual(database.ask("decide", *ASK[1:], q=ALL)[0], 0)
            last = text[:length].splitlines()[-1]
            token = ("after=" + last.decode().partition(" ")[2],)
        self.assertEqual(database.ask(*words, "after=00", q=ALL)[0], 4)
        self.assertEqual(database.close(), 0)

    def test_a_page_is_that_of_a_run_wherever_the_last_one_ended(self):
        rows = b"relation seen(t: time, who: data) { (1+7n, \"a\"); (3+5n, \"b\"); (3+5n, \"c\") where t >= 20; (40, \"a\"); (41, \"d\"); }\n"
        query, words = b"{ t: time, who: data | seen(t, who) }\n", ("list", *ASK[1:], "from=0", "to=99", "limit=4")
        tokens = [()]
        while True:
            _, length, text = asked(*words, *tokens[-1], d=rows, q=query)
            last = text[:length].splitlines()[-1].decode().partition(" ")
            if last[0] != "more":
                break
            tokens.append(("after=" + last[2],))
        self.assertGreater(len(tokens), 8)
        database = Database()
        self.assertEqual(database.open(d=rows), 0)
        others = [("list", *ASK[1:], "from=0", "to=98", "limit=4"), ("list", *ASK[1:], "from=1", "to=99", "limit=4"),
                  (*words[:-1], "limit=1"), (*words, "json=yes"), ("count", *ASK[1:], "from=0", "to=99"), ("explain", *ASK[1:])]
        for at, token in enumerate(tokens):
            for more in (words, words, *(others[(at + turn) % len(others)] for turn in range(2))):
                said = (*more, *token) if more[0] == "list" else more
                status, length, text = asked(*said, d=rows, q=query)
                self.assertEqual(database.ask(*said, q=query), (status, text[:length]), said)
        self.assertEqual(database.close(), 0)

    def test_several_databases_are_kept_side_by_side(self):
        other, database = b"relation bus(t: time) { (7+60n); }\n", Database()
        self.assertEqual(database.open(d=BUS, e=other), 0)
        for words in (("list", "from=0", "to=200", "limit=2"), ("ask",), ("list", "from=0", "to=200", "limit=2"), ("check",)):
            for name in ("d", "e", "d"):
                said = (words[0], f"db={name}", *(() if words[0] == "check" else ("query=q",)), *words[1:])
                status, length, text = asked(*said, d=BUS, e=other, q=ALL)
                self.assertEqual(database.ask(*said, q=ALL), (status, text[:length]), said)
        self.assertEqual(database.close(), 0)

    def test_only_the_names_of_the_header_are_seen(self):
        nm = need("nm")
        declared = set(re.findall(r"^int32_t (\w+)\(", (BUILD / "fizhedul.h").read_text(), re.MULTILINE))
        shown = subprocess.run([nm, "-D", "--defined-only", shared_library()], capture_output=True, text=True, check=True)
        found = {line.split()[2].split("@")[0] for line in shown.stdout.splitlines()} - {"FIZHEDUL_1"}
        self.assertEqual(found, declared)
        shown = subprocess.run([nm, "-g", "--defined-only", library() / "lib/libfizhedul.a"], capture_output=True, text=True, check=True)
        self.assertEqual({line.split()[2] for line in shown.stdout.splitlines() if len(line.split()) == 3}, declared)

    def test_the_version_stands_in_its_name_and_in_what_finds_it(self):
        version = (TOP / "share/version").read_text().strip()
        self.assertEqual(shared_library().resolve().name, f"libfizhedul.so.1.{version}")
        shown = subprocess.run([need("objdump"), "-p", shared_library()], capture_output=True, text=True, check=True).stdout
        self.assertRegex(shown, r"SONAME +libfizhedul\.so\.1\n")
        found = subprocess.run([need("pkg-config"), "--modversion", "fizhedul"], capture_output=True, text=True, check=True,
                               env={"PKG_CONFIG_PATH": str(library() / "lib/pkgconfig"), "PATH": "/usr/bin:/bin"})
        self.assertEqual(found.stdout.strip(), version)

    def build_example(self, folder: str, *more: str) -> Path:
        """The example, built as its first lines say, with further words for the compiler."""
        program = Path(folder, "example")
        done = subprocess.run([need("cc"), *FLAGS, *more, f"-I{library() / 'include'}", "-o", program, BUILD / "example.c",
                               library() / "lib/libfizhedul.a"], capture_output=True, text=True, check=False)
        self.assertEqual((done.returncode, done.stderr), (0, ""))
        return program

    def test_the_example_runs_and_asks_for_no_byte_that_it_may_not(self):
        for more in ([], ["-fsanitize=address,undefined", "-g"]):
            with tempfile.TemporaryDirectory() as folder:
                program = self.build_example(folder, *more)
                done = subprocess.run([program], capture_output=True, text=True, check=False)
                self.assertEqual((done.returncode, done.stdout, done.stderr), (0, EXAMPLE, ""))

    def test_the_header_is_also_one_of_cpp(self):
        with tempfile.TemporaryDirectory() as folder:
            source = Path(folder, "uses.cc")
            source.write_text('#include <fizhedul.h>\nint main() { return fizhedul_packed(0) == 8 ? 0 : 1; }\n')
            done = subprocess.run([need("c++"), "-Wall", "-Wextra", "-Werror", f"-I{BUILD}", "-o", Path(folder, "uses"), source],
                                  capture_output=True, text=True, check=False)
            self.assertEqual((done.returncode, done.stderr), (0, ""))

    def test_it_says_the_same_as_the_program_on_every_example(self):
        for cases in sorted(TOP.glob("examples/*/cases"))[:8]:
            folder = cases.parent
            for path in sorted(folder.glob("*.lrq")):
                databases = sorted(folder.glob("*.lrp"))[:1]
                for base in databases:
                    words = ["decide", f"db={base.name}", f"query={path.name}"]
                    ran = subprocess.run([PROGRAM, *words], cwd=folder, capture_output=True, check=False)
                    status, length, text = asked(*words, **{base.name: base.read_bytes(), path.name: path.read_bytes()})
                    self.assertEqual((status, text[:length]), (ran.returncode, ran.stdout), (folder.name, words))


class Packages(unittest.TestCase):
    """The Debian packages and the wheel: unpacked, and used from there."""

    ASKED = "import fizhedul; print(fizhedul.Database('relation r(t: time) { (7); }').query('{ t: time | r(t) }').decide())"

    @classmethod
    def setUpClass(cls):
        for tool in ("dpkg-deb", "dpkg-architecture"):
            need(tool)
        library()
        cls.temporary = tempfile.TemporaryDirectory()
        cls.addClassCleanup(cls.temporary.cleanup)
        cls.folder = Path(cls.temporary.name)
        done = subprocess.run([BUILD / "packages", cls.folder], capture_output=True, text=True, check=False)
        if done.returncode:
            raise AssertionError(done.stderr)
        cls.packages = [Path(line) for line in done.stdout.splitlines()]
        cls.root = cls.folder / "root"
        for package in cls.packages:
            subprocess.run(["dpkg-deb", "-x", package, cls.root], check=True)
        triplet = subprocess.run(["dpkg-architecture", "-qDEB_HOST_MULTIARCH"], capture_output=True, text=True, check=True)
        cls.libraries = cls.root / "usr/lib" / triplet.stdout.strip()

    def test_there_are_three(self):
        self.assertEqual([package.name.split("_")[0] for package in self.packages],
                         ["libfizhedul1", "libfizhedul-dev", "python3-fizhedul"])

    def test_a_program_is_built_and_run_with_them(self):
        program = self.folder / "example"
        source = self.root / "usr/share/doc/libfizhedul-dev/examples/example.c"
        done = subprocess.run([need("cc"), *FLAGS, f"-I{self.root / 'usr/include'}", "-o", program, source, f"-L{self.libraries}",
                               "-lfizhedul"], capture_output=True, text=True, check=False)
        self.assertEqual((done.returncode, done.stderr), (0, ""))
        done = subprocess.run([program], capture_output=True, text=True, check=False, env={"LD_LIBRARY_PATH": str(self.libraries)})
        self.assertEqual((done.returncode, done.stdout), (0, EXAMPLE))

    def test_python_finds_the_library_of_the_system(self):
        done = subprocess.run([sys.executable, "-c", self.ASKED], cwd=self.folder, capture_output=True, text=True, check=False,
                              env={"LD_LIBRARY_PATH": str(self.libraries), "PYTHONPATH": str(self.root / "usr/lib/python3/dist-packages")})
        self.assertEqual((done.returncode, done.stdout, done.stderr), (0, "(7,)\n", ""))

    def test_lintian_finds_nothing(self):
        lintian = need("lintian")
        done = subprocess.run([lintian, "--allow-root", "--fail-on", "error,warning", *self.packages], capture_output=True, text=True,
                              check=False)
        self.assertEqual((done.returncode, done.stdout), (0, ""))

    def test_a_wheel_has_the_library_in_it(self):
        python = "/usr/bin/python3"
        if subprocess.run([python, "-c", "import setuptools, pip, wheel"], capture_output=True, check=False).returncode:
            self.skipTest("pip, setuptools or wheel is missing")
        done = subprocess.run([TOP / "bindings/python/wheel", self.folder], capture_output=True, text=True, check=False,
                              env={"PATH": "/usr/bin:/bin", "PYTHON": python, "FIZHEDUL_LIBRARY": str(shared_library())})
        self.assertEqual(done.returncode, 0, done.stderr)
        wheel = Path(done.stdout.strip())
        self.assertRegex(wheel.name, r"^fizhedul-[0-9.]+-py3-none-linux_\w+\.whl$")
        with zipfile.ZipFile(wheel) as opened:
            opened.extractall(self.folder / "unpacked")
        done = subprocess.run([sys.executable, "-c", self.ASKED], cwd=self.folder / "unpacked", capture_output=True, text=True,
                              check=False, env={"PATH": "/usr/bin:/bin"})
        self.assertEqual((done.returncode, done.stdout, done.stderr), (0, "(7,)\n", ""))


if __name__ == "__main__":
    unittest.main()
