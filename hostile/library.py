"""The library for C, which the variable FIZHEDUL_LIBRARY names: odd bytes, every room, memory refused, threads, and random
questions one after the other in one process, against the program, which is begun anew for each."""

import ctypes
import functools
import os
import random
import resource
import subprocess
import threading

from common import HERE, WAIT
from memory import BUS, example
from opinion import Case

ROOM = 1 << 16
PAGES = 12
ASK = ("ask", "db=db", "query=query")
INSTANTS = b"{ t: time | bus(t) }"


def packed(texts):
    return b"".join(len(text).to_bytes(8, "little") + text for text in texts)


class Handle(ctypes.Structure):
    """What the library keeps of a database."""

    _fields_ = [("is_open", ctypes.c_uint8), ("memory", ctypes.c_void_p)]


class Library:
    """The calls of the shared library."""

    def __init__(self, path):
        size, handle = ctypes.c_size_t, ctypes.POINTER(Handle)
        loaded = ctypes.CDLL(path)
        self.call, self.open_call, self.ask_call = loaded.fizhedul_run, loaded.fizhedul_open, loaded.fizhedul_ask
        self.close = loaded.fizhedul_close
        self.call.argtypes = [*[ctypes.c_char_p, size] * 3, ctypes.POINTER(size)]
        self.ask_call.argtypes = [handle, *self.call.argtypes]
        self.open_call.argtypes, self.close.argtypes = [ctypes.c_char_p, size, handle], [handle]

    def open(self, handle, **files):
        """The status of opening these files in a handle."""
        held = packed(part for name, text in files.items() for part in (name.encode(), text))
        return self.open_call(held, len(held), handle)

    def ask(self, handle, *words, **files):
        """The status and the text, as of a run over these files in front of those that are kept."""
        said = packed(word.encode() for word in words)
        held = packed(part for name, text in files.items() for part in (name.encode(), text))
        length, room = ctypes.c_size_t(1), ROOM
        while True:
            text = ctypes.create_string_buffer(room)
            status = self.ask_call(handle, said, len(said), held, len(held), text, room, ctypes.byref(length))
            if length.value <= room:
                return status, text.raw[: length.value]
            room = length.value

    def raw(self, words, files, room=ROOM):
        """The status, the length, and what stands in the room and in 16 bytes after it."""
        text, length = ctypes.create_string_buffer(b"?" * (room + 16), room + 16), ctypes.c_size_t(1)
        status = self.call(words, len(words), files, len(files), text, room, ctypes.byref(length))
        return status, length.value, text.raw

    def run(self, *words, **files):
        """The status and the text, as of a run of the program."""
        held = packed(part for name, text in files.items() for part in (name.encode(), text))
        status, length, text = self.raw(packed(word.encode() for word in words), held, ROOM)
        if length > ROOM:
            status, length, text = self.raw(packed(word.encode() for word in words), held, length)
        return status, text[:length]


def questions(seed):
    """The words of some questions of a random case, and its files."""
    case = Case(seed, 10000, is_tense=seed % 5 == 0, is_guarded=seed % 3 == 0)
    keys = [*(["tense=yes"] if seed % 5 == 0 else []), *(["plan=guarded"] if seed % 3 == 0 else [])]
    files = {"db": case.database, "query": case.query}
    yield ["check", "db=db"], {"db": case.database}
    for command in (["explain"], ["ask"], ["decide"], ["list", "from=-20", "to=60", "limit=7"]):
        yield [command[0], "db=db", "query=query", *command[1:], *keys], files


def same_as_processes(library, program, tally, seeds):
    for seed in seeds:
        for words, files in questions(seed):
            for name, text in files.items():
                program.write(name, text)
            wanted = program.run(*words)
            tally.check(library.run(*words, **files) == wanted, " ".join(words), *files.values(), wanted[1])


def odd_bytes(library, tally, count):
    chance = random.Random(1)
    words, files = packed(word.encode() for word in ASK), packed([b"db", BUS, b"query", INSTANTS])
    for _ in range(count):
        parts = [bytearray(words), bytearray(files)]
        for part in parts:
            for _ in range(chance.randrange(3)):
                part[chance.randrange(len(part))] = chance.choice((0, 1, 7, 127, 128, 255, chance.randrange(256)))
            if chance.random() < 0.3:
                del part[chance.randrange(len(part)) :]
        status, length, text = library.raw(*map(bytes, parts))
        is_told = status in (0, 2, 3, 4, 5, 6, 8) and 0 < length <= ROOM or (status, length) == (10, 0)
        tally.check(is_told and set(text[length:]) == {ord("?")}, "odd bytes: %d" % status, *map(bytes, parts))


def every_room(library, tally):
    words, files = packed(word.encode() for word in ASK), packed([b"db", BUS, b"query", INSTANTS])
    whole = library.run(*ASK, db=BUS, query=INSTANTS)[1]
    for room in range(len(whole) + 2):
        wanted = (0, len(whole), (whole[:room] + b"?" * (room + 16))[: room + 16])
        tally.check(library.raw(words, files, room) == wanted, "room for %d bytes" % room)


def in_threads(library, tally, seeds):
    """Four threads ask at the same time, and get what one gets."""
    asked = [question for seed in seeds for question in questions(seed)]
    wanted = [library.run(*words, **files) for words, files in asked]
    got = [[] for _ in range(4)]

    def ask(into):
        into += [library.run(*words, **files) for words, files in asked]

    threads = [threading.Thread(target=ask, args=(into,)) for into in got]
    for thread in threads:
        thread.start()
    for thread in threads:
        thread.join()
    for into in got:
        tally.check(into == wanted, "a thread got something else")


def pages(tell, words, files):
    """The first pages of a question, one after the other: a window of four times has millions of answers."""
    after = []
    for _ in range(PAGES):
        told = tell(*words, *after, **files)
        yield told
        last = told[1].splitlines()[-1].partition(b" ")
        if told[0] != 0 or last[0] != b"more":
            return
        after = ["after=" + last[2].decode()]


def kept_as_run(library, tally, seeds):
    """Questions of a database that is kept, in any order and again, are answered as runs are: also where the query, its words or
    the database of the call are others."""
    chance, handle, others = random.Random(3), Handle(), []
    for seed in seeds:
        asked = list(questions(seed))
        base = asked[0][1]["db"]
        tally.check(library.open(handle, db=base) == 0, "a database isn't opened")
        others = [*others[-4:], *((words, {"query": files.get("query", b"")}) for words, files in asked)]
        for words, files in chance.choices(others, k=8):
            cap = chance.choice([[], [], ["cap=1"], ["cap=100"]]) if words[0] in ("ask", "decide", "list") else []
            if chance.random() < 0.1:
                files = {**files, "db": BUS}
            over = {**{"db": base}, **files}
            wanted = [*pages(library.run, [*words, *cap], over)] if words[0] == "list" else [library.run(*words, *cap, **over)]
            tell = functools.partial(library.ask, handle)
            got = [*pages(tell, [*words, *cap], files)] if words[0] == "list" else [tell(*words, *cap, **files)]
            tally.check(got == wanted, "kept: " + " ".join([*words, *cap]), *over.values(), *(text for _, text in wanted))
    tally.check(library.close(handle) == 0, "a database isn't closed")


def pages_in_any_order(library, tally, seeds):
    """Pages of a kept database are those of runs: one after the other, with others of them, other windows and other questions
    between them."""
    chance, handle = random.Random(4), Handle()
    for seed in seeds:
        words, files = list(questions(seed))[-1]
        tally.check(library.open(handle, db=files["db"]) == 0, "a database isn't opened")
        starts = [[]]
        for _, text in pages(library.run, words, files):
            last = text.splitlines()[-1].partition(b" ")
            starts += [["after=" + last[2].decode()]] if last[0] == b"more" else []
        narrower = [word.replace("to=60", "to=50") for word in words]
        for start in starts:
            others = [[*words, *start], [*narrower, *start], [*words, *chance.choice(starts)], ["decide", *words[1:3], *words[6:]],
                      ["check", "db=db"]]
            for said in [[*words, *start], *chance.choices(others, k=2)]:
                wanted = library.run(*said, **files)
                got = library.ask(handle, *said, query=files["query"])
                tally.check(got == wanted, "page: " + " ".join(said), *files.values(), wanted[1])
    tally.check(library.close(handle) == 0, "a database isn't closed")


def closed(library, tally):
    """A database that isn't open is told, and one that is opened twice is the second one."""
    handle = Handle()
    tally.check(library.ask(handle, *ASK, query=INSTANTS) == (11, b""), "a closed database answers")
    tally.check(library.close(handle) == 11, "a closed database is closed")
    for base in (BUS, b"relation bus(t: time) { (7+60n); }"):
        tally.check(library.open(handle, db=base) == 0, "a database isn't opened")
        wanted = library.run(*ASK, db=base, query=INSTANTS)
        tally.check(library.ask(handle, *ASK, query=INSTANTS) == wanted, "an open database doesn't answer")
    tally.check(library.open_call(b"x", 1, handle) == 10, "files that aren't packed are opened")
    tally.check(library.ask(handle, *ASK, query=INSTANTS) == wanted, "a call that failed changed a database")
    tally.check((library.close(handle), library.close(handle)) == (0, 11), "a database is closed twice")


def kept_in_threads(library, tally, seeds):
    """Four threads with a database each."""
    tallied = []

    def ask(own):
        handle = Handle()
        for seed in own:
            for words, files in questions(seed):
                library.open(handle, db=files["db"])
                more = {name: text for name, text in files.items() if name != "db"}
                tallied.append(library.ask(handle, *words, **more) == library.run(*words, **files))
        library.close(handle)

    threads = [threading.Thread(target=ask, args=(seeds[first::4],)) for first in range(4)]
    for thread in threads:
        thread.start()
    for thread in threads:
        thread.join()
    tally.check(all(tallied), "a thread's database answered something else")


def growth(library, tally, count):
    """The process doesn't grow while the same questions are asked again and again."""
    base, query = example("week", "connections")
    for _ in range(count):
        library.run("decide", "db=db", "query=query", db=base, query=query)
    before = resource.getrusage(resource.RUSAGE_SELF).ru_maxrss
    for _ in range(10 * count):
        library.run("decide", "db=db", "query=query", db=base, query=query)
    handle = Handle()
    for _ in range(10 * count):
        library.open(handle, db=base)
        library.ask(handle, "list", "db=db", "query=query", "from=0", "to=200", "limit=2", query=query)
    library.close(handle)
    grown = resource.getrusage(resource.RUSAGE_SELF).ru_maxrss - before
    tally.check(grown < 1024, "the process grew by %d KB" % grown)


def refused_memory(program, tally, path):
    """Each request of a call for memory refused in turn, in a program in C."""
    made = os.path.join(program.room, "refused_calls")
    folder = os.path.dirname(os.path.realpath(path))
    wraps = ["-Wl,--wrap=" + name for name in ("malloc", "realloc", "free")]
    words = ["cc", "-O1", "-Wall", "-Wextra", "-Werror", "-I", os.path.join(HERE, "..", "packaging", "library"), "-o", made]
    archive = os.path.join(folder, "libfizhedul.a")
    built = subprocess.run([*words, os.path.join(HERE, "refused_calls.c"), archive, *wraps], capture_output=True, check=False)
    tally.check(built.returncode == 0, "the calls can't be built", built.stderr)
    for words, (base, query) in ((ASK, (BUS, INSTANTS)), (("decide", *ASK[1:]), example("week", "connections")),
                                 (("list", *ASK[1:], "from=0", "to=200"), (BUS, INSTANTS)), (("nothing",), (BUS, INSTANTS))):
        program.write("words", packed(word.encode() for word in words))
        program.write("files", packed([b"db", base, b"query", query]))
        program.write("asked", packed([b"query", query]))
        program.write("kept", packed([b"db", base]))
        for names in (["files"], ["asked", "kept"]):
            ran = subprocess.run([made, "words", *names], cwd=program.folder, capture_output=True, check=False, timeout=WAIT)
            tally.check(ran.returncode == 0 and int(ran.stdout) > 1, " ".join([*words, *names]), ran.stdout)


def calls_of_library(program, tally, seeds):
    """All of that, where there is a library."""
    path = os.environ.get("FIZHEDUL_LIBRARY")
    if not path:
        print("library: FIZHEDUL_LIBRARY names none, so none is called")
        return
    library = Library(path)
    every_room(library, tally)
    odd_bytes(library, tally, 20 * len(seeds))
    same_as_processes(library, program, tally, seeds)
    in_threads(library, tally, seeds[:20])
    closed(library, tally)
    kept_as_run(library, tally, seeds)
    pages_in_any_order(library, tally, seeds)
    kept_in_threads(library, tally, seeds[:20])
    growth(library, tally, 100)
    refused_memory(program, tally, path)
