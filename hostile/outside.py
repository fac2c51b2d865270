"""Files that are missing, odd or too long, and outputs that fail."""

import os
import subprocess
import threading

from common import LONGEST, WAIT, refusal

BUS = b"relation bus(t: time) { (5+60n); }"
DEPARTURES = b"{ t: time | bus(t) }"
PAGE = ("list", "from=0", "to=6000", "limit=1000")
WHOLE = "".join("%d\n" % it for it in range(5, 6001, 60)).encode() + b"end\n"
ANSWER = b"relation answer(t: time) {\n  (5+60n);\n}\n"
READ = {name: ("refused: read of %s\n" % name).encode() for name in ("database", "query")}
LONG = {name: ("refused: %s longer than 16777216 bytes\n" % name).encode() for name in ("database", "query")}


def files(program, tally):
    program.write("bus", BUS)
    program.write("departures", DEPARTURES)
    whole = lambda db, query: [*PAGE, "db=" + db, "query=" + query]
    program.expect(WHOLE, 0, *whole("bus", "departures"))
    missing_files(program, whole)
    odd_files(program, whole)
    piped_files(program, whole)
    long_files(program)
    one_file_twice(program)
    names_of_files(program)


def missing_files(program, whole):
    for name in (
        "none",
        "none/none",
        "bus/none",
        "departures/",
        ".",
        "..",
        "/",
        "/none",
        "a" * 300,
        "a" * 5000,
        "a/" * 3000,
        " ",
        "=",
        "db=bus",
        "é",
    ):
        program.expect(READ["database"], 6, *whole(name, "departures"))
        program.expect(READ["query"], 6, *whole("bus", name))
        program.expect(READ["database"], 6, *whole(name, name))
        program.expect(READ["database"], 6, "check", "db=" + name)
    program.write("broken", b"relation")
    program.expect(refusal("database", "Syntax at 1:9"), 3, *whole("broken", "none"))


def odd_files(program, whole):
    folder = os.path.join(program.folder, "folder")
    os.mkdir(folder)
    program.write("closed", BUS)
    os.chmod(os.path.join(program.folder, "closed"), 0)
    nobody = {"user": 65534, "group": 65534} if os.geteuid() == 0 else {}
    os.symlink("bus", os.path.join(program.folder, "link"))
    os.symlink("loop", os.path.join(program.folder, "loop"))
    os.symlink("gone", os.path.join(program.folder, "dangling"))
    for name in ("folder", "closed", "loop", "dangling"):
        program.expect(READ["database"], 6, *whole(name, "departures"), **nobody)
        program.expect(READ["query"], 6, *whole("bus", name), **nobody)
    program.expect(WHOLE, 0, *whole("link", "departures"))
    program.expect(b"", 0, "check", "db=/dev/null")
    program.expect(refusal("query", "Syntax at 1:1"), 4, *whole("bus", "/dev/null"))
    program.expect(LONG["database"], 3, "check", "db=/dev/zero")
    program.expect(LONG["query"], 4, *whole("bus", "/dev/zero"))


def piped_files(program, whole):
    """Named pipes: whole, in small pieces, empty, and with no end."""
    path = os.path.join(program.folder, "pipe")
    os.mkfifo(path)

    def feed(pieces):
        def write():
            try:
                with open(path, "wb", buffering=0) as pipe:
                    for piece in pieces:
                        pipe.write(piece)
            except BrokenPipeError:
                pass

        writer = threading.Thread(target=write, daemon=True)
        writer.start()
        return writer

    def endless():
        while True:
            yield b" " * 65536

    single = lambda data: [bytes([byte]) for byte in data]
    for pieces, wanted, status, words in (
        ([BUS], WHOLE, 0, whole("pipe", "departures")),
        (single(BUS), WHOLE, 0, whole("pipe", "departures")),
        (single(DEPARTURES), WHOLE, 0, whole("bus", "pipe")),
        ([], b"", 0, ["check", "db=pipe"]),
        (endless(), LONG["database"], 3, ["check", "db=pipe"]),
        (endless(), LONG["query"], 4, whole("bus", "pipe")),
    ):
        writer = feed(pieces)
        program.expect(wanted, status, *words)
        writer.join(10)
    os.unlink(path)


def long_files(program):
    """The greatest length and one more, as blanks, as a comment, and after a whole text."""
    for filler in (b" ", b"\n", b"#"):
        for front, output in ((b"", b""), (BUS, b"relation bus(t: time) {\n  (5+60n);\n}\n")):
            text = front + filler * (LONGEST - len(front))
            program.expect(output, 0, "check", database=text)
            program.expect(LONG["database"], 3, "check", database=text + b" ")
    text = DEPARTURES + b" " * (LONGEST - len(DEPARTURES))
    program.expect(WHOLE, 0, *PAGE, database=BUS, query=text)
    program.expect(LONG["query"], 4, *PAGE, database=BUS, query=text + b"\n")
    program.expect(LONG["database"], 3, *PAGE, database=text + b" ", query=text + b" ")
    for name in ("db", "query"):
        program.write(name, b"")


def one_file_twice(program):
    program.write("one", BUS)
    program.expect(refusal("query", "Syntax at 1:1"), 4, "decide", "db=one", "query=one")
    program.write("one", DEPARTURES)
    program.expect(refusal("database", "Syntax at 1:1"), 3, "decide", "db=one", "query=one")
    program.write("one", b"")
    program.expect(refusal("query", "Syntax at 1:1"), 4, "decide", "db=one", "query=one")


def names_of_files(program):
    """Names that look like words of a command."""
    for name in ("x=y", "=", "db=db", "-", "--help", "a b", "\n", "é", "a" * 255):
        program.write(name, BUS)
        program.expect(b"relation bus(t: time) {\n  (5+60n);\n}\n", 0, "check", "db=" + name)
        os.unlink(os.path.join(program.folder, name))
    for word in (b"db=\xff", b"\xff"):
        got = subprocess.run([program.path, "check", word], cwd=program.folder, capture_output=True, timeout=WAIT)
        program.tally.check(
            (got.returncode, got.stdout, got.stderr) == (10, b"", b""), "a word that is no UTF-8", str(got)
        )


# Outputs


def outputs(program, tally, few=False):
    program.write("bus", BUS)
    program.write("departures", DEPARTURES)
    runs = {
        "page": ([*PAGE, "db=bus", "query=departures"], WHOLE, 0),
        "long page": (["list", "from=0", "to=6000000", "limit=1000000", "db=bus", "query=departures"], None, 0),
        "check": (["check", "db=bus"], None, 0),
        "explain": (["explain", "db=bus", "query=departures"], None, 0),
        "decide": (["decide", "db=bus", "query=departures"], b"Nonempty\n5\n", 0),
        "canonical": (["ask", "db=bus", "query=departures", "canon=yes"], ANSWER, 0),
        "usage": ([], b"refused: usage\n", 2),
        "missing": (["check", "db=none"], READ["database"], 6),
        "fault": (["check", "db=departures"], refusal("database", "Syntax at 1:1"), 3),
    }
    for name, (words, wanted, status) in runs.items():
        got = program.run(*words)
        tally.check(got[0] == status and (wanted is None or got[1] == wanted), name, got[1])
        full_device(program, tally, name, words)
        closed_output(program, tally, name, words)
        for count in cuts(len(got[1]), few):
            pipe_that_closes(program, tally, name, words, got, count)


def cuts(length, few):
    """The first bytes, one by one, and some further places."""
    if few:
        return sorted({0, 1, length // 2, length - 1, length})
    return sorted({*range(0, min(length, 40) + 1), *range(0, length, max(1, length // 20)), length})


def full_device(program, tally, name, words):
    with open("/dev/full", "wb") as full:
        status, _ = program.run(*words, stdout=full)
    tally.check(status == 7, "%s to a full device: status %s" % (name, status))


def closed_output(program, tally, name, words):
    ran = subprocess.run(
        [program.path, *words],
        cwd=program.folder,
        stdin=subprocess.DEVNULL,
        stderr=subprocess.PIPE,
        timeout=WAIT,
        preexec_fn=lambda: os.close(1),
    )
    tally.check(
        ran.returncode == 7 and not ran.stderr, "%s without an output: status %s" % (name, ran.returncode), ran.stderr
    )


def pipe_that_closes(program, tally, name, words, whole, count):
    """The reader takes some bytes and goes. What it took is a front of the output, and the status is that of a failed write or of the whole."""
    child = subprocess.Popen(
        [program.path, *words],
        cwd=program.folder,
        stdin=subprocess.DEVNULL,
        stdout=subprocess.PIPE,
        stderr=subprocess.PIPE,
    )
    taken = b""
    while len(taken) < count:
        piece = os.read(child.stdout.fileno(), count - len(taken))
        if not piece:
            break
        taken += piece
    child.stdout.close()
    said = child.stderr.read()
    child.stderr.close()
    status = child.wait(WAIT)
    is_front = whole[1].startswith(taken) and len(taken) == count
    tally.check(
        is_front and status in (7, whole[0]) and not said,
        "%s to a pipe that closes after %d bytes: status %s" % (name, count, status),
        taken,
        said,
    )
