"""Files of up to 16,777,216 bytes that ask for much: each has to be refused, or to begin its output, within ten processor seconds."""

import itertools
import os
import resource
import signal
import subprocess

from common import LONGEST

SECONDS = 10
SMALL = b'relation r() { (); }\nrelation s(t: time) { (0+2n); }\nrelation l(x: line) { ("a"); }\n'


def filled(front, pieces, back=b"", room=LONGEST, least=1):
    """The front, pieces for as long as they fit, and the back. A piece with a %d is numbered."""
    room -= len(front) + len(back)
    if b"%d" not in pieces:
        return front + pieces * (room // len(pieces)) + back
    found, size = [], 0
    for number in itertools.count(least):
        piece = pieces.replace(b"%d", b"%d" % number)
        size += len(piece)
        if size > room:
            return front + b"".join(found) + back
        found.append(piece)


def joined(front, piece, word, back):
    """Pieces with a word between them."""
    return filled(front + piece, word + piece, back)


def databases():
    yield "blanks and a bad byte", b" " * (LONGEST - 1) + b"!"
    yield "line feeds and a bad byte", b"\n" * (LONGEST - 1) + b"!"
    yield "a comment without an end", b"#" * LONGEST
    yield "comments", b"#\n" * (LONGEST // 2)
    yield "bytes that are no UTF-8", b"#" + b"\xc3\xa9" * (LONGEST // 2 - 1) + b"\xff"
    yield "one name", filled(b"relation ", b"a")
    yield "one number", filled(b"relation r(t: time) { (", b"9", b"); }")
    yield "one zero", filled(b"relation r(t: time) { (", b"0", b"); }")
    yield "one text", filled(b'relation r(d: data) { ("', b"A", b'"); }')
    yield "one text of escapes", filled(b'relation r(d: data) { ("', b"\\\\", b'"); }')
    yield "relations", filled(b"", b"relation r%d(){}")
    yield "relations of one name", filled(b"", b"relation r(){}")
    yield "relations of one sort each", filled(b"", b"relation r%d(a:s%d){}")
    yield "time columns", filled(b"relation r(a:time", b",a%d:time", b"){}")
    yield "columns of a sort each", filled(b"relation r(a:time", b",a%d:s%d", b"){}")
    yield "columns of one name", filled(b"relation r(a:time", b",a:time", b"){}")
    yield "rows", filled(b"relation r(){", b"();", b"}")
    yield "rows of a zero", filled(b"relation r(t:time){", b"(0);", b"}")
    yield "instants", filled(b"relation r(t:time){", b"(%d);", b"}")
    yield "points", filled(b"relation r(t:time){", b"(0+1n);", b"}")
    yield "points of period 0", filled(b"relation r(t:time){", b"(0+0n);", b"}")
    yield "bounds", filled(b"relation r(t:time){(0+1n)where t<=0", b",t<=0", b";}")
    yield "bounds of no column", filled(b"relation r(t:time){(0+1n)where t<=0", b",u<=u", b";}")
    yield "texts", filled(b"relation r(d:data){", b'("%d");', b"}")
    yield "texts of two sorts", filled(b"relation r(d:data,l:line){", b'("%d","%d");', b"}")
    yield "equal texts", filled(b"relation r(d:data){", b'("");', b"}")
    yield "values", filled(b"relation r(t:time){(0", b",0", b");}")
    yield "values of another sort", filled(b"relation r(t:time){", b'("");', b"}")
    yield "open brackets", filled(b"relation r", b"(")


def dated_databases():
    yield "daily", filled(b"relation r(t:time){", b"(daily 08:15);", b"}")
    yield "weekly", filled(b"relation r(t:time){", b"(weekly mon 08:15);", b"}")
    yield "on", filled(b"relation r(t:time){", b"(on 2024-02-29 08:15);", b"}")
    yield "names that are no values", filled(b"", b"daily ")
    yield "weekdays that are no values", filled(b"", b"weekly mon ")
    yield "dates that are no values", filled(b"", b"on 2024-02-30 08:15 ")
    yield "values in one comment", filled(b"#", b" daily 08:15")
    yield "values in texts", filled(b"relation r(d:data){", b'("daily 08:15");', b"}")
    yield "values and no UTF-8", filled(b"", b"daily 08:15 ", b"\xff")
    yield "blanks", b" " * LONGEST


def queries():
    yield "not", filled(b"{ | ", b"not ", b"0=0}")
    yield "open brackets", filled(b"{ | ", b"(")
    yield "and", joined(b"{ | (", b"0<1", b" and ", b")}")
    yield "or", joined(b"{ | (", b"0<1", b" or ", b")}")
    yield "and of different tests", filled(b"{ t: time | (0<1", b" and t<%d", b")}")
    yield "and of atoms", joined(b"{ | (", b"r()", b" and ", b")}")
    yield "and of negations", joined(b"{ | (", b"not r()", b" and ", b")}")
    yield "or of atoms", joined(b"{ t: time | (", b"s(t)", b" or ", b")}")
    yield "and of texts", filled(b'{ | (""=""', b' and "%d"="%d"', b")}")
    yield "texts of a named sort", filled(b'{ | (l("")', b' or l("%d")', b")}")
    yield "points", filled(b"{ | (0 in 0+1n", b" and 0 in %d+1n", b")}")
    yield "points of a period each", filled(b"{ | (0 in 0+1n", b" and 0 in 0+%dn", b")}")
    yield "quantifiers one after another", joined(b"{ | (", b"exists t:time s(t)", b" and ", b")}")
    yield "quantifiers over a named sort", joined(b"{ | (", b"forall x:line l(x)", b" and ", b")}")
    yield "deep and wide", filled(b"{ | " + b"not " * 60 + b"(0<1", b" and 0<1", b")}")
    yield "quantifiers, deep and wide", filled(
        b"{ | " + b"".join(b"exists t%d:time " % it for it in range(8)) + b"(0<1", b" and t1<t2", b")}"
    )
    yield "groups within one another", filled(b"{ | " + b"(" * 30 + b"0<1", b" and (((0<1)))", b")" * 30 + b"}")
    yield "terms", filled(b"{ | r(0", b",0", b")}")
    yield "terms without a binder", filled(b"{ | s(x", b",x%d", b")}")
    yield "atoms of no relation", filled(b"{ | (r()", b" and x%d()", b")}")
    yield "columns", filled(b"{ a:time", b",a%d:time", b"|0=0}")
    yield "columns of unknown sorts", filled(b"{ a:time", b",a%d:s%d", b"|0=0}")
    yield "one name", filled(b"{ ", b"a")
    yield "one number", filled(b"{ | 0=", b"9", b"}")
    yield "minus signs", filled(b"{ | 0=", b"-", b"}")


def tense_queries():
    yield "once", joined(b"{ t: time | (", b"once t (0,1) s(t)", b" and ", b")}")
    yield "since", joined(b"{ t: time | (", b"since t (s(t),s(t))", b" and ", b")}")
    yield "once within one another", filled(b"{ t: time | ", b"once t (0,1) ", b"s(t)}")
    yield "since within one another", filled(b"{ t: time | ", b"since t (", b"")
    yield "names of operators", joined(b"{ once: time | (", b"once<=once", b" and ", b")}")
    yield "operators without a binder", joined(b"{ | (", b"once t (0,1) s(t)", b" and ", b")}")
    yield "deep operators", filled(b"{ t: time | " + b"once t (0,1) " * 60 + b"(s(t)", b" and s(t)", b")}")


def wide_queries():
    yield "atoms of any value", joined(b"{ | ", b"l(*)", b" and ", b" }")
    yield "atoms of any value, fewer", joined(b"{ | ", b"l(*)" + b" " * 28, b" and ", b" }")
    yield "unequal terms", filled(b"{ t: time | t != 0", b" and t != %d000000000000", b" }")
    yield "names of one quantifier", filled(b"{ | exists a", b", a%d", b": time 0 = 0 }")
    yield "sixty names of each quantifier", joined(
        b"{ | ", b"exists " + b", ".join(b"a%d" % it for it in range(60)) + b": time s(a0)", b" and ", b" }"
    )
    yield "and without parentheses", filled(b"{ t: time | 0 < 1", b" and t < %d000000", b" }")
    yield "implies without parentheses", joined(b"{ | ", b"0 < 1", b" implies ", b" }")
    yield "definitions", filled(b"", b"define d%d(t: time) as s(t);", b"{ | d1(0) }")
    yield "definitions of one name", filled(b"", b"define d() as 0 = 0;", b"{ | d() }")
    yield "definitions without columns", filled(b"", b"define d%d() as 0 = 0;", b"{ | d1() }")
    yield "columns of a definition", filled(b"define d(a: time", b", a%d: time", b") as 0 = 0; { | 0 = 0 }")
    yield "one definition of much", filled(b"define d() as 0 < 1", b" and 0 < %d000000", b"; { | d() }")
    yield "uses of a definition", joined(b"define d(t: time) as s(t);{ t: time | ", b"d(t)", b" or ", b" }")
    yield "uses of a definition, fewer", joined(b"define d(t: time) as s(t);{ t: time | ", b"d(t + 1)" + b" " * 72, b" or ", b" }")
    yield "definitions that each name the one before", chained(b"{ | d%d() }")
    yield "definitions that double", chained(b"{ | d%d() }", b"define d%d() as d%d() or d%d();")


def chained(back, piece=b"define d%d() as d%d();"):
    """Definitions, each of which names the one before it, and a query of the last one."""
    found, size, number = [b"define d0() as 0 = 0;"], 100, 0
    while size < LONGEST:
        number += 1
        names = (number, *[number - 1] * (piece.count(b"%d") - 1))
        found.append(piece % names)
        size += len(found[-1])
    return b"".join(found[:-1]) + back % (number - 1)


def spent(process):
    """The processor seconds that a process has used so far; one that has ended still tells them until it is waited for."""
    with open("/proc/%d/stat" % process) as file:
        fields = file.read().rpartition(")")[2].split()
    return (int(fields[11]) + int(fields[12])) / os.sysconf("SC_CLK_TCK")


class Clock:
    """Runs the program until its first byte or its end, and counts whether that comes in time."""

    def __init__(self, program, tally):
        self.program, self.tally, self.slowest = program, tally, []

    def run(self, name, *words):
        child = subprocess.Popen(
            [self.program.path, *words],
            cwd=self.program.folder,
            # As the launcher starts it.
            env={"GLIBC_TUNABLES": "glibc.malloc.mxfast=0:glibc.malloc.mmap_threshold=131072", **os.environ},
            stdin=subprocess.DEVNULL,
            stdout=subprocess.PIPE,
            stderr=subprocess.DEVNULL,
            preexec_fn=lambda: resource.setrlimit(resource.RLIMIT_CPU, (2 * SECONDS, 2 * SECONDS)),
        )
        first = child.stdout.read(1)
        took = spent(child.pid)
        text = first + os.read(child.stdout.fileno(), 60) if first else b""
        os.kill(child.pid, signal.SIGKILL)
        child.stdout.close()
        _, status, used = os.wait4(child.pid, 0)
        child.returncode = 0
        size = used.ru_maxrss / 1024
        self.slowest.append((took, size, "%s, %s" % (words[0], name)))
        is_right = took <= SECONDS and text != b"refused: memory\n"
        self.tally.check(is_right, "%s, %s: %.1f s, %.0f MB" % (words[0], name, took, size), text)

    def report(self):
        for took, size, name in sorted(self.slowest, reverse=True)[:5]:
            print("    %s: %.2f s, %.0f MB" % (name, took, size))


def reading(program, tally):
    """Each database is checked; each query is explained."""
    clock = Clock(program, tally)
    for name, text in databases():
        program.write("db", text)
        clock.run(name, "check", "db=db")
    for name, text in dated_databases():
        program.write("db", text)
        clock.run(name, "check", "db=db", "civil=yes")
    program.write("db", SMALL)
    for name, text in queries():
        program.write("query", text)
        clock.run(name, "explain", "db=db", "query=query")
    for name, text in tense_queries():
        program.write("query", text)
        clock.run(name, "explain", "db=db", "query=query", "tense=yes")
    for name, text in wide_queries():
        program.write("query", text)
        clock.run(name, "explain", "db=db", "query=query", "wide=yes")
    clock.report()


# What the relation of each database that is one has, as a head and terms.
COLUMNS = {
    "rows": ("", ""),
    "rows of a zero": ("t: time", "t"),
    "instants": ("t: time", "t"),
    "points": ("t: time", "t"),
    "bounds": ("t: time", "t"),
    "texts": ("d: data", "d"),
    "texts of two sorts": ("d: data, l: line", "d, l"),
    "equal texts": ("d: data", "d"),
}


def evaluating(program, tally):
    """Each query is decided, and of each database whether a relation, and what it leaves, is empty; where they are
    sets of times, their canonical answers begin too. Few of the steps have more than a cell."""
    clock = Clock(program, tally)
    program.write("db", SMALL)
    for name, text in queries():
        program.write("query", text)
        clock.run(name, "decide", "db=db", "query=query")
    for name, text in databases():
        if name in COLUMNS:
            program.write("db", text)
            head, terms = COLUMNS[name]
            for body in ("r(%s)" % terms, "not r(%s)" % terms):
                program.write("query", ("{ %s | %s }" % (head, body)).encode())
                clock.run("%s, %s" % (name, body), "decide", "db=db", "query=query")
                if head == "t: time":
                    clock.run("%s, %s" % (name, body), "ask", "db=db", "query=query", "canon=yes")
    clock.report()
