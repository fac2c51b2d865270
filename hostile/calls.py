"""Calls of the system that fail, one in turn, and calls that take few bytes: openings, reads and writes of the real program."""

import errno
import itertools

from memory import BUS, EDITS, SORTS
from preloaded import library_of, run_with

DEPARTURES = b"{ t: time | bus(t) }"
RUNS = (
    (["ask"], BUS, DEPARTURES),
    (["ask", "canon=yes"], b"relation bus(t: time) { (5+120n); (65+120n); }", DEPARTURES),
    (["decide"], BUS, DEPARTURES),
    (["decide", "tense=yes"], BUS, b"{ t: time | once t (-3, 4) bus(t) }"),
    (["decide", "civil=yes", "show=dates"], b"relation bus(t: time) { (daily 08:15); }", DEPARTURES),
    (["list", "from=0", "to=600", "limit=9"], BUS, DEPARTURES),
    (["list", "from=0", "to=600", "form=json"], SORTS, b"{ l: line, t: time | exists c: city trip(t, l, c) }"),
    (["count", "from=0", "to=600"], BUS, DEPARTURES),
    (["ranges", "from=0", "to=130", "form=json"], BUS, b"{ t: time | not bus(t) }"),
    (["watch", "edits=edits"], BUS, DEPARTURES),
    (["watch", "edits=edits", "kept=auto"], BUS, b"{ t: time | not bus(t) }"),
    (["explain"], SORTS, b"{ l: line | not exists t: time exists c: city trip(t, l, c) }"),
    (["check"], SORTS, None),
    (["check", "civil=yes"], b"relation r(t: time) { (daily 08:15); }", None),
    (["lint"], SORTS, b'{ t: time | trip(t, "8", "Port") }'),
    (["sample", "seed=0", "size=20"], None, None),
    (["check"], DEPARTURES, None),
    (["ask"], BUS, b"{ t: time | tram(t) }"),
    (["lst"], None, None),
)
# The files in the order in which they are read.
FILES = (b"database", b"query", b"edits")
ERRORS = (errno.EIO, errno.ENOSPC, errno.EINTR, errno.EAGAIN)


class Failing:
    """The program with a library that lets one of the C library's calls fail."""

    def __init__(self, program, library):
        self.program, self.library = program, library

    def run(self, words, most, call="none", number=0, error=0):
        """The status and the output, and whether a call failed."""
        keys = {"FAIL_CALL": call, "FAIL": number, "FAIL_ERROR": error, "FAIL_MOST": most}
        return run_with(self.library, self.program, words, "FAIL_TELL", keys)


def calls(program, tally, few=False):
    """Each call in turn, with an error each, and all calls of a run with one byte and with three."""
    library = library_of("fail", program.room)
    if library is None:
        print("calls: there is no C compiler here, so no call fails")
        return
    failing = Failing(program, library)
    program.write("edits", EDITS)
    for words, database, query in RUNS:
        whole = program.run(*words, database=database, query=query)
        names = [("db", database), ("query", query), ("edits", EDITS if "edits=edits" in words else None)]
        words = words + ["%s=%s" % (name, name) for name, text in names[:2] if text is not None]
        for most in (1, 3):
            got, _ = failing.run(words, most)
            tally.check(got == whole, "%s, %d bytes a call" % (words, most), got)
        for error in ERRORS[:1] if few else ERRORS:
            texts = [text for _, text in names if text is not None]
            opened(failing, tally, words, whole, error)
            was_read(failing, tally, words, whole, error, texts)
            written(failing, tally, words, whole, error)


def is_allowed(got, wanted, whole, error):
    """A call that was interrupted may be made again."""
    return got == wanted or (error == errno.EINTR and got == whole)


def refused(name):
    return 6, b"refused: read of %s\n" % name


def opened(failing, tally, words, whole, error):
    for number, name in enumerate(FILES, 1):
        got, has_failed = failing.run(words, 0, "open", number, error)
        wanted = refused(name) if has_failed else whole
        tally.check(is_allowed(got, wanted, whole, error), "%s, opening %d, error %d" % (words, number, error), got)


def was_read(failing, tally, words, whole, error, texts):
    """Reads of three bytes: the database's come first, and each file has one more, which finds its end."""
    number, counts = 1, [(len(text) + 2) // 3 + 1 for text in texts]
    while True:
        got, has_failed = failing.run(words, 3, "read", number, error)
        file = next((name for name, last in zip(FILES, itertools.accumulate(counts)) if number <= last), FILES[-1])
        wanted = refused(file) if has_failed else whole
        tally.check(is_allowed(got, wanted, whole, error), "%s, read %d, error %d" % (words, number, error), got)
        if not has_failed:
            break
        number += 1


def written(failing, tally, words, whole, error):
    """Writes of one byte: what stands before the one that fails is written, and nothing more."""
    number = 1
    while True:
        got, has_failed = failing.run(words, 1, "write", number, error)
        wanted = (7, whole[1][: number - 1]) if has_failed else whole
        tally.check(is_allowed(got, wanted, whole, error), "%s, write %d, error %d" % (words, number, error), got)
        if not has_failed:
            tally.check(number == len(whole[1]) + 1, "%s: %d writes of a byte" % (words, number - 1), whole[1])
            break
        number += 1
