"""Each request for memory refused in turn: a run then says that memory was refused, or gives its whole output all the same.

Where memory for the program's words is refused it ends with the same status, and writes nothing.
"""

import os

from common import EXAMPLES
from preloaded import library_of, run_with

REFUSED = b"refused: memory\n"
BUS = b"relation bus(t: time) { (5+60n); }"
EDITS = b"+ bus (0+7n); - bus (65+60n); - bus (0+7n); - bus (1);"
ZURICH = 'relation tram(t: time, city: data) { (5+60n, "Zürich"); }'.encode()
SORTS = b'relation trip(t: time, l: line, c: city) { (5+60n, "7", "Port"); } relation lines(l: line) { ("9"); }'


def example(name, query):
    with open(os.path.join(EXAMPLES, name, name + ".lrp"), "rb") as base, open(
        os.path.join(EXAMPLES, name, query + ".lrq"), "rb"
    ) as file:
        return base.read(), file.read()


def runs():
    departures, instants = b"{ t: time | bus(t) }", b"relation r(t: time) { (480); }"
    outside = b"{ t: time | not r(t) }"
    left = b"{ l: line | not exists t: time exists c: city trip(t, l, c) }"
    for command in ("ask", "decide"):
        yield [command], BUS, departures
        yield [command], instants, outside
        yield [command], SORTS, left
    yield ["ask"], instants, b"{ t: time | r(t) }"
    yield ["ask"], *example("week", "connections")
    yield ["ask", "canon=yes"], b"relation bus(t: time) { (5+120n); (65+120n); }", departures
    yield ["ask", "canon=yes"], SORTS, b"{ l: line, t: time | (exists c: city trip(t, l, c) or t = 3) }"
    yield ["ask", "canon=yes", "cap=1"], instants, outside
    yield ["list", "from=0", "to=130", "limit=2"], BUS, departures
    yield ["list", "from=0", "to=130", "after=T1/65/"], BUS, departures
    yield ["list", "from=0", "to=130", "after=T1/05/"], BUS, departures
    yield ["list", "from=0", "to=130", "limit=1", "form=json"], ZURICH, b"{ c: data, t: time | tram(t, c) }"
    yield ["list", "from=0", "to=1439"], *example("week", "connections")
    yield ["count", "from=-130", "to=130"], SORTS, b"{ l: line, t: time | exists c: city trip(t, l, c) }"
    yield ["ranges", "from=-130", "to=130", "limit=3"], BUS, b"{ t: time | not bus(t) }"
    yield ["ranges", "from=0", "to=1439", "form=json"], BUS, departures
    yield ["watch", "edits=edits"], BUS, departures
    yield ["watch", "edits=edits", "cap=6"], BUS, b"{ t: time | exists u: time (bus(t) and bus(u) and t <= u and u in 0+2n) }"
    yield ["watch", "edits=edits"], BUS, b"{ t: time | not bus(t) }"
    yield ["watch", "edits=edits", "kept=auto"], BUS, b"{ t: time | not bus(t) }"
    yield ["watch", "edits=edits", "kept=auto", "cap=6", "plan=guarded"], BUS, b"{ t: time | (bus(t) and not bus(t + 1)) }"
    yield ["explain"], SORTS, left
    yield ["explain"], *example("guard", "always")
    yield ["check"], example("week", "connections")[0], None
    yield ["lint"], b"relation r(t: time, u: time) { (0+2n, 1+2n) where u = t; (5, 6+7n); }", None
    yield ["lint", "tense=yes"], SORTS, b'{ t: time | once t (-3, 4) trip(t, "8", "Port") }'
    yield ["ask", "tense=yes", "canon=yes"], BUS, b"{ t: time | until t (not bus(t), bus(t)) }"
    yield ["decide", "tense=yes"], BUS, b"{ t: time | since t (not bus(t), once t (-3, 4) bus(t)) }"
    yield ["explain", "tense=yes"], SORTS, b"{ t: time, l: line | always t (0, 9) exists c: city trip(t, l, c) }"
    yield ["check"], b"relation r(t: time) { (5+60n", None
    yield ["check", "civil=yes"], b"relation r(t: time) { (daily 08:15); (on 2024-02-29 08:15); }", None
    dated = ["list", "from=2024-02-26T00:00", "to=2024-03-10T23:59", "civil=yes"]
    yield dated, b"relation bus(t: time) { (weekly mon 08:15); }", departures
    yield ["decide", "cap=1"], SORTS, left
    yield ["decide", "civil=yes", "show=dates"], b"relation bus(t: time) { (weekly mon 08:15); }", departures
    yield ["sample", "seed=0", "size=20"], None, None
    yield ["check", "check"], None, None


def refused_run(program, library, words, number, to_the_end):
    """The status and the output, and whether a request was refused."""
    keys = {"REFUSE": number, **({"REFUSE_ON": 1} if to_the_end else {})}
    return run_with(library, program, words, "REFUSE_TELL", keys)


def memory(program, tally, most=None):
    """Each request in turn; where a number is given, so many one by one, and then ever larger steps."""
    library = library_of("refuse", program.room)
    if library is None:
        print("memory: there is no C compiler here, so no request is refused")
        return
    program.write("edits", EDITS)
    for words, database, query in runs():
        whole = program.run(*words, database=database, query=query)
        words = words + [word for word, file in (("db=db", database), ("query=query", query)) if file is not None]
        number, words_are_read = 1, False
        while True:
            results = [refused_run(program, library, words, number, to_the_end) for to_the_end in (False, True)]
            if not any(was_refused for _, was_refused in results):
                break
            for got, _ in results:
                is_early = got == (8, b"") and not words_are_read
                tally.check(
                    is_early or got in ((8, REFUSED), whole),
                    "%s, request %d refused: status %d" % (words, number, got[0]),
                    got[1],
                )
            words_are_read |= results[0][0] == (8, REFUSED)
            number += max(1, number // most) if most else 1
