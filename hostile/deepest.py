"""The stack that the deepest queries take, in kilobytes: each is read, planned and decided under ever smaller limits.

Queries of the wide language that are as deep as they may be, once their definitions are written out, have to do with less
than what a program has, and long chains of definitions with little.
"""

import resource

from plan import Plan
from language import read_database
from tense import read_tense

DATABASE = b'relation r(t: time, l: line) { (0+2n, "a"); }'
ENOUGH = 1024
LEAST = (1024, 512, 256, 192, 128, 96, 64)


def nested(front, back, inner, depth=64, width=1, head=b"{ | "):
    """A formula whose innermost part has the greatest depth."""
    turns = (depth - 1) // width
    opened = b"".join(front % i if b"%d" in front else front for i in range(turns))
    return head + opened + inner + back * turns + b" }"


def shapes():
    yield "not", nested(b"not ", b"", b"0 < 1")
    yield "brackets", nested(b"(", b")", b"0 < 1")
    yield "and", nested(b"(0 < 1 and ", b")", b"0 < 1")
    yield "or", nested(b"(0 < 1 or ", b")", b"0 < 1")
    yield "and, or", nested(b"(0 < 1 and (0 < 1 or ", b"))", b"0 < 1", width=2)
    yield "implies", nested(b"(0 < 1 implies ", b")", b"0 < 1")
    yield "implies, on the left", nested(b"(", b" implies 0 < 1)", b"0 < 1")
    yield "not and", nested(b"not (0 < 1 and ", b")", b"0 < 1", width=2)
    yield "exists a text", nested(b"exists d%d: line ", b"", b"0 < 1")
    yield "forall and not", nested(b"not forall d%d: line ", b"", b"0 < 1", width=2)
    yield "atoms", nested(b'exists d%d: line (r(1, "a") and ', b")", b'r(2, "a")', width=2)
    yield "exists a time", nested(b"exists t%d: time ", b"", b"0 < 1", depth=56)
    yield "once", nested(b"once t (0, 0) ", b"", b'r(t, "a")', depth=40, head=b"{ t: time | ")
    yield "once and not", nested(b"not once t (0, 0) ", b"", b'r(t, "a")', depth=40, width=2, head=b"{ t: time | ")
    yield "since, on the left", nested(b"since t (", b", 0 < 1)", b"0 < 1", depth=16, head=b"{ t: time | ")
    yield "until, on the right", nested(b"until t (0 < 1, ", b")", b'r(t, "a")', depth=10, head=b"{ t: time | ")
    yield "forall a time", nested(b"forall t%d: time not ", b"", b"0 < 1", depth=40, width=2)


def chained(count, first, piece, query):
    """Definitions, each of which names the one before it, and a query of the last one."""
    pieces = [piece % ((number,) + (number - 1,) * (piece.count(b"%d") - 1)) for number in range(1, count + 1)]
    return first + b"".join(pieces) + query % count


def wide_shapes():
    """Queries of the wide language, what is decided of each, and the kilobytes that have to do."""
    holds, alone = b"define d0() as 0 = 0;", b"{ | d%d() }"
    yield chained(398, holds, b"define d%d() as not d%d();", alone), True, 4096
    yield chained(397, holds, b"define d%d() as not d%d();", alone), False, 4096
    yield chained(398, holds, b"define d%d() as (d%d());", alone), True, 4096
    yield chained(398, holds, b"define d%d() as 0 < 1 and d%d();", alone), True, 4096
    yield chained(398, holds, b"define d%d() as 0 < 1 implies d%d();", alone), True, 4096
    yield chained(100000, holds, b"define d%d() as d%d();", alone), True, 512
    first, next_one = b"define d0(t: time, l: line) as r(t, l);", b"define d%d(t: time, l: line) as d%d(t, l);"
    yield chained(20000, first, next_one, b'{ | d%d(4, "a") }'), True, 512


def wide_stack(program):
    """Counts whether each is decided with the stack that has to do."""
    for query, is_met, kilobytes in wide_shapes():
        limit = lambda size=kilobytes << 10: resource.setrlimit(resource.RLIMIT_STACK, (size, size))
        how = {"statuses": range(-255, 256), "preexec_fn": limit}
        wanted = b"Nonempty\n()\n" if is_met else b"Empty\n"
        program.expect(wanted, 0, "decide", "wide=yes", database=DATABASE, query=query, **how)


def stack(program, tally):
    """Counts whether a megabyte is enough, and shows what is."""
    needed = {}
    relations = read_database(DATABASE)
    for name, query in shapes():
        keys = ["tense=yes"] if b" t (" in query else []
        wanted = Plan(relations, read_tense(query, relations, bool(keys))[1]).text().encode()
        program.expect(wanted, 0, "explain", *keys, database=DATABASE, query=query)
        for command in ("explain", "decide"):
            whole = program.run(command, *keys, database=DATABASE, query=query)
            for kilobytes in LEAST:
                limit = lambda size=kilobytes << 10: resource.setrlimit(resource.RLIMIT_STACK, (size, size))
                how = {"statuses": range(-255, 256), "preexec_fn": limit}
                got = program.run(command, *keys, database=DATABASE, query=query, **how)
                if kilobytes == ENOUGH:
                    tally.check(
                        got == whole,
                        "%s, %s under %d KB of stack: status %s" % (command, name, kilobytes, got[0]),
                        query,
                    )
                if got != whole:
                    break
                needed[command, name] = kilobytes
    wide_stack(program)
    most = max(needed.values())
    print(
        "    the most that a query takes: %d KB, as %s"
        % (most, ", ".join("%s %s" % it for it, size in needed.items() if size == most))
    )
