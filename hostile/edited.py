"""Random kept queries and edits, and what `watch` has to write for them."""

import random
import re

from common import LONGEST
from guarded import GuardedPlan
from invent import Inventor
from language import Fault, read_database, read_query
from meaning import TooHard
from mistakes import POOL, mistaken
from plan import Plan
from watch import LONG, UNREAD, disjuncts_of, judged

EDIT_POOL = POOL + (b"+ r (", b"- s (", b"+ tram (1);", b"+", b"-", b"+ r (0+1n);", b"- ()")
BUS, DEPARTURES = b"relation bus(t: time) { (5+60n); }", b"{ t: time | bus(t) }"


class Editor(Inventor):
    """Invents kept queries over its database, and edits."""

    def kept_query(self):
        names = self.chance.choice((["time"], ["time"], ["time", "time"], [], ["time", self.sort()], [self.sort()]))
        head = {"h%d" % number: sort for number, sort in enumerate(names)}
        bodies = [self.disjunct(head) for _ in range(self.chance.choice((1, 1, 1, 2, 2, 3)))]
        body = bodies[0] if len(bodies) == 1 else "(%s)" % " or ".join(bodies)
        return "{ %s | %s }" % (", ".join("%s: %s" % it for it in head.items()), body)

    def disjunct(self, head):
        """Quantifiers before atoms and tests. Seldom a variable is in no atom, or a part is not one that may stand there."""
        for _ in range(40):
            scope = {**head}
            for _ in range(self.chance.choice((0, 0, 1, 1, 2))):
                self.fresh += 1
                scope["v%d" % self.fresh] = self.chance.choice(("time", "time", self.sort()))
            atoms = [self.atom(scope) for _ in range(self.chance.choice((1, 1, 2, 2, 3)))]
            used = set(re.findall(r"\b[hv]\d+\b", " ".join(atoms)))
            if used >= set(head):
                break
        if self.chance.random() < 0.93:
            scope = {name: sort for name, sort in scope.items() if name in used or name in head}
        parts = atoms + [self.test(scope) for _ in range(self.chance.choice((0, 0, 1, 1, 2)))]
        if self.chance.random() < 0.05:
            parts.append("not " + self.atom(scope))
        self.chance.shuffle(parts)
        word = "forall" if self.chance.random() < 0.03 else "exists"
        front = "".join("%s %s: %s " % (word, *it) for it in scope.items() if it[0] not in head)
        return front + (parts[0] if len(parts) == 1 else "(%s)" % " and ".join(parts))

    def test(self, scope):
        names = [name for name, sort in scope.items() if sort == "time"]
        kind = self.chance.random()
        if kind < 0.2 and len(scope) > len(names):
            name, sort = self.chance.choice([it for it in scope.items() if it[1] != "time"])
            return "%s = %s" % (name, self.data_term(sort, scope))
        if kind < 0.4:
            return "%s in %d+%dn" % (self.time_term(names), self.number(), self.chance.choice(self.periods))
        return self.comparison(names)

    def edits(self, database):
        """Rows that come, and rows that go; many of those that go are held, spelled with another offset."""
        held = [(name, row) for name, rows in ROWS.findall(database) for row in ONE_ROW.findall(rows)]
        parts = []
        for _ in range(self.chance.choice((0, 1, 2, 3, 5, 8))):
            if held and self.chance.random() < 0.45:
                name, row = self.chance.choice(held)
                sign = "-"
            else:
                name = self.chance.choice(sorted(self.relations))
                row = self.row(self.relations[name])
                sign = self.chance.choice("+++-")
            held += [(name, row)] * (sign == "+")
            parts.append("%s%s%s %s%s;%s" % (sign, self.blank(), name, self.blank(), self.turned(row), self.blank()))
        return "".join(parts)

    def turned(self, row):
        """The same row, some of its points told by another of their members."""
        by = self.chance.choice((0, 0, 1, -2))
        return POINT.sub(lambda found: "%d+%sn" % (int(found[1]) + by * int(found[2]), found[2]), row)


ROWS = re.compile(r"relation (\w+)\([^)]*\) \{(.*?)\}(?=relation|\s|#|$)", re.DOTALL)
ONE_ROW = re.compile(r" (\([^;\"#]*);")
POINT = re.compile(r"(-?\d+)\+(\d+)n")


class Watched:
    """One random database, query and list of edits. The query is kept, but where all are decided that are not."""

    def __init__(self, seed, budget, is_anew=False):
        self.chance, self.budget = random.Random("watch %d%s" % (seed, " anew" * is_anew)), budget
        editor = Editor(self.chance)
        database = editor.database()
        is_kept = not is_anew or self.chance.random() < 0.1
        self.database, self.query = database.encode(), (editor.kept_query() if is_kept else editor.query()).encode()
        self.edits = editor.edits(database).encode()
        self.planner, self.keys = None, self.chance.choice(([], ["kept=yes"], ["plan=guarded"]))
        if is_anew:
            name, self.planner = self.chance.choice((("written", Plan), ("guarded", GuardedPlan)))
            self.keys = ["kept=auto", "plan=" + name]

    def compare(self, program, edits=None, cap=None):
        """Whether the program writes what the second opinion says; its status and output."""
        edits = self.edits if edits is None else edits
        status, wanted = judged(self.database, self.query, edits, cap or 1000000, self.budget, self.planner)
        program.write("edits", edits)
        words = ["watch", "edits=edits", *self.keys, *(["cap=%d" % cap] if cap else [])]
        program.expect(wanted, status, *words, database=self.database, query=self.query)
        return status, wanted


def watching_anew(program, tally, seeds, budget):
    """The same with queries of every form, each planned in one of both ways."""
    watching(program, tally, seeds, budget, is_anew=True)


def watching(program, tally, seeds, budget, is_anew=False):
    """Random edits to random databases, small caps, and edits with mistakes."""
    for seed in seeds:
        case = Watched(seed, budget, is_anew)
        try:
            case.compare(program)
            for cap in case.chance.sample(range(1, 13), 2):
                case.compare(program, cap=cap)
            for _ in range(3):
                case.compare(program, mistaken(case.chance, case.edits, EDIT_POOL))
        except TooHard:
            tally.too_hard()


def edit_files(program, tally):
    """Files of edits that are missing, odd or too long, and what comes before them."""
    run = lambda name, wanted, status, query=DEPARTURES: program.expect(
        wanted, status, "watch", "edits=" + name, database=BUS, query=query
    )
    for name in ("none", "none/none", ".", "/", "a" * 300):
        run(name, UNREAD["edits"], 6)
    run("none", b"refused: query not kept\n", 4, b"{ t: time | not bus(t) }")
    run("none", b"refused: query Syntax at 1:1\n", 4, b"bus")
    run("/dev/null", b"5\n", 0)
    run("/dev/zero", LONG, 3)
    for filler in (b" ", b"\n", b"#"):
        program.write("edits", filler * LONGEST)
        run("edits", b"5\n", 0)
        program.write("edits", filler * (LONGEST + 1))
        run("edits", LONG, 3)


def shape_of(seeds):
    """Of how many seeds the query is kept, that the cases are what they are meant to be."""
    kept = 0
    for seed in seeds:
        case = Watched(seed, 0)
        relations = read_database(case.database)
        try:
            kept += disjuncts_of(relations, read_query(case.query, relations)) is not None
        except Fault:
            pass
    return kept
