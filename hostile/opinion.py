"""Compares the program with the second evaluator on random databases and queries."""

import random

import civil
from answers import answer_fault
from common import digest, token
from guarded import GuardedPlan
from invent import Inventor
from language import quoted, read_database, relation_text
from meaning import Meaning, TooHard
from mistakes import civil_mistakes, mistakes, tense_mistakes
from plan import Plan
from shifted import database_text, query_text
from tense import read_tense

FAR = 10**15


def plain(answer, show=str):
    return ", ".join(show(it) if isinstance(it, int) else quoted(it) for it in answer) or "()"


def as_json(answer, show=str):
    return "[%s]" % ",".join(show(it) if isinstance(it, int) else quoted(it) for it in answer)


def page(answers, limit, files, form="plain", is_civil=False):
    """The text of a page of these answers in order, the first of what is left."""
    if form == "json":
        lines = [as_json(it, (lambda time: '"%s"' % civil.shown(time)) if is_civil else str) for it in answers[:limit]]
    else:
        lines = [plain(it, civil.shown if is_civil else str) for it in answers[:limit]]
    more = None if len(answers) <= limit else token(*split(answers[limit - 1]), files)
    if form == "json":
        last = '{"more":%s}' % ("null" if more is None else '"%s"' % more)
    else:
        last = "end" if more is None else "more " + more
    return "".join(line + "\n" for line in [*lines, last]).encode()


def split(answer):
    return [it for it in answer if isinstance(it, int)], [it for it in answer if not isinstance(it, int)]


class Case:
    """One random database and query, with what the program has to answer."""

    def __init__(self, seed, budget, is_civil=False, is_tense=False, times=None, is_guarded=False):
        kinds = "civil " * is_civil + "tense " * is_tense + ("" if times is None else "times %d " % times)
        kinds += "guarded " * is_guarded
        self.chance = random.Random("%s%d" % (kinds, seed))
        self.is_civil, self.is_tense, self.is_guarded = is_civil, is_tense, is_guarded
        inventor = Inventor(self.chance, is_civil, is_tense)
        self.database, self.query = inventor.database().encode(), inventor.query(times).encode()
        self.relations = read_database(civil.plain_text(self.database) if is_civil else self.database)
        self.parsed, self.plain = read_tense(self.query, self.relations, is_tense)
        self.budget = budget
        self.files = {"database": self.database, "query": self.query}

    def meaning(self):
        return Meaning(self.relations, self.parsed, self.budget)

    def plan(self, relations=None, query=None, budget=0):
        """The plan of this case, or of these relations and this query in its place."""
        planner = GuardedPlan if self.is_guarded else Plan
        return planner(relations or self.relations, query or self.plain, budget)

    def plan_keys(self):
        return ["plan=guarded"] if self.is_guarded else self.chance.choice(([], ["plan=written"]))

    def keys(self, command):
        """The keys of a run. Where no civil value stands, civil=yes changes only how a window and its times are
        spelled; where no operator stands, tense=yes changes nothing."""
        wider = [] if command in ("list", "count", "ranges") else ["civil=yes"]
        civil_keys = ["civil=yes"] if self.is_civil else self.chance.choice(([], [], ["civil=no"], wider))
        tense_keys = ["tense=yes"] if self.is_tense else self.chance.choice(([], ["tense=no"], ["tense=yes"]))
        return civil_keys + (tense_keys + self.plan_keys() if command != "check" else [])

    def ends(self, start, end):
        show = civil.as_end if self.is_civil else str
        return ["from=" + show(start), "to=" + show(end)]

    def key(self, answer):
        return tuple(map(tuple, split(answer)))

    def page(self, answers, limit, form="plain"):
        return page(answers, limit, digest(self.database, self.query), form, self.is_civil)


def nearest(least, show=str):
    """What decide writes of the least answer, or of none."""
    return ("Empty\n" if least is None else "Nonempty\n%s\n" % plain(least, show)).encode()


def decide(program, case):
    least, keys = case.meaning().least(), case.keys("decide")
    program.expect(nearest(least), 0, "decide", *keys, *case.chance.choice(([], ["show=minutes"])), **case.files)
    if "civil=yes" in keys:
        program.expect(nearest(least, civil.shown_or_number), 0, "decide", *keys, "show=dates", **case.files)


def window(case):
    times = sum(it.is_time for it in case.parsed.head)
    width = {0: 3, 1: 40, 2: 14, 3: 6}[times]
    far = (civil.FIRST + 1, civil.LAST - width) if case.is_civil else (FAR, -FAR)
    start = case.chance.choice((0, 0, -width // 2, -width, -3, *far))
    return start, start + width - case.chance.choice((0, 0, 1, width + 1))


def listing(program, case):
    """One whole window, its pages one after another, its JSON, and a page after a tuple that need not be an answer."""
    start, end = window(case)
    meaning = case.meaning()
    answers = [meaning.tuple_of(env) for env in meaning.answers(start, end)]
    ends = [*case.ends(start, end), *case.keys("list")]
    program.expect(case.page(answers, 1000), 0, "list", *ends, **case.files)
    if answers:
        limit = case.chance.randint(1, len(answers))
        skipped = case.chance.randrange(len(answers))
        after = token(*split(answers[skipped]), case.chance.choice((None, digest(case.database, case.query))))
        left = answers[skipped + 1 :]
        for form in ("plain", "json"):
            program.expect(
                case.page(left, limit, form),
                0,
                "list",
                *ends,
                "limit=%d" % limit,
                "after=" + after,
                "form=" + form,
                **case.files,
            )
    times = [
        number + case.chance.randint(-2, 2)
        for number in case.chance.choices((start, (start + end) // 2, end), k=len(meaning.columns()[0]))
    ]
    texts = [case.chance.choice((b"", b"a", b"aa", b"b", "é".encode(), b"new")) for _ in meaning.columns()[1]]
    left = [it for it in answers if case.key(it) > (tuple(times), tuple(texts))]
    program.expect(case.page(left, 1000), 0, "list", *ends, "after=" + token(times, texts), **case.files)


def far_from_zero(case):
    """How far the same case is moved, as far from zero as the reach allows, and its files."""
    by = case.chance.choice((1, -1)) * (2**60 - case.chance.randint(0, 1000))
    while True:
        database, query = database_text(case.relations, by).encode(), query_text(case.parsed, by).encode()
        relations = read_database(database)
        if not case.plan(relations, read_tense(query, relations, case.is_tense)[1]).refusal():
            return by, {"database": database, "query": query}
        by = by // 2


def moved(program, case):
    """A window of the same case, far from zero."""
    start, end = window(case)
    meaning = case.meaning()
    answers = [meaning.tuple_of(env) for env in meaning.answers(start, end)]
    by, files = far_from_zero(case)
    far = [tuple(it + by if isinstance(it, int) else it for it in answer) for answer in answers]
    text = "".join(plain(answer) + "\n" for answer in far) + "end\n"
    program.expect(
        text.encode(),
        0,
        "list",
        "from=%d" % (start + by),
        "to=%d" % (end + by),
        "limit=1000000",
        *(["tense=yes"] if case.is_tense else []),
        *case.plan_keys(),
        **files,
    )


def explain(program, case):
    plan = case.plan()
    refused = plan.refusal()
    program.expect(
        (refused or plan.text()).encode(), 5 if refused else 0, "explain", *case.keys("explain"), **case.files
    )


def cap(program, case):
    """The cap at the greatest number of cells, and one below: then the first step with as many is named."""
    plan = case.plan(budget=case.budget)
    cells = [plan.cells(number) for number in range(1, len(plan.steps) + 1)]
    most = max(cells)
    keys = case.keys("decide")
    status, text = program.run("decide", "cap=%d" % max(most, 1), *keys, **case.files)
    program.tally.check(
        status == 0,
        "decide cap=%d: status %s, though the steps have %s cells" % (most, status, cells),
        case.database,
        case.query,
        text,
    )
    for less in {most - 1, case.chance.randint(0, max(most - 1, 0))} - {0, -1}:
        step = next(i for i, count in enumerate(cells, 1) if count > less)
        wanted = b"refused: more than %d cells at step %d\n" % (less, step)
        program.expect(wanted, 5, "decide", "cap=%d" % less, *keys, **case.files)


def ask(program, case):
    status, text = program.run("ask", *case.keys("ask"), **case.files)
    fault = answer_fault(text, case.meaning()) if status == 0 else "status %s" % status
    program.tally.check(fault is None, "ask: %s" % fault, case.database, case.query, text)


def faults(program, tally, seeds):
    """The fault that is named in random texts with random mistakes."""
    for seed in seeds:
        mistakes(program, Case(seed, 0))


def civil_faults(program, tally, seeds):
    """The same in databases with civil values."""
    for seed in seeds:
        civil_mistakes(program, Case(seed, 0, is_civil=True))


def tense_faults(program, tally, seeds):
    """The same in queries with operators."""
    for seed in seeds:
        tense_mistakes(program, Case(seed, 0, is_tense=True))


def compare(program, tally, cases, parts):
    for case in cases:
        for part in parts:
            try:
                part(program, case)
            except TooHard:
                tally.too_hard()


def opinion(program, tally, seeds, budget):
    parts = [explain, decide, listing, moved, cap] + ([ask] if program.has_ask() else [])
    compare(program, tally, (Case(seed, budget) for seed in seeds), parts)


def tense_opinion(program, tally, seeds, budget):
    """Queries with temporal operators, by all commands; some of them over databases that have dates."""
    cases = (Case(seed, budget, is_civil=seed % 6 == 0, is_tense=True) for seed in seeds)
    compare(program, tally, cases, [explain, decide, listing, cap, ask])
    plain = (Case(seed, budget, is_tense=True) for seed in seeds)
    compare(program, tally, plain, [moved])


def check(program, case):
    wanted = "".join(map(relation_text, case.relations.values()))
    program.expect(wanted.encode(), 0, "check", *case.keys("check"), database=case.database)


def civil_opinion(program, tally, seeds, budget):
    """Databases that have dates for instants, near the first minute of 1970, with all commands."""
    compare(
        program,
        tally,
        (Case(seed, budget, is_civil=True) for seed in seeds),
        [check, explain, decide, listing, cap, ask],
    )


def guarded_opinion(program, tally, seeds, budget):
    """Plans under guards, and what they answer: the same as the written ones do, with their own caps."""
    kinds = (False, False, True)
    cases = (Case(seed, budget, is_tense=kinds[seed % 3], is_guarded=True) for seed in seeds)
    compare(program, tally, cases, [explain, decide, listing, cap, ask, moved])
