"""The cases of the examples, compared with the second opinion: the files under expected/ are held to it as well."""

import glob
import os
import shlex

import civil
from answers import answer_fault
from canon import NEEDS_ONE, canonical_rows, canonical_text, has_one
from common import EXAMPLES, digest
from counted import refusal_of_head, text_of_window
from flaws import report
from guarded import GuardedPlan
from language import Fault, read_database, relation_text
from meaning import Meaning, TooHard
from opinion import nearest, page
from plan import Plan
from tense import read_tense
from watch import judged
from words import is_command


def content(folder, name):
    path = os.path.join(folder, name)
    if not os.path.isfile(path):
        return None
    with open(path, "rb") as file:
        return file.read()


def every_case():
    for path in sorted(glob.glob(os.path.join(EXAMPLES, "*", "cases"))):
        folder = os.path.dirname(path)
        with open(path) as file:
            for line in file:
                parts = shlex.split(line, comments=True)
                if parts:
                    yield folder, parts[0], int(parts[1]), parts[2:]


class Judge:
    """What the second opinion says of one case, in the order in which refusals are given. None: it says nothing.

    It says nothing of samples, of the wide language, which has its own second opinion, of pages after tokens, of files that a script of the example makes, and of edits of many rows.
    """

    def __init__(self, folder, words, budget):
        self.folder, self.words, self.budget = folder, words, budget
        self.keys = dict(word.partition("=")[::2] for word in words[1:])
        self.is_civil = self.keys.get("civil") == "yes"
        self.is_tense = self.keys.get("tense") == "yes"
        self.is_canon = self.keys.get("canon") == "yes"

    def judge(self, text):
        """The status and the output that are wanted; where the output is of a free form, the given text if that is right."""
        if not is_command(self.words):
            return 2, b"refused: usage\n"
        if self.words[0] == "sample" or self.keys.get("wide") == "yes":
            return None
        if self.words[0] == "watch":
            return self.watched()
        is_made = os.path.exists(os.path.join(self.folder, "make"))
        database = content(self.folder, self.keys["db"])
        if database is None and is_made:
            return None
        if database is None:
            return 6, b"refused: read of database\n"
        try:
            relations = read_database(civil.plain_text(database) if self.is_civil else database)
        except Fault as fault:
            return 3, ("refused: database %s\n" % fault).encode()
        if self.words[0] == "check":
            return 0, "".join(map(relation_text, relations.values())).encode()
        if self.words[0] == "lint" and "query" not in self.keys:
            return 0, report(relations)
        query = content(self.folder, self.keys["query"])
        if query is None and is_made:
            return None
        if query is None:
            return 6, b"refused: read of query\n"
        try:
            parsed, plain = read_tense(query, relations, self.is_tense)
        except Fault as fault:
            return 4, ("refused: query %s\n" % fault).encode()
        if self.words[0] == "lint":
            return 0, report(relations, plain)
        if self.is_canon and not has_one(parsed):
            return 4, NEEDS_ONE
        if refusal_of_head(self.words[0], parsed):
            return 4, refusal_of_head(self.words[0], parsed)
        planner = GuardedPlan if self.keys.get("plan") == "guarded" else Plan
        plan = planner(relations, plain, self.budget)
        return self.planned(plan, Meaning(relations, parsed, self.budget), digest(database, query), text)

    def watched(self):
        texts = [content(self.folder, self.keys[key]) for key in ("db", "query", "edits")]
        if len(texts[0] or b"") > 2000:
            return None
        planner = (
            (GuardedPlan if self.keys.get("plan") == "guarded" else Plan) if self.keys.get("kept") == "auto" else None
        )
        return judged(*texts, int(self.keys.get("cap", 1000000)), self.budget, planner)

    def planned(self, plan, meaning, files, text):
        refused = plan.refusal()
        if refused:
            return 5, refused.encode()
        if self.words[0] == "explain":
            return 0, plan.text().encode()
        if "cap" in self.keys:
            cells = (plan.cells(number) for number in range(1, len(plan.steps) + 1))
            step = next((number for number, count in enumerate(cells, 1) if count > int(self.keys["cap"])), None)
            if step is not None and "after" not in self.keys:
                return 5, b"refused: more than %d cells at step %d\n" % (int(self.keys["cap"]), step)
        if self.is_canon:
            return self.canonical(meaning)
        if self.words[0] == "ask":
            fault = answer_fault(text, meaning)
            return 0, text if fault is None else fault.encode()
        if self.words[0] == "decide":
            return 0, nearest(meaning.least(), civil.shown_or_number if self.keys.get("show") == "dates" else str)
        if self.words[0] in ("count", "ranges"):
            limit, form = int(self.keys.get("limit", 1000)), self.keys.get("form", "plain")
            return 0, text_of_window(self.words[0], meaning, self.window(), limit, form, self.is_civil)
        return None if "after" in self.keys else (0, self.page(meaning, files))

    def canonical(self, meaning):
        rows, most = canonical_rows(meaning), int(self.keys.get("cap", 1000000))
        if len(rows) > most:
            return 5, b"refused: more than %d canonical rows\n" % most
        return 0, canonical_text(meaning, rows)

    def window(self):
        return [civil.minute_of(self.keys[it]) if self.is_civil else int(self.keys[it]) for it in ("from", "to")]

    def page(self, meaning, files):
        start, end = self.window()
        if end - start > 100000:
            raise TooHard
        answers = [meaning.tuple_of(env) for env in meaning.answers(start, end)]
        return page(answers, int(self.keys.get("limit", 1000)), files, self.keys.get("form", "plain"), self.is_civil)


def examples(program, tally, budget):
    """Each expected output, against the second opinion. The program is not run: it is held to these files elsewhere."""
    for folder, name, status, words in every_case():
        expected = content(folder, os.path.join("expected", name))
        try:
            wanted = Judge(folder, words, budget).judge(expected)
        except TooHard:
            tally.too_hard()
            continue
        if wanted is not None:
            tally.check(
                wanted == (status, expected),
                "%s: %s" % (os.path.basename(folder), name),
                " ".join(words),
                expected,
                "second opinion: %d" % wanted[0],
                wanted[1],
            )
