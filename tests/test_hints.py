"""What to write instead of a query that is written as people write it: exact for its case, and silent elsewhere."""

import random
import re
import shlex
import subprocess
import tempfile
import unittest
from pathlib import Path
from typing import NamedTuple

from catalogue import find_entry
from details import Refusal, said_of
from grammar import Grammar
from rewriting import Instead, instead_at
from support import PROGRAM, TOP

BUS = 'relation bus(dep: time, arr: time, line: data) { (5+60n, 30+60n, "7") where arr = dep + 25; }\n'
QUERIES = 400

# A formula as people write it, over a head with the column `a: time`; what is said of it; and the query as the sentence has
# it, which the program reads.
MISTAKES = [
    ("exists b, l: time bus(a, b, \"7\")", "Each variable has a quantifier and a sort of its own: 'exists b: time exists l: time F'.",
     'exists b: time exists l: time bus(a, b, "7")'),
    ("not forall b, c,\n d: data (b = c and c = d)",
     "Each variable has a quantifier and a sort of its own: 'forall b: data forall c: data forall d: data F'.",
     "not forall b: data forall c: data forall d: data (b = c and c = d)"),
    ("exists b: time, l: data bus(a, b, l)", "Each variable has a quantifier of its own: 'exists b: time exists l: data F'.",
     "exists b: time exists l: data bus(a, b, l)"),
    ("exists b (a = b)", "A variable has its sort: 'exists b: time F'.", "exists b: time (a = b)"),
    ("exists b: time (a + 5 != b and b <= 9)", "'Not equal' is written 'not a + 5 = b'.", "exists b: time (not a + 5 = b and b <= 9)"),
    ('"#" <> "7"', "'Not equal' is written 'not \"#\" = \"7\"'.", 'not "#" = "7"'),
    ("not a != -5", "'Not equal' is written 'not a = -5'.", "not not a = -5"),
    ("bus(a, _, _)", "bound directly around the atom: exists arr: time exists line: data bus(a, arr, line).",
     "exists arr: time exists line: data bus(a, arr, line)"),
    ('not bus(a - 5, *, "7,)")', "bound directly around the atom: exists arr: time bus(a - 5, arr, \"7,)\").",
     'not exists arr: time bus(a - 5, arr, "7,)")'),
    ('exists arr: time bus(arr, _, "7")', "bound directly around the atom: exists arr2: time bus(arr, arr2, \"7\").",
     'exists arr: time exists arr2: time bus(arr, arr2, "7")'),
    ("exists b: time 2*a = b", "'in': 'u in 0+2n', 'u in r+2n'.", "exists u: time (u in 0+2n and a <= u)"),
    ("a = 12 * 60", "Products can't be said: write 720.", "a = 720"),
    ("exists b: time a <= 3b", "Products can't be said. That a time is a multiple of 3, or r more than one, is said by 'in'", "a in 1+3n"),
    ("exists b: time b - a <= 25", "A difference is said by a comparison: 'b - a <= 25' is 'b <= a + 25'.", "exists b: time b <= a + 25"),
    ("exists b: time b - a > -5", "'b - a > -5' is 'b > a - 5'.", "exists b: time b > a - 5"),
    ("exists b: time (b - a=0 and a <= b)", "'b - a = 0' is 'b = a'.", "exists b: time (b = a and a <= b)"),
    ("exists b: time (5 < b - a and a <= b)", "'5 < b - a' is 'b > a + 5'.", "exists b: time (b > a + 5 and a <= b)"),
    ("exists b: time exists c: time b - a <= c", "A difference is said by a comparison, as 'b = a + 5' or 'b <= a + 5'.",
     "exists b: time b <= a + 5"),
    ("exists b: time 5 = a + b", "A difference is said by a comparison: 'a = b + 5', 'a <= b + 5'.", "exists b: time a = b + 5"),
    ("a = 1 or a = 2", "A list stands in parentheses: (a = 1 or a = 2).", "(a = 1 or a = 2)"),
    ("a = 1 # one\n implies a != 2", "A list stands in parentheses: (a = 1 implies not a = 2).", "(a = 1 implies not a = 2)"),
    ("exists b: time a <= b and b <= 480", "A list stands in parentheses: exists b: time (a <= b and b <= 480).",
     "exists b: time (a <= b and b <= 480)"),
    ("not a = 1 and a <= 5",
     "A list stands in parentheses: (not a = 1 and a <= 5). Or, where 'not' is to reach over all of it: not (a = 1 and a <= 5).",
     "(not a = 1 and a <= 5)"),
    ("a = 1 or a = 2 and a = 3",
     "A list stands in parentheses and has one kind of word: (a = 1 or (a = 2 and a = 3)), where 'and' is to bind first.",
     "(a = 1 or (a = 2 and a = 3))"),
    ("not (a = 1 and a = 2 or a = 3)", "A list has one kind of word: ((a = 1 and a = 2) or a = 3), where 'and' is to bind first.",
     "not ((a = 1 and a = 2) or a = 3)"),
    ("(a = 1 or a = 2 implies a = 3)", "A list has one kind of word: ((a = 1 or a = 2) implies a = 3), where 'implies' is to bind last.",
     "((a = 1 or a = 2) implies a = 3)"),
    ("(a = 1 implies a = 2 implies a = 3)",
     "A list has one kind of word: (a = 1 implies (a = 2 implies a = 3)), where the last 'implies' is to bind first.",
     "(a = 1 implies (a = 2 implies a = 3))"),
    ("(exists b: time a <= b and b <= 480)", "'exists b: time' takes the one formula after it, and ends before this place",
     "(exists b: time (a <= b and b <= 480))"),
]
WITH_OPERATORS = [
    ("since a (a = 1 and a = 2, a = 3)", "A list stands in parentheses: (a = 1 and a = 2).", "since a ((a = 1 and a = 2), a = 3)"),
    ("once a (-10, 0) a = 1 or a = 2", "Or, where 'once a (-10, 0)' is to reach over all of it: once a (-10, 0) (a = 1 or a = 2).",
     "once a (-10, 0) (a = 1 or a = 2)"),
]
# Formulas with other mistakes, and what would be wrong to say of them.
OTHERS = [
    ("a in 5+60m", "Products"), ("bus(a and a, 5, \"7\")", "A list"), ("a = 1 * ", "Products"), ("(a = 1 * a = 2)", "A list"),
    ("a = 5 and", "(a = 5 and"), ("once a (0, 5 and 7) a = 1", "A list"), ("_ = a", "wildcard"), ("bus(_, _)", "wildcard"),
    ("exists b: time a - b", "'a - b"), ("exists b: time 5 <= a - b <= 9", "'5 <= a - b'"), ("! a = 5", "'Not equal'"),
    ("exists b = a", "sort"), ("and a = 5", "A list"), ("a = b + and", "Sums"), ("'a' != 'b'", "'Not equal'"),
    ("exists b: time a -5 < b - a", "'-5 <"), ("exists b: time (a + 5 < b - a)", "'5 <"), ("# 5 <\n a - a = a", "'5 <"),
    ("# exists b\n, a = 5", "quantifier"), ('5 "x" * a', "Products"),
]
# What stands at the place of each sentence that begins so; the place is shown as NUL.
CAUSES = {
    "'Not equal' is written": r"\0!=|<\0>",
    "Each variable has a quantifier and": r"\b(exists|forall)\s+\w+\s*\0,",
    "Each variable has a quantifier of": r"\b(exists|forall)\s+\w+\s*:\s*\w+\s*\0,",
    "A variable has its sort": r"\b(exists|forall)\s+\w+\s*\0\(",
    "A list": r"\0(and|or|implies)\b",
    "There is no wildcard": r"[(,]\s*\0[_*]\s*[,)]",
    "Products": r"\w\s*\0(\*|[A-Za-z_])",
    "An offset is a number": r"[A-Za-z_]\w*\s*-\s*\0[A-Za-z_]",
    "Sums of two": r"[A-Za-z_]\w*\s*\+\s*\0[A-Za-z_]",
    r"'(exists|forall) \w+: \w+' takes": r"\b(?:exists|forall)\s+(\w+)\s*:(?s:.*)\0\1\b",
}
# What is put into a query at random; nothing twice as often.
NEW = ("", "", "and ", " or ", "(", ")", "_", "*", "!=", "<>", "-", "+", "2", " a ", ",", "exists a, b: time ")


class Told(NamedTuple):
    """A query, the line that the program writes of it, the place from 0 and what is said; without a place nothing is."""

    query: str
    line: str
    place: int = -1
    said: str = ""

    def cause(self) -> str | None:
        """The pattern of the cause of what is said, where it is one of the sentences that are tested here."""
        return next((cause for front, cause in CAUSES.items() if re.match(front, self.said)), None)

    def is_caused(self) -> bool:
        """Whether that cause stands at the place."""
        return re.search(self.cause() or "", self.query[:self.place] + "\0" + self.query[self.place:]) is not None


class Asker:
    """Asks the program about queries, in a folder of its own."""

    def __init__(self, folder: str):
        self.files = {"db": str(Path(folder, "a.lrp")), "query": str(Path(folder, "a.lrq"))}
        Path(self.files["db"]).write_text(BUS)

    def tell(self, query: str, **keys: str) -> Told:
        """What is told of a query."""
        Path(self.files["query"]).write_text(query)
        files = {**self.files, **keys}
        words = [str(PROGRAM), "explain", *(f"{key}={value}" for key, value in files.items())]
        done = subprocess.run(words, stdin=subprocess.DEVNULL, capture_output=True, check=False)
        return told_of(done.stdout.decode().partition("\n")[0], files)


def told_of(line: str, files: dict[str, str]) -> Told:
    """What is told of a query of which the program wrote this line."""
    query = Path(files["query"]).read_text(errors="replace")
    found = find_entry(line)
    if found is None or not line.startswith("refused: query ") or not found[1].groupdict().get("line"):
        return Told(query, line)
    at, column = int(found[1]["line"]), int(found[1]["column"])
    lines = query.split("\n")
    place = sum(len(each) + 1 for each in lines[:at - 1]) + len(lines[at - 1].encode()[:column - 1].decode())
    return Told(query, line, place, said_of(Refusal(str(PROGRAM), files, line, found[1].groupdict())).text)


def query_of(formula: str) -> str:
    """A query with a formula over one column."""
    return f"{{ a: time | {formula} }}"


class Sentences(unittest.TestCase):
    """What is said of each mistake."""

    def test_each_mistake_has_its_remedy_which_is_read(self):
        with tempfile.TemporaryDirectory() as name:
            asker = Asker(name)
            for mistakes, tense in ((MISTAKES, "no"), (WITH_OPERATORS, "yes")):
                for written, said, instead in mistakes:
                    with self.subTest(written):
                        told = asker.tell(query_of(written), tense=tense)
                        self.assertIn(said, told.said)
                        self.assertTrue(told.is_caused())
                        self.assertFalse(asker.tell(query_of(instead), tense=tense).line.startswith("refused"), instead)

    def test_other_mistakes_have_none_of_these_remedies(self):
        with tempfile.TemporaryDirectory() as name:
            asker = Asker(name)
            for written, wrong in OTHERS:
                with self.subTest(written):
                    told = asker.tell(query_of(written))
                    self.assertRegex(told.line, "^refused: query (Syntax|Unbound|Arity) at ")
                    self.assertNotIn(wrong, told.said)

    def test_a_bound_that_is_not_equal(self):
        with tempfile.TemporaryDirectory() as name:
            database = Path(name, "a.lrp")
            for bound, wanted in (("t != 5", True), ("t <> 5", True), ("t = !5", False)):
                database.write_text(f"relation r(t: time) {{ (0+1n) where {bound}; }}")
                words = [str(PROGRAM), "check", f"db={database}"]
                line = subprocess.run(words, capture_output=True, text=True, check=False).stdout.rstrip("\n")
                numbers = find_entry(line)[1].groupdict()
                said = said_of(Refusal(str(PROGRAM), {"db": str(database)}, line, numbers)).text
                self.assertEqual("'not equal' takes two rows" in said, wanted, bound)


class Examples(unittest.TestCase):
    """The examples' refusals."""

    def test_no_sentence_without_its_cause(self):
        seen, known = 0, 0
        for cases in sorted(TOP.glob("examples/*/cases")):
            for case in cases.read_text().splitlines():
                words = [] if case.startswith("#") else shlex.split(case)
                files = dict(word.split("=", 1) for word in words[3:] if "=" in word)
                files |= {key: str(cases.parent / files[key]) for key in ("db", "query") if key in files}
                if not words or not Path(files.get("query", "")).is_file():
                    continue
                told = told_of((cases.parent / "expected" / words[0]).read_bytes().decode(errors="replace").partition("\n")[0], files)
                seen += told.place >= 0
                known += told.cause() is not None
                if told.cause():
                    self.assertTrue(told.is_caused(), f"{cases}: {words[0]}: {told.said}")
        self.assertGreater(seen, 50)
        self.assertGreater(known, 3)


class Random(unittest.TestCase):
    """Random queries, lawful and with mistakes."""

    def setUp(self):
        folder = tempfile.TemporaryDirectory()
        self.addCleanup(folder.cleanup)
        self.asker = Asker(folder.name)
        self.random = random.Random(7)

    def formula(self, depth: int) -> str:
        """A random formula of the language over the variables a and b."""
        form = self.random.randrange(6 if depth else 3)
        if form < 3:
            return self.random.choice(("a <= b + 5", "not b = -7", "bus(a, b - 3, \"and #\")", "a in 5+60n", '"or" = "7"'))
        if form == 3:
            return self.random.choice(("not ", "exists c: time exists d: time ", "forall d: data ")) + self.inner(depth - 1)
        word = self.random.choice((" and ", " or ", " implies "))
        count = 2 if word == " implies " else self.random.randint(1, 4)
        return "(" + word.join(self.inner(depth - 1) for _ in range(count)) + ")"

    def inner(self, depth: int) -> str:
        """A formula without quantifiers, which another one may take."""
        text = self.formula(depth)
        return text.replace("exists c: time exists d: time ", "").replace("forall d: data ", "not ")

    def query(self) -> str:
        """A random lawful query."""
        return f"{{ a: time, b: time | {self.formula(3)} }}"

    def test_lawful_queries_have_no_fault_of_syntax_and_no_remedy(self):
        for _ in range(QUERIES // 4):
            query = self.query()
            self.assertFalse(self.asker.tell(query).line.startswith("refused: query"), query)
            self.assertTrue(all(instead_at(query, place, Grammar.QUERY) is None for place in range(len(query))), query)

    def test_a_list_of_all_the_formula_gets_back_its_parentheses(self):
        seen = 0
        for _ in range(QUERIES):
            query = self.query()
            if not re.search(r"\| \(.*\) }$", query):
                continue
            told = self.asker.tell(re.sub(r"\| \((.*)\) }$", r"| \1 }", query))
            if told.line.startswith("refused: query"):
                instead = instead_at(told.query, told.place, Grammar.QUERY)
                self.assertTrue(told.said.startswith("A list stands in parentheses"), told)
                self.assertEqual(applied(told.query, instead), query)
                seen += 1
        self.assertGreater(seen, 20)

    def test_no_sentence_without_its_cause_and_each_remedy_is_read(self):
        known = 0
        for _ in range(QUERIES):
            told = self.asker.tell(self.damaged(self.query()))
            if told.cause() is None:
                continue
            known += 1
            self.assertTrue(told.is_caused(), told)
            instead = instead_at(told.query, told.place, Grammar.QUERY)
            if instead and "Syntax" in told.line:
                after = self.asker.tell(applied(told.query, instead))
                end = instead.begin + len(instead.text)
                self.assertFalse("Syntax" in after.line and after.place < end, (told, after))
        self.assertGreater(known, QUERIES // 20)

    def damaged(self, query: str) -> str:
        """A query with one or two tokens left out, doubled or put in."""
        tokens = re.findall(r'"[^"]*"|\w+|[<>]=|\S|\s+', query)
        for _ in range(self.random.randint(1, 2)):
            at = self.random.randrange(1, len(tokens))
            new = self.random.choice(NEW)
            tokens[at:at + self.random.randint(0, 1)] = [new]
        return "".join(tokens)


def applied(query: str, instead: Instead | None) -> str:
    """A query with what is to be written instead of a part of it."""
    return query[:instead.begin] + instead.text + query[instead.end:] if instead else query


if __name__ == "__main__":
    unittest.main()
