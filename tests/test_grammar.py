"""What is said to be able to stand at a place is what the program takes there."""

import re
import subprocess
import tempfile
import unittest
from pathlib import Path

from grammar import RESERVED, Grammar, fault_of_syntax, wanted_at
from support import PROGRAM

DATABASE = 'relation r(t: time, d: line) { (5, "7") where t <= t + 5, t = -1; (-5+60n, "8"); } relation s() { (); }'
QUERY = '{ t: time, d: line | (r(t, d) and not (t < 5 - 1 implies exists u: time u in -5+60n) and ("7" = d or s() or t + 1 >= -3)) }'
TENSE = ('{ t: time | (once t (-5, 0) always t (0, 58) not r(t, "7") or since t (not until t (s(), t = 1), once once (0, -1) s())'
         ' or once(t) or once in 1+2n or once + 1 < 3 or exists u: once s()) }')
WIDE = ('define p(t: time, d: line) as r(t, *) and not r(t + 5, "7") or t != 5; define q() as s() implies s() implies s(); '
        '{ t: time, d: line | exists u, v: time (p(u, *) and u in 1+2n) or since t (s() or s(), s()) and d != "7" implies once t (0, 5) s() }')
EDITS = '+ r (5, "7") where t <= t + 5, t = -1; - r (-5+60n, "8"); + s (); '
# Token by token what may follow; what begins a formula, a term, a value or a sort.
SAMPLES = ["x", "7", '"a"', *RESERVED, *"(){},:;|+-<>=", "<=", ">=", "*", "!=", "define", "as"]
NAMES = ["x", "define", "as"]
BEGINS = {
    "a name": NAMES, "a number": ["7"], "a text": ['"a"'], "a sort": ["time", "data", *NAMES],
    "a value": ["7", "-", '"a"'], "a term": [*NAMES, "7", "-", '"a"'],
    "a formula": ["not", "exists", "forall", "(", *NAMES, "7", "-", '"a"'],
}


# The words that read a text of each kind; the others stand beside it.
WORDS = {
    Grammar.DATABASE: ["check", "db=text"],
    Grammar.QUERY: ["explain", "db=a.lrp", "query=text"],
    Grammar.TENSE: ["explain", "db=a.lrp", "query=text", "tense=yes"],
    Grammar.WIDE: ["explain", "db=a.lrp", "query=text", "wide=yes"],
    Grammar.EDITS: ["watch", "db=a.lrp", "query=b.lrq", "edits=text"],
}


def taken(front: str, grammar: Grammar, folder: Path) -> set[str]:
    """Which of the samples the program takes after the front of a text: its fault stands after the sample."""
    found = set()
    (folder / "a.lrp").write_text(DATABASE)
    (folder / "b.lrq").write_text("{ | s() }")
    for sample in SAMPLES:
        text = f"{front} {sample} ?"
        (folder / "text").write_text(text)
        line = subprocess.run([PROGRAM, *WORDS[grammar]], cwd=folder, capture_output=True, text=True, check=False).stdout
        fault = re.fullmatch(r"refused: (?:query|database|edits) Syntax at 1:(\d+)\n", line)
        if fault is None:
            raise AssertionError(f"{text}: {line}")
        if int(fault.group(1)) > len(front.encode()) + 2:
            found.add(sample)
    return found


class Wanted(unittest.TestCase):
    """At each token of a text."""

    def check_text(self, text: str, grammar: Grammar) -> None:
        """Cuts the text at each token, and tries every kind of token there."""
        with tempfile.TemporaryDirectory() as name:
            for token in grammar.token.finditer(text):
                if token.lastgroup:
                    front = text[:token.start()]
                    wanted = wanted_at(front, grammar)
                    said = {sample for word in wanted for sample in BEGINS.get(word, [word.strip("'")])}
                    self.assertEqual(taken(front, grammar, Path(name)), said, front)

    def test_databases(self):
        self.check_text(DATABASE, Grammar.DATABASE)

    def test_queries(self):
        self.check_text(QUERY, Grammar.QUERY)

    def test_queries_with_temporal_operators(self):
        self.check_text(TENSE, Grammar.TENSE)

    def test_definitions_and_a_query_in_the_wide_language(self):
        self.check_text(WIDE, Grammar.WIDE)

    def test_edits(self):
        self.check_text(EDITS, Grammar.EDITS)


class Told(unittest.TestCase):
    """The sentence on a fault."""

    def test_each_kind_of_sentence(self):
        for front, rest, wanted in (
                ("{ t: time | bus(t) ", "and bus(t) }", "Here may stand: '}'."),
                ("{ t: time | (a(t) and b(t) ", "or c(t)) }", "Here may stand: 'and' or ')'."),
                ("{ ", "n: time | a(n) }", "'n' is a word of the language, and can't be a name."),
                ("{ t: time | (a(t) and t ", "! 5) }", "'!' begins no token of the language."),
                ('{ | "a', '\\x" = "b" }', "It stands inside a text, which ends at the next quote of its line; in it \\\""
                                           " is a quote, \\\\ is a \\."),
                ('{ | # "\n', "| }", "Here may stand: a formula.")):
            self.assertEqual(fault_of_syntax(front + rest, len(front), Grammar.QUERY), wanted)


if __name__ == "__main__":
    unittest.main()
