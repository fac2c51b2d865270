"""What to write instead where a text has a mistake that newcomers make: each hint names the mistake and the remedy."""

import re
from collections.abc import Callable
from dataclasses import dataclass
from functools import cached_property

from grammar import COMPARISONS, RESERVED, Grammar, wanted_at
from rewriting import Instead, instead_at

BYTE_ORDER_MARK = "\N{ZERO WIDTH NO-BREAK SPACE}"
NAME = re.compile(r"[A-Za-z_][A-Za-z0-9_]*", re.ASCII)
COMMENT_OR_TEXT = re.compile(r'("(?:[^"\\\x00-\x1f\x7f]|\\["\\])*")|#[^\n]*')
CLOCK = re.compile(r"[0-9]{1,2}:[0-9]{2}", re.ASCII)
DATE = re.compile(r"[0-9]{4}-[0-9]{2}-[0-9]{2}", re.ASCII)
# What stands before a place: a name and an operator after it.
MINUS_OR_PLUS = re.compile(r"([A-Za-z_][A-Za-z0-9_]*)\s*([+-])\s*$", re.ASCII)
# What stands before a place: the sign of a comparison and its second side.
COMPARED = re.compile(r"(<=|>=|<|>|=)\s*([A-Za-z_][A-Za-z0-9_]*(?:\s*[+-]\s*[0-9]+)?|-?[0-9]+)\s*$", re.ASCII)
QUANTIFIED = re.compile(r"\b(exists|forall)\s+([A-Za-z_][A-Za-z0-9_]*)\s*(?::\s*([A-Za-z_][A-Za-z0-9_]*)\s*)?$", re.ASCII)
# What stands after a place: the next variable of a quantifier, with its sort; a product's second factor; what a difference
# is compared with; the sign of a further comparison or offset.
FOLLOWING = re.compile(r",\s*([A-Za-z_][A-Za-z0-9_]*)\s*:\s*([A-Za-z_][A-Za-z0-9_]*)", re.ASCII)
FACTOR_AFTER = re.compile(r"\*\s*([A-Za-z_][A-Za-z0-9_]*|[0-9]+)", re.ASCII)
NUMBER_AFTER = re.compile(r"\s*(<=|>=|<|>|=)\s*(-?[0-9]+)(?![A-Za-z0-9_])(?!\s*[<>=+*/-])", re.ASCII)
SIGN_AFTER = re.compile(r"\s*[<>=+*/-]", re.ASCII)
# What stands before a place: a product's first factor; a number that a difference is compared with.
FACTOR = re.compile(r"(?<![A-Za-z0-9_])([A-Za-z_][A-Za-z0-9_]*|[0-9]+)\s*$", re.ASCII)
NUMBER_BEFORE = re.compile(r"(?:[(|]|\b(?:and|or|implies|not)\b|:\s*[A-Za-z_]\w*\s)\s*(-?[0-9]+)\s*(<=|>=|<|>|=)\s*$", re.ASCII)
TURNED = {"<=": ">=", ">=": "<=", "<": ">", ">": "<", "=": "="}
# How a list of several words is read where it is written with these parentheses.
ORDERS = {frozenset(words): order for *words, order in (
    ("and", ""), ("or", ""), ("implies", ", where the last 'implies' is to bind first"),
    ("and", "or", ", where 'and' is to bind first"), ("and", "implies", ", where 'implies' is to bind last"),
    ("or", "implies", ", where 'implies' is to bind last"),
    ("and", "or", "implies", ", where 'and' is to bind first and 'implies' last"))}
# The longest list that is shown with its parentheses.
SHOWN = 400

STRAIGHT = dict.fromkeys("\u201c\u201d\u201e\u201f\u00ab\u00bb\u2018\u2019\u201a\u201b'`\u00b4",
                         'Texts stand between straight double quotes, as "7".')
UNEQUAL = "'Not equal' is written 'not t = u'."
UNEQUAL_BOUND = "Bounds say '<=', '>=' and '='; 'not equal' takes two rows, one where the time is less and one where it is more."
SIGNS = STRAIGHT | {
    "\u2212": "Write the minus as '-'.",
    "\u2013": "Write the minus as '-'.",
    "\u2014": "Write the minus as '-'.",
    "\u2264": "Write '<='.",
    "\u2265": "Write '>='.",
    "\u2260": UNEQUAL,
    "\u00a0": "This is a no-break space; write a blank.",
    "\u2203": "Write 'exists t: time'.",
    "\u2200": "Write 'forall t: time'.",
    "\u2227": "Write 'and', with the list in parentheses: (F and G).",
    "\u2228": "Write 'or', with the list in parentheses: (F or G).",
    "\u00ac": "Write 'not F'.",
    "&": "Write 'and', with the list in parentheses: (F and G).",
    "/": "Parts of times can't be said; a term is a time with an offset, as 't + 5'.",
    ".": "Numbers are whole: choose a smaller unit of time.",
    BYTE_ORDER_MARK: "The file has a byte order mark; save it as UTF-8 without one.",
}
# In the wide language these have words of their own.
WIDE_SIGNS = SIGNS | {
    "\u2260": "Write '!='.",
    "\u2227": "Write 'and'.",
    "\u2228": "Write 'or'.",
    "&": "Write 'and'.",
}


@dataclass(frozen=True)
class Fault:
    """A place of a text where it stops being what its grammar says, the text before it, and what may stand there."""

    text: str
    place: int
    grammar: Grammar
    wanted: list[str]

    @cached_property
    def before(self) -> str:
        """The text up to the place, as long as it is, without what stands in comments and in texts."""
        return COMMENT_OR_TEXT.sub(lambda found: (" " if found[1] is None else '"') * len(found[0]), self.text[:self.place])

    @property
    def token(self) -> str:
        """The token at the place, or the letter where none begins."""
        found = self.grammar.token.match(self.text, self.place)
        return found.group() if found else self.text[self.place:self.place + 1]

    @cached_property
    def instead(self) -> Instead | None:
        """What to write instead of a part of a query that stops being one at the place."""
        return instead_at(self.text, self.place, self.grammar) if self.is_query else None

    @property
    def is_query(self) -> bool:
        """Whether the text is to be a query."""
        return self.grammar.is_query

    @property
    def is_wide(self) -> bool:
        """Whether the text is to be a query in the wide language."""
        return self.grammar is Grammar.WIDE


def hint_of(text: str, place: int, grammar: Grammar) -> str:
    """The hint for a fault of syntax; empty where the mistake is none of those that are known."""
    if place >= len(text):
        return ""
    fault = Fault(text, place, grammar, wanted_at(text[:place], grammar))
    hints: tuple[Callable[[Fault], str], ...] = (
        unequal, sign, date_or_clock, quantified_list, list_of_columns, word_of_list, two_variables, multiple, chain,
        comparison, unquoted, capital)
    return next(filter(None, (hint(fault) for hint in hints)), "")


def unequal(fault: Fault) -> str:
    """`!=` and `<>`."""
    near = fault.text[max(fault.place - 1, 0):fault.place + 2]
    if fault.is_wide:
        return "'Not equal' is written 'a != b'." if near[:2] == "<>" else ""
    if fault.is_query and (near[1:] == "!=" or near[:2] == "<>"):
        instead = fault.instead
        return f"'Not equal' is written '{instead.text}'." if instead else UNEQUAL
    if near[1:] in ("!=", "<>") and "'<='" in fault.wanted:
        return UNEQUAL_BOUND
    return "Write 'not F'." if fault.token == "!" and "a formula" in fault.wanted else ""


def sign(fault: Fault) -> str:
    """Signs of other keyboards and other languages."""
    signs = WIDE_SIGNS if fault.is_wide else SIGNS
    return signs.get(fault.text[fault.place], "") if fault.grammar.token.match(fault.text, fault.place) is None else ""


def date_or_clock(fault: Fault) -> str:
    """Dates and times of day that are no civil values."""
    if fault.grammar is Grammar.EDITS or fault.token not in ("-", ":"):
        return ""
    start = re.search(r"[0-9]*$", fault.before).start()  # type: ignore[union-attr]
    day = DATE.match(fault.text, start)
    if fault.is_query and (day or CLOCK.match(fault.text, start)):
        if fault.is_wide:
            return "A date is written as 'on 2026-12-24 08:15', and a time of day as in 't in daily 08:15', with civil=yes."
        return ("In queries times are numbers: minutes since 1970-01-01 00:00 where the database has civil times. With wide=yes and"
                " civil=yes they may be dates, as 'on 2026-12-24 08:15'.")
    if day:
        return f"Write a date as 'on {day.group()} 08:15', and give civil=yes."
    if CLOCK.match(fault.text, start):
        return "Write a time of day as 'daily 08:15' or 'weekly mon 08:15', and give civil=yes."
    return ""


def quantified_list(fault: Fault) -> str:
    """`exists a, b: time`, `exists a: time, b: time` and `exists a F`."""
    found = QUANTIFIED.search(fault.before)
    if not found or not fault.is_query:
        return ""
    word, name, sort = found.groups()
    following = FOLLOWING.match(fault.text, fault.place)
    if fault.token == "," and sort and following:
        return f"Each variable has a quantifier of its own: '{word} {name}: {sort} {word} {following[1]}: {following[2]} F'."
    if fault.token == "," and not sort and not fault.is_wide:
        instead = fault.instead.text if fault.instead else f"{word} {name}: time {word} b: time"
        return f"Each variable has a quantifier and a sort of its own: '{instead} F'."
    return f"A variable has its sort: '{word} {name}: time F'." if fault.token == "(" and not sort else ""


def list_of_columns(fault: Fault) -> str:
    """`{ a, b: time | .. }` and `relation r(a, b: time)`."""
    is_name = NAME.search(fault.before.rstrip()[-1:] or " ")
    if fault.wanted == ["':'"] and fault.token in (",", "|", ")") and is_name:
        return "Each column has its sort: 'a: time, b: time'."
    return ""


def word_of_list(fault: Fault) -> str:
    """A list without parentheses, or with two words."""
    if not fault.is_query or fault.is_wide or fault.token not in ("and", "or", "implies"):
        return ""
    if fault.instead and len(fault.instead.text) <= SHOWN:
        return list_in_parentheses(fault, fault.instead)
    wanted = [word for word in fault.wanted if word not in ("'+'", "'-'")]
    if wanted == ["'}'"]:
        return f"A list stands in parentheses: (F {fault.token} G)."
    if wanted[-1:] == ["')'"] and ("'and'" in wanted or "'or'" in wanted):
        return f"A list has one kind of word: put what stands before '{fault.token}' into parentheses, as ((F and G) or H)."
    return ""


def list_in_parentheses(fault: Fault, instead: Instead) -> str:
    """The list with its parentheses, and which of several readings it then has."""
    has_some = fault.text[instead.begin] == "(" and "')'" in fault.wanted
    rule = "A list has one kind of word" if has_some else "A list stands in parentheses"
    if len(set(instead.words)) > 1 and not has_some:
        rule += " and has one kind of word"
    order = ORDERS[frozenset(instead.words)] if len(instead.words) > 1 else ""
    told = f"{rule}: {instead.text}{order}."
    return f"{told} Or, where '{instead.prefix}' is to reach over all of it: {instead.over_list}." if instead.over_list else told


def two_variables(fault: Fault) -> str:
    """`a - t` and `a + t`."""
    found = MINUS_OR_PLUS.search(fault.before)
    is_name = NAME.fullmatch(fault.token) is not None and fault.token not in RESERVED
    if not found or not is_name or found[1] in RESERVED or fault.wanted != ["a number"]:
        return ""
    first, second = found[1], fault.token
    if found[2] == "+":
        return ("Sums of two times can't be said; an offset is a number. A difference is said by a comparison:"
                f" '{first} = {second} + 5', '{first} <= {second} + 5'.")
    said = difference(fault, fault.before[:found.start()], first)
    if said:
        return f"An offset is a number. A difference is said by a comparison: {said}."
    return ("An offset is a number. A difference is said by a comparison, as"
            f" '{first} = {second} + 5' or '{first} <= {second} + 5'.")


def difference(fault: Fault, before: str, first: str) -> str:
    """What a comparison of a difference with a number is written as; empty where it is none. `before` ends before it."""
    left, right = NUMBER_BEFORE.search(before), NUMBER_AFTER.match(fault.text, fault.place + len(fault.token))
    if left and not SIGN_AFTER.match(fault.text, fault.place + len(fault.token)):
        written, sign, number = f"{left[1]} {left[2]} {first} - {fault.token}", TURNED[left[2]], int(left[1])
    elif right and before.rstrip()[-1:] not in tuple("<>=+-,"):
        written, sign, number = f"{first} - {fault.token} {right[1]} {right[2]}", right[1], int(right[2])
    else:
        return ""
    offset = f" {'-' if number < 0 else '+'} {abs(number)}" if number else ""
    return f"'{written}' is '{first} {sign} {fault.token}{offset}'"


def multiple(fault: Fault) -> str:
    """`2t` and `2*t`."""
    left = FACTOR.search(fault.before)
    is_name = NAME.fullmatch(fault.token) is not None and fault.token not in RESERVED
    if left and is_name and left[1].isdigit() and left.end(1) == fault.place and fault.wanted != ["'n'"]:
        return product(fault, left[1], fault.token)
    right = FACTOR_AFTER.match(fault.text, fault.place)
    return product(fault, left[1], right[1]) if left and right and not {left[1], right[1]} & set(RESERVED) else ""


def product(fault: Fault, left: str, right: str) -> str:
    """What to write in place of a product."""
    numbers = [int(factor) for factor in (left, right) if factor.isdigit() and len(factor) < 20]
    if len(numbers) == 2:
        return f"Products can't be said: write {numbers[0] * numbers[1]}."
    if not fault.is_query or numbers in ([], [0]):
        return "Products can't be said; a time may have an offset, as 't + 5'."
    return (f"Products can't be said. That a time is a multiple of {numbers[0]}, or r more than one, is said by 'in':"
            f" 'u in 0+{numbers[0]}n', 'u in r+{numbers[0]}n'.")


def chain(fault: Fault) -> str:
    """`a <= b <= c`."""
    found = COMPARED.search(fault.before)
    if not found or fault.token not in COMPARISONS:
        return ""
    first, second = f".. {found[1]} {found[2]}", f"{found[2]} {fault.token} .."
    two = f"({first} and {second})" if fault.is_query else f"where {first}, {second}"
    return f"A comparison has two sides; write two of them, as '{two}'."


def comparison(fault: Fault) -> str:
    """`==`, `=<`, `=>` and `->`."""
    pair = fault.before.rstrip()[-1:] + fault.token
    written = {"==": "=", "=<": "<=", "=>": "'>=', or between formulas 'implies", "->": "implies"}.get(pair)
    return f"Write '{written}'." if written else ""


def unquoted(fault: Fault) -> str:
    """A text without quotes in a row."""
    is_row = fault.grammar in (Grammar.DATABASE, Grammar.EDITS)
    is_civil = fault.token in ("daily", "weekly", "on")
    if is_row and "a value" in fault.wanted and NAME.fullmatch(fault.token) and not is_civil:
        return f'A text stands between quotes: "{fault.token}".'
    return ""


def capital(fault: Fault) -> str:
    """Words of the language with capitals."""
    low = fault.token.lower()
    if fault.token != low and f"'{low}'" in fault.wanted:
        return f"Words of the language have small letters: write '{low}'."
    return ""
