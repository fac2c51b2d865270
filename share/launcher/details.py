"""What the files and the machine say about one refusal."""

import os
import re
import stat
import subprocess
from collections.abc import Callable
from difflib import get_close_matches
from pathlib import Path
from typing import NamedTuple

from civil import fault_of_civil, fault_of_date, plain_text
from grammar import TOKEN, Grammar, fault_of_syntax, is_wide, read, without_texts_and_comments
from hints import BYTE_ORDER_MARK, hint_of
from places import read_lines
from rewriting import with_variables
from table import read_table

RELATION = re.compile(r"\brelation\s+([A-Za-z_]\w*)\s*\(([^)]*)\)", re.ASCII)
HEAD = re.compile(r"\{([^|]*)\|")
TIME = re.compile(r"\b([A-Za-z_]\w*)\s*:\s*time\b", re.ASCII)
PERIOD = re.compile(r"\+\s*(\d+)\s*n\b", re.ASCII)
NUMBER = re.compile(r"(?<![A-Za-z_0-9])(\d+)", re.ASCII)
# A text, or a comma between two values of a row or two terms.
COMMA_OR_TEXT = re.compile(r'"(?:[^"\\\n]|\\.)*"|,')
DEFINITION = re.compile(r"\bdefine\s+([A-Za-z_]\w*)\s*\(([^)]*)\)\s*as\b", re.ASCII)
BEGINNINGS = {"db": r"relation\b", "query": r"\{|define\b", "edits": r"[+-]"}
KINDS = {"db": "a database", "query": "a query", "edits": "edits"}
# What a cell takes at most: measured over a step of six million cells of two times.
BYTES_OF_CELL = 750
CELLS_OF_SECOND = 100_000


class Refusal(NamedTuple):
    """A refusal's line with the numbers in it, the program that wrote it, the values of its keys, and the command."""

    program: str
    files: dict[str, str]
    line: str
    numbers: dict[str, str]
    command: str = ""

    def file(self, key: str) -> str:
        """The file that a key names; empty where there is none."""
        return self.files.get(key, "")

    def has(self, key: str) -> bool:
        """Whether a key that is 'yes' or 'no' is 'yes'."""
        return self.file(key) == "yes"

    def takes(self, key: str) -> bool:
        """Whether its command has such a key, where the command is known."""
        keys = read_table().get(self.command)
        return keys is None or key in keys


class Said(NamedTuple):
    """What is known of one refusal: whether it says what to do, and whether it says all that is to be said."""

    text: str
    has_remedy: bool = False
    is_all: bool = False


def said_of(refusal: Refusal) -> Said:
    """What the files say about this refusal; nothing where they say nothing. They come with the other keys."""
    tellers: list[tuple[str, Callable[[Refusal], Said]]] = [
        ("database Syntax", syntax_of_database),
        ("query Syntax", syntax_of_query),
        ("edits Syntax", syntax_of_edits),
        ("read of ", why_unread),
        ("query UnknownRelation", relation_unknown),
        ("edits UnknownRelation", relation_unknown),
        ("query Arity", terms_of),
        ("database Arity", values_of),
        ("edits Arity", values_of),
        ("query Sort", relations_of),
        ("database Sort", sort_of_column),
        ("edits Sort", sort_of_column),
        ("edits Column", relations_of),
        ("query UnknownSort", sorts_of),
        ("query Unbound", wildcard_or_text),
        ("canon needs", times_of),
        ("count needs", times_of),
        ("ranges needs", columns_of_head),
        ("more than 1000000 formulas", lambda _: Said("")),
        ("more than", cells_of),
        ("period above", lambda refusal: numbers_of(refusal, "periods", PERIOD)),
        ("bound above", lambda refusal: numbers_of(refusal, "numbers", NUMBER)),
    ]
    return next((tell(refusal) for front, tell in tellers if refusal.line.startswith("refused: " + front)), Said(""))


def why_unread(refusal: Refusal) -> Said:
    """Why a file can't be read; nothing of what is no file or folder, since a pipe may keep its reader waiting."""
    key = {"database": "db"}.get(refusal.line.rpartition(" ")[2], refusal.line.rpartition(" ")[2])
    file = refusal.file(key)
    if re.search(r"[{}(|;]", file) and not os.path.exists(file):
        begin = ("a query that is given here begins with '{', or with 'define' where its '{' comes later" if key == "query"
                 else "the text goes into a file of its own")
        return Said(f"'{file}' looks like a text and not like the name of a file; {begin}.", is_all=True)
    try:
        mode = os.stat(file).st_mode
        if stat.S_ISREG(mode) or stat.S_ISDIR(mode):
            with open(file, "rb") as opened:
                opened.read(1)
    except (OSError, ValueError) as error:
        return Said(f"The file that '{key}=' names can't be read: {file}: {getattr(error, 'strerror', None) or error}.", is_all=True)
    return Said("")


def syntax_of_database(refusal: Refusal) -> Said:
    """What is wrong where a database has its fault of syntax: a known mistake, a civil value, or what may stand there."""
    text, place = text_to(refusal.file("db"), refusal.numbers)
    if place is None:
        return Said("")
    is_civil, has_paces = refusal.has("civil"), refusal.has("wide")
    plain = plain_text(text, has_paces) if is_civil else text
    return (other_kind(refusal, "db") or known(fault_of_civil(text, place, is_civil, has_paces, refusal.takes("wide")))
            or known(hint_of(plain, place, Grammar.DATABASE)) or possible(plain, place, Grammar.DATABASE))


def syntax_of_query(refusal: Refusal) -> Said:
    """The same of a query."""
    text, place = text_to(refusal.file("query"), refusal.numbers)
    if place is None:
        return Said("")
    other = other_kind(refusal, "query")
    if other:
        return other
    rest = after_line(refusal)
    if refusal.has("wide"):
        return syntax_of_wide(refusal, text, rest, place)
    grammar = Grammar.TENSE if refusal.has("tense") else Grammar.QUERY
    whole = text + rest
    hint, keys = star(refusal, whole, place) or hint_of(whole, place, grammar), wide_keys(refusal, whole)
    if hint:
        return Said(f"{hint} Or give {keys}: then it may be written so." if keys else hint, is_all=True)
    if keys and not read(whole, Grammar.TENSE).is_whole:
        return Said(f"This is in the wide language, which is read with {keys}.", is_all=True)
    return possible(text, place, grammar)


def syntax_of_wide(refusal: Refusal, text: str, rest: str, place: int) -> Said:
    """The same of a query in the wide language; `rest` stands after the line of the fault."""
    is_civil = refusal.has("civil")
    plain = plain_text(text) if is_civil else text
    return (known(fault_of_date(text, place, is_civil)) or known(hint_of(plain + rest, place, Grammar.WIDE))
            or possible(plain, place, Grammar.WIDE))


def wide_keys(refusal: Refusal, text: str) -> str:
    """The keys with which a query is read as it is; empty where the wide language doesn't have it either, or the command
    doesn't take it."""
    if not refusal.takes("wide"):
        return ""
    if is_wide(text):
        return "wide=yes"
    if is_wide(plain_text(text)):
        return "wide=yes" if refusal.has("civil") else "wide=yes and civil=yes"
    return ""


def after_line(refusal: Refusal) -> str:
    """What stands in a query after the line of a fault."""
    lines = read_lines(refusal.file("query")) or []
    return "".join("\n" + line.decode(errors="replace") for line in lines[int(refusal.numbers["line"]):])


def star(refusal: Refusal, text: str, place: int) -> str:
    """A `*` in place of a term."""
    if text[place:place + 1] != "*" or text[:place].rstrip()[-1:] not in ("(", ","):
        return ""
    written = with_variables(text, place, columns_of(refusal.file("db")))
    return no_wildcard(written) if written else ""


def no_wildcard(written: str) -> str:
    """What to write in place of an atom with a wildcard."""
    return ("There is no wildcard: a column that doesn't matter has a variable of its own, bound directly around the atom:"
            f" {written}.")


def syntax_of_edits(refusal: Refusal) -> Said:
    """The same of a list of edits."""
    text, place = text_to(refusal.file("edits"), refusal.numbers)
    if place is None:
        return Said("")
    return other_kind(refusal, "edits") or known(hint_of(text, place, Grammar.EDITS)) or possible(text, place, Grammar.EDITS)


def known(hint: str) -> Said | None:
    """A mistake that is known, with what to write instead."""
    return Said(hint, is_all=True) if hint else None


def possible(text: str, place: int, grammar: Grammar) -> Said:
    """What may stand at a fault of syntax."""
    told = fault_of_syntax(text, place, grammar)
    return Said(told, has_remedy=bool(told))


def other_kind(refusal: Refusal, key: str) -> Said | None:
    """Whether a file is of the kind that another key names."""
    kind = kind_of(refusal.file(key))
    if kind in ("", key):
        return None
    if kind_of(refusal.file(kind)) == key:
        return Said(f"The files of '{key}=' and '{kind}=' are exchanged: '{refusal.file(key)}' is {KINDS[kind]}, and"
                    f" '{refusal.file(kind)}' is {KINDS[key]}.", is_all=True)
    return Said(f"'{refusal.file(key)}' is {KINDS[kind]}, and '{key}=' names {KINDS[key]}.", is_all=True)


def kind_of(file: str) -> str:
    """The key that names files that begin as this one; empty where it can't be told."""
    text = text_of(file).removeprefix(BYTE_ORDER_MARK).lstrip()
    return next((key for key, front in BEGINNINGS.items() if re.match(front, text)), "")


def text_to(file: str, numbers: dict[str, str]) -> tuple[str, int | None]:
    """A file up to the end of the line of a fault, and the fault's place in it; none where it can't be read again."""
    lines = read_lines(file)
    line, column = int(numbers["line"]), int(numbers["column"])
    if lines is None or line > len(lines):
        return "", None
    front = b"\n".join([*lines[:line - 1], lines[line - 1][:column - 1]]).decode(errors="replace")
    rest = lines[line - 1][column - 1:].decode(errors="replace")
    return front + rest, len(front)


def from_place(refusal: Refusal, key: str) -> tuple[str, str]:
    """The text before the place of a refusal, and from there on, both without comments that begin after it."""
    lines = read_lines(refusal.file(key)) or []
    line, column = int(refusal.numbers["line"]), int(refusal.numbers["column"])
    if line > len(lines):
        return "", ""
    before = b"\n".join([*lines[:line - 1], lines[line - 1][:column - 1]])
    after = b"\n".join([lines[line - 1][column - 1:], *lines[line:line + 50]])
    return before.decode(errors="replace"), re.sub(r"#[^\n]*", "", after.decode(errors="replace"))


def columns_of(file: str) -> dict[str, list[str]]:
    """The columns of each relation of a database, as they are written."""
    return {name: columns_in(columns) for name, columns in RELATION.findall(text_of(file))}


def columns_in(text: str) -> list[str]:
    """The columns in a pair of parentheses."""
    return [" ".join(column.split()) for column in text.split(",") if column.strip()]


def shown(relations: dict[str, list[str]]) -> str:
    """Some relations with their columns, as the end of a sentence."""
    first = [f"{name}({', '.join(columns)})" for name, columns in list(relations.items())[:8]]
    return ", ".join(first) + (" and more." if len(relations) > 8 else ".")


def relations_of(refusal: Refusal) -> Said:
    """The relations of a database, with their columns."""
    found = columns_of(refusal.file("db"))
    if not found:
        return Said("")
    return Said("Its relations are " + shown(found), has_remedy=True)


def relation_unknown(refusal: Refusal) -> Said:
    """The relation whose name is nearest, and all of them."""
    relations = relations_of(refusal)
    before, after = from_place(refusal, "edits" if "edits" in refusal.line else "query")
    name = re.match(r"\w*", after, re.ASCII).group()  # type: ignore[union-attr]
    defined, later = definitions_in(refusal, before.rpartition(";")[0]), definitions_in(refusal, after)
    if name in later or re.search(rf"\bdefine\s+{name}\s*\([^;]*$", before, re.ASCII) and refusal.has("wide"):
        return Said(f"The definition of '{name}' doesn't stand before this place: a definition may name those before it.", is_all=True)
    close = get_close_matches(name, [*columns_of(refusal.file("db")), *defined], 1, 0.6)
    nearest = f"The nearest name is '{close[0]}'. " if close else ""
    also = f" Defined before this place: {shown(defined)}" if defined else ""
    return Said(nearest + relations.text + also, has_remedy=relations.has_remedy)


def definitions_in(refusal: Refusal, text: str) -> dict[str, list[str]]:
    """The columns of each definition that begins in a part of a query in the wide language, as they are written."""
    text = without_texts_and_comments(text) if refusal.has("wide") else ""
    return {name: columns_in(columns) for name, columns in DEFINITION.findall(text)}


def count(number: int, what: str) -> str:
    """A number of things, in words."""
    return f"{number} {what}" + ("s" if number != 1 else "")


def things_in(after: str) -> int | None:
    """How many values or terms stand in the first parentheses of a text."""
    opened = after.find("(")
    # The letters of texts could be parentheses.
    end = re.sub(r'"(?:[^"\\\n]|\\.)*"', lambda text: "x" * len(text.group()), after).find(")", opened)
    if opened < 0 or end < 0:
        return None
    inside = after[opened + 1:end]
    if not inside.strip():
        return 0
    return 1 + COMMA_OR_TEXT.findall(inside).count(",")


def terms_of(refusal: Refusal) -> Said:
    """How many columns a relation has, and how many terms are given."""
    before, after = from_place(refusal, "query")
    name = re.match(r"\w*", after, re.ASCII).group()  # type: ignore[union-attr]
    relations, defined = columns_of(refusal.file("db")), definitions_in(refusal, before)
    columns, given = relations.get(name, defined.get(name)), things_in(after)
    if columns is None or given is None:
        return Said("")
    is_are, what = "is" if given == 1 else "are", "relation" if name in relations else "definition"
    other = "a '*'" if refusal.has("wide") else "a variable of its own under an 'exists'"
    return Said(f"The {what} '{name}' has {count(len(columns), 'column')}, but {count(given, 'term')} {is_are} given:"
                f" {name}({', '.join(columns)}). A column that doesn't matter gets {other}.", is_all=True)


def values_of(refusal: Refusal) -> Said:
    """How many columns a relation has, and how many values a row gives."""
    key = "edits" if "edits" in refusal.line else "db"
    before, after = from_place(refusal, key)
    names = re.findall(r"[+-]\s*(\w+)\s*$", before) if key == "edits" else [name for name, _ in RELATION.findall(before)]
    columns, given = columns_of(refusal.file("db")).get(names[-1] if names else ""), things_in(after)
    if columns is None or given is None:
        return Said("")
    return Said(f"The relation '{names[-1]}' has {count(len(columns), 'column')}, but the row has {count(given, 'value')}:"
                f" {names[-1]}({', '.join(columns)}).", is_all=True)


def sort_of_column(refusal: Refusal) -> Said:
    """The column that a value stands in; a sort that is nearly 'time' is a sort of texts."""
    key = "edits" if "edits" in refusal.line else "db"
    before, _ = from_place(refusal, key)
    row = re.search(r"(\w+)\s*\(([^()]*)$" if key == "edits" else r"()\(([^()]*)$", before)
    names = [row[1]] if row and key == "edits" else [name for name, _ in RELATION.findall(before)]
    columns = columns_of(refusal.file("db")).get(names[-1] if names else "")
    place = COMMA_OR_TEXT.findall(row[2]).count(",") if row else 0
    if columns is None or place >= len(columns):
        return Said("")
    name, _, sort = (part.strip() for part in columns[place].partition(":"))
    if sort == "time":
        return Said(f"The column '{name}' is of sort time, so it holds points and numbers, and no texts.", is_all=True)
    wrong = f" Capitals count: times are of the sort 'time', and '{sort}' is a sort of texts." if sort.lower() == "time" else ""
    return Said(f"The column '{name}' is of sort {sort}, so it holds texts, which stand between quotes.{wrong}", is_all=True)


def sorts_of(refusal: Refusal) -> Said:
    """The sorts of a database's columns."""
    _, after = from_place(refusal, "query")
    name = re.match(r"\w*", after, re.ASCII).group()  # type: ignore[union-attr]
    if name.lower() in ("time", "data"):
        return Said(f"Capitals count: write '{name.lower()}'.", is_all=True)
    sorts = [column.rpartition(":")[2].strip() for columns in columns_of(refusal.file("db")).values() for column in columns]
    return Said("Its sorts are " + ", ".join(dict.fromkeys(sorts)) + "." if sorts else "", has_remedy=bool(sorts))


def wildcard_or_text(refusal: Refusal) -> Said:
    """What a name that nothing binds was meant to be."""
    before, after = from_place(refusal, "query")
    name = re.match(r"\w*", after, re.ASCII).group()  # type: ignore[union-attr]
    if not name:
        return Said("")
    text, place = text_to(refusal.file("query"), refusal.numbers)
    if name == "_" and refusal.has("wide"):
        return Said("A column that doesn't matter has a '*' in place of a term.", is_all=True)
    written = with_variables(text + after_line(refusal), place, columns_of(refusal.file("db"))) if name == "_" and place else ""
    if written:
        return Said(no_wildcard(written) + " Or give wide=yes, and write '*'.", is_all=True)
    bound = re.findall(rf"\b(exists|forall)\s+{name}\s*:\s*(\w+)", without_texts_and_comments(before), re.ASCII)
    if bound:
        word, sort = bound[-1]
        return Said(f"'{word} {name}: {sort}' takes the one formula after it, and ends before this place; what it is to reach"
                    f" over stands in parentheses: {word} {name}: {sort} (F and G).", is_all=True)
    if "{" not in without_texts_and_comments(before):
        return Said(f"No column of the definition and no quantifier around it names '{name}'. Of a definition its columns alone are"
                    f" free; another variable is named by an 'exists {name}: time', and a text stands between quotes: \"{name}\".",
                    is_all=True)
    return Said(f"No column of the head and no quantifier around it names '{name}'. A column of the answer is named before the"
                f" '|', another variable by an 'exists {name}: time'; a text stands between quotes: \"{name}\".", is_all=True)


def times_of(refusal: Refusal) -> Said:
    """The columns of sort time that the head of a query has."""
    head = HEAD.search(text_of(refusal.file("query")))
    names = TIME.findall(head.group(1)) if head else []
    return Said("Its columns of sort time are " + ", ".join(names) + "." if names else "")


def columns_of_head(refusal: Refusal) -> Said:
    """All columns that the head of a query has."""
    head = HEAD.search(text_of(refusal.file("query")))
    columns = [" ".join(column.split()) for column in head.group(1).split(",")] if head else []
    return Said("Its columns are " + ", ".join(columns) + "." if any(columns) else "The head has no column." if head else "")


def numbers_of(refusal: Refusal, what: str, pattern: re.Pattern[str]) -> Said:
    """The greatest of some numbers in both files, or an edit."""
    if refusal.numbers.get("edit"):
        return edit_of(refusal)
    database = text_of(refusal.file("db"))
    texts = (plain_text(database, refusal.has("wide")) if refusal.has("civil") else database, text_of(refusal.file("query")))
    found = {int(number) for text in texts for number in pattern.findall(text) if len(number) < 25}
    greatest = [str(number) for number in sorted(found, reverse=True)[:4]]
    return Said(f"The greatest {what} in both files are " + ", ".join(greatest) + "." if len(greatest) > 1 else "")


def text_of(file: str) -> str:
    """The text of a regular file without its comments; empty where it can't be read again."""
    try:
        text = Path(file).read_text(errors="replace") if Path(file).is_file() else ""
    except (OSError, ValueError):
        return ""
    return re.sub(r"#[^\n]*", "", text)


def edit_of(refusal: Refusal) -> Said:
    """The edit of the refusal's number, from 1, as the file has it."""
    text, number = text_of(refusal.file("edits")), int(refusal.numbers["edit"])
    ends = [found.end() for found in TOKEN.finditer(text) if found.group() == ";"]
    if not 1 <= number <= len(ends):
        return Said("")
    return Said(f"The edit is '{' '.join(text[ends[number - 2] if number > 1 else 0:ends[number - 1]].split())}'.")


def cells_of(refusal: Refusal) -> Said:
    """The edit or the step with too many cells, and what a higher cap may cost."""
    told = edit_of(refusal).text if refusal.numbers.get("edit") else step_of(refusal)
    return Said(" ".join(filter(None, [told, price_of(refusal.file("cap"))])))


def price_of(cap: str) -> str:
    """What a cap ten times as high may take on this machine; empty where there is no such cap."""
    higher = min(10 * int(cap or 1_000_000), 1_000_000_000) if cap.isascii() and cap.isdigit() or not cap else 0
    if higher < 1_000_000:
        return ""
    seconds = max(higher // CELLS_OF_SECOND, 1)
    time = f"{seconds} seconds" if seconds < 120 else f"{seconds // 60} minutes" if seconds < 7200 else f"{seconds // 3600} hours"
    machine = memory_of_machine()
    has = f"; this machine has {machine / 1e9:.0f} GB" if machine else ""
    return f"A step with {higher} cells may take {higher * BYTES_OF_CELL / 1e9:.1f} GB and {time}{has}."


def memory_of_machine() -> int:
    """The bytes of memory that the machine has; 0 where that isn't known."""
    try:
        return os.sysconf("SC_PHYS_PAGES") * os.sysconf("SC_PAGE_SIZE")
    except (OSError, ValueError):
        return 0


def step_of(refusal: Refusal) -> str:
    """The line of the plan for a step, which the program's own `explain` gives without computing anything."""
    files, step = refusal.files, refusal.numbers.get("step")
    if not step or not all(os.path.isfile(files.get(key, "")) for key in ("db", "query")):
        return ""
    keys = ("db", "query", "tense", "wide", "civil", "plan")
    words = [refusal.program, "explain", *(f"{key}={files[key]}" for key in keys if key in files)]
    try:
        done = subprocess.run(words, stdin=subprocess.DEVNULL, capture_output=True, text=True, timeout=5, check=False,
                              close_fds=False)
    except (OSError, subprocess.SubprocessError):
        return ""
    lines = (line for line in done.stdout.splitlines() if line.startswith(step + " "))
    return next((f"The step is '{line}'." for line in lines), "")
