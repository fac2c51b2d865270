"""Random words against the grammar of commands, and the sample against a count of its own."""

import random
import re

import civil
from common import refusal

USAGE = b"refused: usage\n"
REQUIRED = {
    "ask": {"db", "query"},
    "decide": {"db", "query"},
    "list": {"db", "query", "from", "to"},
    "count": {"db", "query", "from", "to"},
    "ranges": {"db", "query", "from", "to"},
    "explain": {"db", "query"},
    "check": {"db"},
    "lint": {"db"},
    "sample": {"seed", "size"},
    "watch": {"db", "query", "edits"},
}
FURTHER = {
    "ask": {"as", "cap", "civil", "tense", "wide", "canon", "plan"},
    "decide": {"cap", "civil", "tense", "wide", "plan", "show"},
    "list": {"limit", "after", "form", "cap", "civil", "tense", "wide", "plan"},
    "count": {"cap", "civil", "tense", "wide", "plan"},
    "ranges": {"limit", "form", "cap", "civil", "tense", "wide", "plan"},
    "explain": {"civil", "tense", "wide", "plan"},
    "check": {"civil"},
    "lint": {"query", "civil", "tense"},
    "sample": set(),
    "watch": {"cap", "kept", "plan"},
}
RANGES = {
    "cap": (1, 10**9),
    "limit": (1, 10**6),
    "seed": (0, 10**6),
    "size": (1, 500),
    "from": (-(2**62), 2**62),
    "to": (-(2**62), 2**62),
}
CHOICES = {
    "form": ("plain", "json"),
    "civil": ("yes", "no"),
    "tense": ("yes", "no"),
    "wide": ("yes", "no"),
    "canon": ("yes", "no"),
    "plan": ("written", "guarded"),
    "show": ("minutes", "dates"),
    "kept": ("yes", "auto"),
}
RESERVED = ("relation", "where", "time", "data", "n", "exists", "forall", "not", "and", "or", "implies", "in")
VALUES = (
    "",
    "none",
    "a=b",
    "0",
    "1",
    "-1",
    "-0",
    "00",
    "01",
    "+1",
    "500",
    "501",
    "1000000",
    "1000001",
    "1000000000",
    "1000000001",
    "4611686018427387904",
    "-4611686018427387904",
    "4611686018427387905",
    "-4611686018427387905",
    "18446744073709551617",
    "plain",
    "json",
    "written",
    "guarded",
    "minutes",
    "dates",
    "auto",
    "Plain",
    "yes",
    "no",
    "Yes",
    "2024-02-29T08:15",
    "2023-02-29T08:15",
    "2024-02-29 08:15",
    "T1/5/",
    " 5",
    "5 ",
    "é",
    "=",
)
ODD = ("", "=", "db", "query", "=none", "db none", "DB=none", "Ask", "help", "--help", "-", "ask", "list", "check")


def is_value(key, value, is_civil):
    if key in ("from", "to") and is_civil:
        return civil.minute_of(value) is not None
    if key in RANGES:
        if not re.fullmatch(r"0|-?[1-9][0-9]*" if key in ("from", "to") else r"0|[1-9][0-9]*", value):
            return False
        least, most = RANGES[key]
        return least <= int(value) <= most
    if key in CHOICES:
        return value in CHOICES[key]
    if key == "as":
        return bool(re.fullmatch(r"[A-Za-z_][A-Za-z0-9_]*", value)) and value not in RESERVED
    return key == "after" or value != ""


def is_command(words):
    if not words or words[0] not in REQUIRED:
        return False
    required, known = REQUIRED[words[0]], REQUIRED[words[0]] | FURTHER[words[0]]
    seen = set()
    for word in words[1:]:
        key, found, value = word.partition("=")
        if not found or key not in known or key in seen or not is_value(key, value, "civil=yes" in words[1:]):
            return False
        seen.add(key)
    return required <= seen and ("show=dates" not in words[1:] or "civil=yes" in words[1:])


def random_words(chance):
    command = chance.choice(sorted(REQUIRED))
    keys = sorted(REQUIRED[command]) + [key for key in sorted(FURTHER[command]) if chance.random() < 0.4]
    words = ["%s=%s" % (key, good_value(chance, key)) for key in keys]
    if "civil=yes" in words and chance.random() < 0.8:
        words = [good_end(chance, word) for word in words]
    chance.shuffle(words)
    words.insert(0, command)
    for _ in range(chance.choice((0, 0, 1, 1, 2))):
        at = chance.randrange(len(words))
        kind = chance.random()
        if kind < 0.5 and at:
            words[at] = words[at].partition("=")[0] + "=" + chance.choice(VALUES)
        elif kind < 0.65:
            words[at] = chance.choice(ODD)
        elif kind < 0.8:
            words.insert(at, words[at])
        elif kind < 0.9:
            del words[at]
        else:
            words.append(
                "%s=%s"
                % (
                    chance.choice(
                        (
                            "db",
                            "cap",
                            "limit",
                            "form",
                            "seed",
                            "size",
                            "after",
                            "from",
                            "plan",
                            "civil",
                            "tense",
                            "canon",
                            "plan",
                            "x",
                            "Db",
                            "db ",
                        )
                    ),
                    chance.choice(VALUES),
                )
            )
        if not words:
            break
    return words


def good_value(chance, key):
    if key in RANGES:
        least, most = RANGES[key]
        return chance.choice((least, most, 1, chance.randint(least, most)))
    of_key = {**CHOICES, "after": ("", "T1/5/", "=", "none"), "as": ("answer", "b_1", "n", "9x")}
    return chance.choice(of_key.get(key, ("none", "none", "a=b", "é")))


def good_end(chance, word):
    """The word, or where it is an end of a window, one by a date."""
    key = word.partition("=")[0]
    number = chance.choice((civil.FIRST, civil.LAST, 0, chance.randint(civil.FIRST, civil.LAST)))
    return "%s=%s" % (key, civil.as_end(number)) if key in ("from", "to") else word


def words(program, tally, seeds):
    """Words that spell a command come to its first file, which is not there; all others are refused before."""
    for seed in seeds:
        these = random_words(random.Random(seed))
        if not is_command(these):
            program.expect(USAGE, 2, *these)
        elif these[0] != "sample":
            program.expect(refusal("read of", "database"), 6, *these)


def sample_lines(seed, size):
    trips = [((seed + 37 * i) % 1440, 10 + i % 50, "L%d" % (i % 10)) for i in range(size)]
    departures = {leave for leave, _, _ in trips}
    found = {
        (leave, line)
        for leave, length, line in trips
        if not any((leave + length + wait) % 1440 in departures for wait in range(16))
    }
    every = [(leave + day, line) for leave, line in found for day in (0, -1440)]
    first = min(every, key=lambda it: (abs(it[0]), it[0] < 0, it[1]), default=None)
    shown = "none" if first is None else '%d, "%s"' % first
    return "rows %d\ncells %d\nfirst %s\nwindow %d\n" % (size, len(found), shown, len(found))


def samples(program, tally, few=False):
    chance = random.Random(3)
    sizes = (1, 2, 3, 10, 20) if few else (1, 2, 3, 4, 5, 7, 10, 13, 20, 30, 40, 60, 100, 500)
    for size in sizes:
        for seed in (0, 1, 1000000, chance.randint(0, 1000000)):
            program.expect(sample_lines(seed, size).encode(), 0, "sample", "seed=%d" % seed, "size=%d" % size)
