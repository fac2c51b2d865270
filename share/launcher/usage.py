"""Which of the program's words is wrong, why, and what is nearest to it."""

import difflib
import re
from typing import NamedTuple

from civil import is_window_end
from grammar import RESERVED
from table import LIMIT, SHARE, Key, read_table

WHOLE = re.compile(r"0|[1-9][0-9]*")
NAME = re.compile(r"[A-Za-z_][A-Za-z0-9_]*", re.ASCII)
DAY = re.compile(r"[0-9]{4}-[0-9]{2}-[0-9]{2}", re.ASCII)
SIGNED = re.compile(r"0|-?[1-9][0-9]*")
# What the launcher does itself, and the words of the workbench that have no keys.
OTHERS = ("import", "export", "help")
DATE = "a date and a time of day from 0001-01-01T00:00 to 9999-12-31T23:59, as 2024-02-26T08:15"


class Fault(NamedTuple):
    """A fault of the words. `word` is the number of the wrong word; that of the words' end where one is missing."""

    word: int
    means: str
    to_do: str


def find_fault(words: list[str]) -> Fault | None:
    """The first fault of these words, or none where they spell a command."""
    table = read_table()
    if not words:
        return Fault(0, "A command is missing.", "Begin with one of: " + ", ".join(table) + ". 'fizhedul help' says more.")
    command, *pairs = words
    if command not in table:
        names = list(dict.fromkeys([*table, *read_table(SHARE / "workbench"), *OTHERS]))
        return Fault(0, f"'{command}' is no command.", nearest(command, names, "command"))
    seen: set[str] = set()
    is_civil = "civil=yes" in pairs
    for number, word in enumerate(pairs, 1):
        fault = fault_of_word(table[command], word, seen, is_civil)
        if fault:
            return Fault(number, *fault)
    for key in table[command].values():
        if key.needed and key.name not in seen:
            return Fault(len(words), f"'{command}' needs the key '{key.name}'.", f"Add {key.name}={sample(key)}.")
    if "show=dates" in pairs and not is_civil:
        return Fault(words.index("show=dates"), "Dates are shown of civil times alone.", "Add civil=yes, or leave out show=dates.")
    return None


def fault_of_word(keys: dict[str, Key], word: str, seen: set[str], is_civil: bool) -> tuple[str, str] | None:
    """What is wrong with one word after the command, with what to do. Its key joins those that were seen."""
    command = next(iter(keys.values())).command
    name, sign, value = word.partition("=")
    if not sign:
        return fault_of_bare_word(keys, word, seen)
    if name not in keys:
        return f"'{command}' has no key '{name}'.", nearest(name, list(keys), "key")
    if name in seen:
        return f"The key '{name}' stands twice.", "Take out one of the two."
    seen.add(name)
    wanted = fault_of_value(keys[name], value, is_civil)
    if wanted is None:
        return None
    if keys[name].kind == "time" and DAY.fullmatch(value):
        civil = "" if is_civil else ", and add civil=yes"
        return f"'{value}' has no time of day.", f"Write {name}={value}T{'23:59' if name == 'to' else '00:00'}{civil}."
    if keys[name].kind == "time" and not is_civil and is_window_end(value.replace(" ", "T")):
        return f"'{value}' is a date, and times are numbers here.", f"Write {name}={value.replace(' ', 'T')}, and add civil=yes."
    shown = f"'{value}' is no value of '{name}'." if value else f"'{name}' has no value."
    table = " Tables are written by 'fizhedul export csv' and 'fizhedul export tsv'." if value in ("csv", "tsv") else ""
    return shown, f"Write {wanted}.{table}"


def fault_of_bare_word(keys: dict[str, Key], word: str, seen: set[str]) -> tuple[str, str]:
    """What is wrong with a word that has no '='."""
    command = next(iter(keys.values())).command
    means = f"'{word}' is no KEY=VALUE."
    if word in ("-h", "--help", "help"):
        return means, f"'fizhedul help {command}' shows the keys of '{command}'."
    if word in keys:
        return means, f"Write {word}={sample(keys[word])}, without a blank beside the '='."
    ending = word.rpartition(".")[2]
    for key in keys.values():
        if key.kind == "file" and key.of == [ending] and key.name not in seen:
            return means, f"Write {key.name}={word}."
    return means, "Write each word after the command as KEY=VALUE; the keys are " + ", ".join(keys) + "."


def fault_of_value(key: Key, value: str, is_civil: bool) -> str | None:
    """What is wanted of the value of a key, or none where the value is one."""
    if key.kind == "file":
        return None if value else "the name of a file, as " + sample(key)
    if key.kind == "time":
        return fault_of_date(value) if is_civil else fault_of_time(value)
    if key.kind == "number":
        low, high = int(key.of[0]), int(key.of[1])
        if WHOLE.fullmatch(value) and len(value) < 25 and low <= int(value) <= high:
            return None
        return f"a whole number from {low} to {high}, without leading zeros"
    if key.kind == "one":
        return None if value in key.of else " or ".join(key.of)
    if key.kind == "name":
        is_name = NAME.fullmatch(value) is not None and value not in RESERVED
        return None if is_name else "a name of letters, digits and '_', which begins with no digit and is no word of the language"
    return None


def fault_of_time(value: str) -> str | None:
    """What is wanted of an end of a window that is a number."""
    if SIGNED.fullmatch(value) and len(value) < 25 and abs(int(value)) <= LIMIT:
        return None
    return f"a whole number from -{LIMIT} to {LIMIT}, without leading zeros"


def fault_of_date(value: str) -> str | None:
    """What is wanted of an end of a window that is a date."""
    if is_window_end(value):
        return None
    return "civil=no beside a number, or " + DATE if SIGNED.fullmatch(value) else DATE


def nearest(word: str, names: list[str], what: str) -> str:
    """What to write in place of a word that is no name of this kind."""
    close = difflib.get_close_matches(word.lower(), names, 1, 0.5)
    others = ", ".join(names)
    if close:
        return f"The nearest {what} is '{close[0]}'; all of them are {others}."
    return f"Take one of: {others}."


def sample(key: Key) -> str:
    """What the value of a key may look like."""
    samples = {"file": "FILE." + "".join(key.of), "time": "NUMBER", "number": key.of[-1] if len(key.of) == 3 else "1", "name": "NAME"}
    return samples.get(key.kind, key.of[0] if key.of else "TOKEN")
