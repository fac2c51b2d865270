"""Refusals of the program, explained as the launcher explains them, in the words of the shell."""

import shutil
from collections.abc import Mapping

from catalogue import find_entry
from explain import explanation, given_files, wrapped

from ..program import Output, explaining_program

# What the shell has in place of the keys of commands.
IN_THE_SHELL = {
    "Ask with plan=guarded; see": "Say '.plan guarded'; see",
    "give a higher 'cap='": "give a higher cap by '.cap N'",
    "'explain'": "'.explain'",
    "give tense=yes for": "say '.tense on' for",
    "give civil=yes for": "say '.civil on' for",
    "wide=yes and civil=yes": "wide=yes and '.civil on'",
    "Or give wide=yes": "Or say '.wide on'",
    "wide=yes": "'.wide on'",
    "and give civil=yes": "and say '.civil on'",
    "are read with tense=yes": "are read after '.tense on'",
    "are read with civil=yes": "are read after '.civil on'",
    "For 'count'": "For '.count'",
    "For 'ranges'": "For '.ranges'",
    "'list' takes every head": "a query by itself has any head",
    "; or give kept=auto": "",
    "with kept=auto a step": "a step",
    "With canon=yes": "After '.canon on'",
    "leave out canon=yes": "say '.canon off'",
}


def told(output: Output, query: str, definitions: Mapping[str, str]) -> str:
    """A refusal's line, and after it its place and what it means; `query` is the file of the query that was typed,
    which has these definitions before it. The place is that in the query, or in the definition, as it was typed."""
    line = output.refusal
    if not line:
        return f"the program ended with status {output.status}"
    width = shutil.get_terminal_size((100, 24)).columns
    files = given_files() | {"query": query}
    shown, parts = explanation(explaining_program(), list(output.words), line, width, files)
    line, shown = as_typed(line, shown, definitions)
    explained = shown + wrapped([in_the_shell(part) for part in parts], width)
    return f"{line}\n{explained}".rstrip("\n")


def as_typed(line: str, shown: str, definitions: Mapping[str, str]) -> tuple[str, str]:
    """A refusal's line and what is shown of its place, counted from where the query or the definition begins."""
    found = find_entry(line)
    numbers = found[1].groupdict() if found and line.startswith("refused: query ") else {}
    if not definitions or not numbers.get("line"):
        return line, shown
    name, own, column = "query", int(numbers["line"]), numbers["column"]
    for defined, text in definitions.items():
        lines = text.count("\n") + 1
        if own <= lines:
            name = defined
            break
        own -= lines
    place = f"{numbers['line']}:{column}"
    of = "" if name == "query" else f" of '{name}'"
    line = line.replace(f" at {place}", f" at {own}:{column}{of}")
    return line, shown.replace(f"query:{place}\n", f"{name}:{own}:{column}\n", 1)


def in_the_shell(text: str) -> str:
    """A paragraph with the shell's words in place of the keys of commands."""
    for key, here in IN_THE_SHELL.items():
        text = text.replace(key, here)
    return text
