"""What a refusal of the program means, and what to do: for standard error, and for the shell of the workbench.

    explain.py PROGRAM LINE WORD ..

LINE is what the program wrote for these words, or empty where its output could not be written.
"""

import io
import os
import shutil
import sys
import textwrap

from catalogue import Entry, find_entry
from details import Refusal, Said, said_of
from places import WORD, Place, caret_line, clean, show_place
from usage import find_fault


def main(program: str, line: str, words: list[str]) -> None:
    """Explains a refusal's line, or without one an output that could not be written, for the launcher."""
    if isinstance(sys.stdout, io.TextIOWrapper):
        sys.stdout.reconfigure(errors="replace")
    width = width_of_terminal()
    print(explain(program, words, line, width, given_files()) if line else explain_unwritten(width), end="")


def given_files() -> dict[str, str]:
    """The files of texts that stood in the launcher's words, by their keys."""
    return dict(word.split("=", 1) for word in os.environ.get("FIZHEDUL_GIVEN", "").split())


def explain(program: str, words: list[str], line: str, width: int, given: dict[str, str] | None = None) -> str:
    """The explanation of a refusal line that the program wrote for these words; empty where there is none.

    `given` has the files of texts that have no name of their own, by their keys.
    """
    shown, parts = explanation(program, words, line, width, given or {})
    return shown + wrapped(parts, width)


def explanation(program: str, words: list[str], line: str, width: int, given: dict[str, str]) -> tuple[str, list[str]]:
    """What is shown of the place that a refusal speaks of, and the paragraphs that explain it."""
    found = find_entry(line)
    if found is None:
        return "", []
    entry, numbers = found
    if line == "refused: usage":
        return explain_usage(words, width, given)
    files = dict(word.split("=", 1) for word in words[1:] if "=" in word)
    shown = ""
    place = numbers.groupdict()
    which = key_of(line)
    if place.get("line"):
        name = which if which in given else files.get(which, "")
        shown = show_place(Place(files.get(which, ""), int(place["line"]), int(place["column"])), width, name)
    return shown, paragraphs_on(Refusal(program, files, line, place, words[0]), entry)


def key_of(line: str) -> str:
    """The key of the file that a refusal's line speaks of."""
    what = line.removeprefix("refused: ").removeprefix("read of ").split()[0]
    return what if what in ("query", "edits") else "db"


def explain_unwritten(width: int) -> str:
    """The explanation of an output that could not be written."""
    found = find_entry("no line, status 7")
    return wrapped(paragraphs(found[0], Said("")), width) if found else ""


def explain_usage(words: list[str], width: int, given: dict[str, str]) -> tuple[str, list[str]]:
    """The words with a caret under the wrong one, and what is wrong with it."""
    fault = find_fault(words)
    if fault is None:
        return "", []
    words = [f"{word.split('=')[0]}=.." if word in (f"{key}={file}" for key, file in given.items()) else word for word in words]
    before = " ".join(["fizhedul", *words[:fault.word]]) + " "
    wrong = words[fault.word] if fault.word < len(words) else ""
    # A blank in a word would end the caret's tail.
    text = before + wrong.replace(" ", "_") + " " + " ".join(words[fault.word + 1:])
    shown = caret_line(text.encode(errors="replace"), len(before.encode(errors="replace")), width, WORD)
    return shown, [clean(fault.means), clean(fault.to_do)]


def paragraphs(entry: Entry, said: Said) -> list[str]:
    """What is known of this case, and of the entry's two sentences what that doesn't say better."""
    parts = [] if said.is_all else [entry.means]
    parts += [clean(said.text)] if said.text else []
    return parts + ([] if said.is_all or said.has_remedy else [entry.to_do])


def paragraphs_on(refusal: Refusal, entry: Entry) -> list[str]:
    """The paragraphs that explain a refusal. What was done already isn't asked for."""
    parts = paragraphs(entry, said_of(refusal))
    is_guarded = refusal.files.get("plan") == "guarded"
    return [part.replace("Ask with plan=guarded; see", "See") if is_guarded else part for part in parts]


def wrapped(parts: list[str], width: int) -> str:
    """Paragraphs in lines of at most `width`."""
    return "".join(wrap(part, width) for part in parts)


def wrap(text: str, width: int) -> str:
    """A paragraph in lines of at most `width`."""
    return textwrap.fill(text, max(width - 1, 30), break_long_words=False, break_on_hyphens=False) + "\n"


def width_of_terminal() -> int:
    """The width of the terminal that standard error is."""
    try:
        return os.get_terminal_size(2).columns or 80
    except OSError:
        return shutil.get_terminal_size((80, 24)).columns


if __name__ == "__main__":
    main(sys.argv[1], sys.argv[2], sys.argv[3:])
