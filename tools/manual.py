"""Help pages and documents as pages of the manual, in mdoc."""

import re
import textwrap


def escape(text: str) -> str:
    """Text as mdoc takes it: no backslash, dot or quote begins a request, and a minus is a minus."""
    text = text.replace("\\", "\\e").replace("-", "\\-")
    return "\\&" + text if text[:1] in (".", "'") else text


def unmarked(text: str) -> str:
    """A text without the marks of emphasis and of code; a '*' in code is no mark, nor is one that stands alone."""
    parts = re.split("`", text)
    return "".join(part if place % 2 else re.sub(r"\*+(\w[^*]*?)\*+", r"\1", part) for place, part in enumerate(parts)).replace("\\|", "|")


def paragraph(text: str) -> list[str]:
    """The lines of a paragraph, a sentence a line."""
    words = unmarked(" ".join(text.split()))
    sentences = re.split(r"(?<=[.:?!]) (?=[A-Z0-9'])", words)
    return [escape(line) for sentence in sentences for line in textwrap.wrap(sentence, 72, break_on_hyphens=False)]


def display(lines: list[str]) -> list[str]:
    """Lines as they stand."""
    margin = min(len(line) - len(line.lstrip()) for line in lines if line)
    return [".Bd -literal -offset indent", *(escape(line[margin:]) for line in lines), ".Ed"]


def page_of_help(text: str) -> list[str]:
    """A help page without its first lines: paragraphs, and displays where some lines are indented."""
    out: list[str] = []
    for part in re.split(r"\n\n+", text.strip("\n")):
        # Displays that follow one another are one.
        if part.startswith(" ") or "\n " in part:
            shown = display(part.split("\n"))
            if out and out[-1] == ".Ed":
                out[-1:] = ["", *shown[1:]]
            else:
                out += shown
        else:
            out += [".Pp", *paragraph(part)]
    return out


def page_of_markdown(text: str) -> list[str]:
    """A document: headings, paragraphs, lists, tables and indented blocks."""
    out: list[str] = []
    for part in re.split(r"\n\n+", text.strip("\n")):
        if part.startswith("## "):
            out.append(".Sh " + part[3:].upper())
        elif part.startswith("### "):
            out.append(".Ss " + part[4:])
        elif part.startswith("    "):
            out += display(part.split("\n"))
        elif part.startswith("|"):
            out += table(part.split("\n"))
        elif part.startswith("- "):
            items = re.split(r"(?m)^- ", part)[1:]
            out += [".Bl -bullet -compact", *(line for item in items for line in [".It", *paragraph(item)]), ".El"]
        elif not part.startswith("# "):
            out += [".Pp", *paragraph(part)]
    # A paragraph's break has no meaning after a heading.
    return [line for before, line in zip(["", *out], out) if not (line == ".Pp" and before.startswith((".Sh", ".Ss")))]


def table(lines: list[str]) -> list[str]:
    """A table as a list: its first cell is what the others are said of."""
    heads, _, *rows = [[cell.strip() for cell in re.split(r"(?<!\\)\|", line.strip("|"))] for line in lines]
    out = [".Bl -tag -width Ds"]
    for row in rows:
        out.append(".It " + escape(unmarked(row[0])).replace('"', "\\(dq"))
        for head, cell in zip(heads[1:], row[1:]):
            if cell:
                # A head of many words goes without saying in a list.
                out += paragraph(f"{head}: {cell}" if len(heads) > 2 and len(head) < 40 else cell) + [".br"]
        if out[-1] == ".br":
            out.pop()
    return [*out, ".El"]
