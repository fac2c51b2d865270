"""The editors' files, on every example and on faulty texts: each token has its class, and no fault is hidden.

Vim is run. The grammar of Visual Studio Code is read here by the rules of TextMate grammars that it uses: of the
patterns, the one that matches first in the line is taken, and of several at one place the first one.
"""

import json
import re
import subprocess
import tempfile
import unittest
from pathlib import Path

from support import TOP, environment, need

# The seconds that Vim may take on a busy machine.
PATIENCE = 1200
RESERVED = ["relation", "where", "exists", "forall", "implies", "not", "and", "or", "in"]
# What stands after the word of a temporal operator: a name.
OPERATORS = ["once", "always", "since", "until"]
BEFORE_NAME = rf"\s+(?!(?:{'|'.join([*RESERVED, 'time', 'data', 'n'])})\b)[A-Za-z_]"
# The tokens of the language, each with its class; a name's class also depends on what stands around it.
TOKENS = re.compile(r"""
    (?P<comment>\#[^\n]*) | (?P<text>"(?:[^"\\\n]|\\.)*") | (?P<number>(?:daily|weekly\ (?:mon|tue|wed|thu|fri|sat|sun)
    |(?:on|every\ [1-9]\d*\ (?:minutes|hours|days|weeks)\ from)\ \d{4}-(?:0[1-9]|1[0-2])-(?:0[1-9]|[12]\d|3[01]))\ (?:[01]\d|2[0-3]):[0-5]\d(?!\d)|[0-9]+) | (?P<name>[A-Za-z_]\w*)
    | (?P<operator><=|>=|!=|[-<>=+*]) | (?P<delimiter>[(){},:;|]) | (?P<blank>[ \t\r]+) | (?P<error>".*|.)""",
                    re.VERBOSE | re.ASCII)
# What can't stand in a text, beside the escapes of quotes and backslashes, which are whole.
IN_TEXT = re.compile(r'(?P<escape>\\["\\])|(?P<error>\\.|[\x00-\x1f\x7f])')
FAULTY = 'relation r(t: time, d: data) {\n  (5+0n, "a\\x") where t ! 5;\n  (6, "b) ;\n  (7n, "\\"ü\\\\");\n}\n'
CIVIL = 'relation on(daily: time) { # daily 08:15\n' + "".join(f"  ({value});\n" for value in (
    "daily 08:15", "daily 24:00", "daily  08:15", "daily 08:155", "_daily 08:15", "-weekly sun 23:59", "weekly mon 8:15",
    "weekly Mon 08:15", "on 2024-02-29 00:00", "on 2024-13-01 00:00", "on 2024-01-00 00:00", "on 24-01-01 00:00",
    "on 2024-12-31 23:59n", '"daily 08:15"')) + "}\n"
TENSE = """{ always: time | (once always (-5, 0) always always (0, 58) r(always) or since always (not until always (s(), always = 1), s())
 or once(always) or once in 1+2n or once + 1 < 3 or exists u: once bus(u) or exists since: time once since (0, 0) s()) } # once x
"""
WIDE = """define as(as: time, define: data) as define(as, *, define) and as != 5; # define x
define define()as every = 1;
{ define: time | define() or as(define, *) and not define != as }
relation every(t: time) { (every 3 days from 2026-01-05 08:15); (every 0 days from 2026-01-05 08:15); (every 3 days from 2026-01-05); }
"""
VIM = {"comment": "fizhedulComment", "text": "fizhedulText", "number": "fizhedulNumber", "operator": "fizhedulOperator",
       "delimiter": "fizhedulDelimiter", "keyword": "fizhedulKeyword", "type": "fizhedulType", "point": "fizhedulPoint",
       "sort": "fizhedulSort", "relation": "fizhedulRelation", "variable": "fizhedulName", "escape": "fizhedulEscape",
       "error": ("fizhedulError", "fizhedulBad")}
CODE = {"comment": "comment.line", "text": "string.quoted", "number": "constant.numeric", "operator": "keyword.operator",
        "delimiter": "punctuation", "keyword": "keyword.control", "type": "storage.type", "point": "constant.numeric.point",
        "sort": "entity.name.type", "relation": "entity.name.function", "variable": "variable.other",
        "escape": "constant.character.escape", "error": "invalid"}
DUMP = """
set nomore synmaxcol=0
filetype on
syntax on
let out = {}
for path in readfile($LISTED)
  execute 'edit' fnameescape(path)
  let lines = []
  for line in range(1, line('$'))
    let classes = []
    for col in range(1, strlen(getline(line)))
      call add(classes, synIDattr(synID(line, col, 1), 'name'))
    endfor
    call add(lines, classes)
  endfor
  let out[path] = lines
endfor
call writefile([json_encode(out)], $DUMPED)
qa!
"""

Token = tuple[int, int, int, str]


def tokens_of(text: str) -> list[Token]:
    """The tokens of a text, and what is no token: line, first byte, byte after the last, class."""
    found = []
    for line, content in enumerate(text.split("\n")):
        for match in TOKENS.finditer(content):
            kind = match.lastgroup or ""
            if kind == "name":
                kind = class_of_name(match.group(), content[:match.start()], content[match.end():])
            for start, end, part in parts_of(content, match, kind):
                if part != "blank":
                    found.append((line, len(content[:start].encode()), len(content[:end].encode()), part))
    return found


def parts_of(content: str, match: re.Match[str], kind: str) -> list[tuple[int, int, str]]:
    """The parts of a token: of a text its escapes and faults, else the token itself."""
    start, end = match.span()
    if kind != "text":
        return [(start, end, kind)]
    parts = []
    for inner in IN_TEXT.finditer(content, start, end):
        parts += [(start, inner.start(), kind), (*inner.span(), inner.lastgroup or "")]
        start = inner.end()
    return [*parts, (start, end, kind)]


def class_of_name(name: str, before: str, after: str) -> str:
    """The class of a name or a reserved word."""
    if name in RESERVED:
        return "keyword"
    if name in ("time", "data"):
        return "type"
    if name == "n":
        return "point"
    if before.rstrip().endswith(":"):
        return "sort"
    if name in [*OPERATORS, "define"] and re.match(BEFORE_NAME, after, re.ASCII):
        return "keyword"
    if name == "as" and re.search(r"\)\s?$", before):
        return "keyword"
    return "relation" if after.lstrip().startswith("(") else "variable"


def scopes_of(grammar: dict, text: str) -> list[list[str]]:
    """The scope of each byte of each line by a TextMate grammar of plain matches."""
    lines = []
    for content in text.split("\n"):
        scopes = [""] * len(content)
        paint(grammar["patterns"], content, 0, len(content), scopes)
        lines.append([scope for scope, each in zip(scopes, content) for _ in each.encode()])
    return lines


def paint(patterns: list[dict], content: str, start: int, end: int, scopes: list[str]) -> None:
    """Gives a part of a line its scopes."""
    while start < end:
        found = [(match.start(), rank, match) for rank, pattern in enumerate(patterns)
                 if (match := re.compile(pattern["match"]).search(content, start, end))]
        if not found:
            return
        _, rank, match = min(found, key=lambda each: each[:2])
        for place in range(*match.span()):
            scopes[place] = patterns[rank]["name"]
        for group, inner in patterns[rank].get("captures", {}).items():
            paint(inner["patterns"], content, *match.span(int(group)), scopes)
        start = match.end()


def text_of(path: Path) -> str:
    """The text of a file, with its carriage returns."""
    return path.read_bytes().decode()


def is_text(path: Path) -> bool:
    """Whether a file is one that editors show as it is: in UTF-8, without a byte order mark."""
    try:
        return not text_of(path).startswith("\ufeff")
    except UnicodeDecodeError:
        return False


def more_files(folder: Path) -> list[Path]:
    """Files beside the examples: with faults, with civil values and what is nearly one, with temporal operators."""
    files = {"faulty.lrp": FAULTY, "civil.lrp": CIVIL, "tense.lrq": TENSE, "wide.lrq": WIDE}
    for name, text in files.items():
        (folder / name).write_text(text)
    return [folder / name for name in files]


class Editors(unittest.TestCase):
    """Both editors."""

    files = [path for path in sorted(TOP.glob("examples/*/*.lr[peq]")) if is_text(path)]

    def check_tokens(self, path: Path, classes: list[list[str]], names: dict[str, str]) -> None:
        """Each byte of each token has the class of the token, and each fault is seen."""
        for line, start, end, kind in tokens_of(text_of(path)):
            for byte in range(start, end):
                is_class = classes[line][byte]
                self.assertTrue(is_class.startswith(names[kind]), f"{path}:{line + 1}:{byte + 1}: {kind} is {is_class!r}")

    def test_vim(self):
        vim = need("vim", "+syntax")
        with tempfile.TemporaryDirectory() as name:
            more, dump = more_files(Path(name)), Path(name, "dump.vim")
            listed, dumped = Path(name, "listed"), Path(name, "dumped")
            dump.write_text(DUMP)
            listed.write_text("".join(f"{path}\n" for path in [*self.files, *more]))
            words = [vim, "-es", "-n", "-N", "-u", "NONE", "-i", "NONE", "--cmd", f"set rtp^={TOP}/editors/vim enc=utf-8", "-S", dump]
            subprocess.run(words, stdin=subprocess.DEVNULL, capture_output=True, check=False, timeout=PATIENCE,
                           env=environment(LISTED=str(listed), DUMPED=str(dumped), HOME=name))
            classes = {Path(path): rows for path, rows in json.loads(dumped.read_text()).items()}
            for path in [*self.files, *more]:
                self.check_tokens(path, classes[path], VIM)

    def test_vim_goes_to_the_place_of_a_fault(self):
        vim = need("vim", "+syntax")
        with tempfile.TemporaryDirectory() as name:
            said = Path(name, "said")
            launcher = Path(name, "fizhedul")
            launcher.symlink_to(TOP / "fizhedul")
            subprocess.run([vim, "-es", "-n", "-N", "-u", "NONE", "-i", "NONE", "--cmd", f"set rtp^={TOP}/editors/vim",
                            "-c", "filetype plugin on", "-c", "edit", "-c", "silent make",
                            "-c", f"call writefile([line('.') . ' ' . col('.') . ' ' . getqflist()[0].text], '{said}')",
                            "-c", "qa!", TOP / "examples/week/broken.lrp"], stdin=subprocess.DEVNULL, capture_output=True,
                           check=False, timeout=PATIENCE, env=environment(HOME=name, PATH=f"{name}:/usr/bin:/bin"))
            self.assertEqual(said.read_text(), "8 3 Arity\n")

    def vim(self, file: Path, *commands: str) -> list[str]:
        """What Vim, with its own plugins and with the folder where its page says, writes at the end of some commands."""
        vim = need("vim", "+syntax")
        with tempfile.TemporaryDirectory() as name:
            home = Path(name)
            package = home / ".vim/pack/fizhedul/start"
            package.mkdir(parents=True)
            (package / "fizhedul").symlink_to(TOP / "editors/vim")
            (home / "fizhedul").symlink_to(TOP / "fizhedul")
            words = [each for command in ("filetype plugin on", "edit", *commands, "qa!") for each in ("-c", command)]
            subprocess.run([vim, "-es", "-n", "-N", "-u", "NORC", "-i", "NONE", *words, file], stdin=subprocess.DEVNULL, cwd=home,
                           capture_output=True, check=False, timeout=PATIENCE, env=environment(HOME=name, PATH=f"{name}:/usr/bin:/bin"))
            return (home / "said").read_text().splitlines() if (home / "said").exists() else []

    def test_vim_with_its_plugins_opens_a_database_as_a_text(self):
        file = TOP / "examples/bus/bus.lrp"
        said = self.vim(file, "call writefile([&filetype] + getline(1, '$'), 'said')")
        self.assertEqual(said, ["fizhedul", *file.read_text().splitlines()])

    def test_make_explains_a_query_and_leaves_edits_alone(self):
        faults = "call writefile(map(getqflist(), {_, it -> it.lnum . ' ' . it.text}), 'said')"
        self.assertEqual(self.vim(TOP / "examples/bus/misspelt.lrq", "silent make", faults), ["1 UnknownRelation"])
        said = self.vim(TOP / "examples/guide/hourly.lrq", "let b:fizhedul_database = 'none.lrp'", "edit", "silent make", faults)
        self.assertEqual(said, ["0 refused: read of database"])
        wanted = self.vim(TOP / "README.md", "call writefile([&makeprg], 'said')")
        self.assertEqual(self.vim(TOP / "examples/guide/changes.lre", "call writefile([&makeprg], 'said')"), wanted)

    def test_make_goes_to_what_is_seldom_meant(self):
        faults = "call writefile(map(getqflist(), {_, it -> it.lnum . ' ' . it.col . ' ' . it.text}), 'said')"
        said = self.vim(TOP / "examples/lint/trips.lrq", "let b:fizhedul_database = '%s'" % (TOP / "examples/lint/line.lrp"), "edit",
                        "silent make", faults)
        self.assertEqual([line for line in said if not line.startswith("0 ")], ["4 51 UnknownText", "5 43 EmptyRelation"])
        said = self.vim(TOP / "examples/lint/line.lrp", "silent make", faults)
        self.assertEqual(said[:2], ["0 0 database EmptyRow trip 2", "0 0 database UntiedTimes shift 1"])

    def test_visual_studio_code(self):
        folder = TOP / "editors/vscode"
        grammar = json.loads((folder / "syntaxes/fizhedul.tmLanguage.json").read_text())
        with tempfile.TemporaryDirectory() as name:
            for path in [*self.files, *more_files(Path(name))]:
                self.check_tokens(path, scopes_of(grammar, text_of(path)), CODE)

    def test_the_engine_of_such_editors_reads_the_patterns_as_they_are_read_here(self):
        # jq has Oniguruma in it, the engine by which these patterns are read in an editor.
        jq = need("jq")
        grammar = json.loads((TOP / "editors/vscode/syntaxes/fizhedul.tmLanguage.json").read_text())
        inner = [each for pattern in grammar["patterns"] for group in pattern.get("captures", {}).values()
                 for each in group["patterns"]]
        lines = [line for path in self.files for line in text_of(path).split("\n") if len(line) < 500]
        for pattern in (each["match"] for each in [*grammar["patterns"], *inner]):
            program = '[.[] | [match($pattern; "g") | [.offset, .length]]]'
            done = subprocess.run([jq, "-c", "--arg", "pattern", pattern, program], input=json.dumps(lines), text=True,
                                  capture_output=True, check=False)
            wanted = [[[match.start(), len(match.group())] for match in re.finditer(pattern, line)] for line in lines]
            self.assertEqual(json.loads(done.stdout or "null"), wanted, pattern)

    def test_the_extension_names_what_is_there(self):
        folder = TOP / "editors/vscode"
        extension = json.loads((folder / "package.json").read_text())
        self.assertEqual(extension["version"], (TOP / "share/version").read_text().strip())
        language, grammar = extension["contributes"]["languages"][0], extension["contributes"]["grammars"][0]
        self.assertEqual(language["extensions"], [".lrp", ".lrq", ".lre"])
        json.loads((folder / language["configuration"]).read_text())
        self.assertEqual(json.loads((folder / grammar["path"]).read_text())["scopeName"], grammar["scopeName"])


if __name__ == "__main__":
    unittest.main()
