"""The prompt on a terminal: history, completion, colours, and queries over several lines."""

import os
import re
from collections.abc import Callable, Iterable, Iterator
from pathlib import Path

from prompt_toolkit import PromptSession
from prompt_toolkit.completion import CompleteEvent, Completer, Completion, PathCompleter
from prompt_toolkit.document import Document
from prompt_toolkit.history import FileHistory, History, InMemoryHistory
from prompt_toolkit.key_binding import KeyBindings, KeyPressEvent
from prompt_toolkit.lexers import PygmentsLexer

from ..lexer import DEFINING, KEYWORDS, OPERATORS, SORTS, LrpLexer
from ..queries import defined_by, variables
from .session import Session

# The commands that take a file, with the ending of the files that they read.
FILES = {".open": ".lrp", ".read": ".lrq", ".watch": ".lre", ".save": "", ".draw": "", ".tree": ""}
WORD = re.compile(r"\.?[A-Za-z0-9_]*$")


def history() -> History:
    """The lines of earlier sessions, where a folder for them can be had."""
    home = os.environ.get("XDG_STATE_HOME") or str(Path.home() / ".local" / "state")
    try:
        folder = Path(home) / "fizhedul"
        folder.mkdir(parents=True, exist_ok=True)
        (folder / "history").touch()
    except OSError:
        return InMemoryHistory()
    return FileHistory(str(folder / "history"))


class Words(Completer):
    """Completes commands at the start of a line, the files of commands, and else relations, variables and words."""

    def __init__(self, session: Session, commands: list[str]) -> None:
        self.session = session
        self.commands = commands

    def get_completions(self, document: Document, complete_event: CompleteEvent) -> Iterable[Completion]:
        text = document.text_before_cursor
        begun = WORD.search(text)
        word = begun.group(0) if begun else ""
        command, blank, rest = text.lstrip().partition(" ")
        if blank and command in FILES:
            yield from files_like(rest.lstrip(), FILES[command], complete_event)
            return
        if text.lstrip().startswith("."):
            choices = self.commands if word.startswith(".") else []
        else:
            choices = self.words_of_language(document.text)
        for choice in dict.fromkeys(choices):
            if word and choice.startswith(word) and choice != word:
                yield Completion(choice, start_position=-len(word))

    def words_of_language(self, text: str) -> list[str]:
        """What may be completed in a query: names, of definitions those of their columns too, sorts and words."""
        session = self.session
        operators = OPERATORS if session.is_tense or session.is_wide else []
        defined = [defined_by(each) for each in session.held().values()]
        names = [*session.names, *(name for name, _ in defined), *variables(text)]
        columns = [column for _, own in defined for column in own]
        return [*names, *columns, *SORTS, *session.sorts, *KEYWORDS, *operators, *DEFINING]


def files_like(begun: str, ending: str, event: CompleteEvent) -> Iterable[Completion]:
    """The folders, and the files with an ending, whose names begin so."""
    wanted = PathCompleter(expanduser=True, file_filter=lambda path: os.path.isdir(path) or path.endswith(ending))
    return wanted.get_completions(Document(begun), event)


def keys(is_whole: Callable[[str], bool]) -> KeyBindings:
    """Enter ends an entry, or begins another line of it while a bracket is open."""
    bindings = KeyBindings()

    @bindings.add("enter")
    def _(event: KeyPressEvent) -> None:
        buffer = event.current_buffer
        # What was chosen by Tab stands in the line already.
        buffer.complete_state = None
        if is_whole(buffer.text):
            buffer.validate_and_handle()
        else:
            buffer.insert_text("\n")

    return bindings


def prompted_entries(session: Session, commands: list[str], is_whole: Callable[[str], bool]) -> Iterator[str]:
    """What is typed, entry by entry; an interrupt at the prompt drops what was typed."""
    prompt: PromptSession[str] = PromptSession(
        "fizhedul> ",
        multiline=True,
        prompt_continuation="      ... ",
        lexer=PygmentsLexer(LrpLexer),
        completer=Words(session, commands),
        history=history(),
        key_bindings=keys(is_whole),
    )
    while True:
        try:
            yield prompt.prompt()
        except KeyboardInterrupt:
            continue
        except EOFError:
            return
