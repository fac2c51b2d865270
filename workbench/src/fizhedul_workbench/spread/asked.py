"""What is asked: the words of a call, the program, and the files that are kept for its parts."""

import os
import shutil
from collections.abc import Mapping, Sequence
from dataclasses import dataclass
from pathlib import Path

from ..civil import is_chosen
from ..program import answered
from ..words import FAILED_READ, MISSING, Refused
from .rounds import Run
from .store import Folder, Task

TOP = Path(__file__).resolve().parents[4]
# What a command takes of the words of the program is what the table of commands says, but these.
NOT_HANDED_ON = {"db", "query", "from", "to", "after"}
MOST_PARTS = 100_000


def keys_of_program(command: str) -> list[str]:
    """The keys of a command that are handed on to the program."""
    lines = (TOP / "share" / "commands").read_text(encoding="utf-8").splitlines()
    rows = [line.split() for line in lines if line and not line.startswith("#")]
    return [row[1] for row in rows if row[0] == command and row[1] not in NOT_HANDED_ON]


def program_file() -> Path:
    """The program itself, which is built where it has to be."""
    named = os.environ.get("FIZHEDUL_PROGRAM")
    if named is None:
        answered(["sample", "seed=0", "size=1"])
    places = [Path(named)] if named else [TOP / "crates/lrp_main/out/lrp_main", TOP / "lrp_main"]
    found = next((shutil.which(place) for place in places if shutil.which(place)), None)
    if found is None:
        raise Refused(f"{places[0]}: there is no program there", MISSING)
    return Path(found)


def read_file(path: str) -> bytes:
    try:
        content = Path(path).read_bytes()
    except OSError as fault:
        raise Refused(f"{path}: {fault.strerror}", FAILED_READ) from fault
    return content


@dataclass(frozen=True)
class Asked:
    """The words of a call, and what is kept for it."""

    command: str
    found: Mapping[str, str]
    folder: Folder
    program: str
    files: dict[str, str]

    @property
    def is_civil(self) -> bool:
        return is_chosen(self.found, "civil")

    def keep(self, path: str) -> str:
        """Keeps a file that was named, and gives its digest."""
        self.files[path] = self.folder.keep(read_file(path))
        return self.files[path]

    def kept(self, *roles: str) -> list[str]:
        """The words that name the files as they are kept, so that all of a call is of the same bytes."""
        return [f"{role}={self.folder.files / self.files[self.found[role]]}" for role in roles]

    def handed_on(self, command: str) -> list[str]:
        """The words that are handed on to a command of the program."""
        return [f"{key}={self.found[key]}" for key in keys_of_program(command) if key in self.found]

    def run(
        self,
        number: int,
        what: str,
        files: Mapping[str, str],
        words: Sequence[str],
        questions: Sequence[tuple[str, str]] = (),
    ) -> Run:
        """A part, whose task is kept."""
        task = Task(self.program, files, [self.command, *words], questions)
        return Run(number, what, self.folder.add(task))
