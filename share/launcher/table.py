"""The table of commands and keys, `share/commands`."""

from pathlib import Path
from typing import NamedTuple

SHARE = Path(__file__).resolve().parent.parent
LIMIT = 2**62


class Key(NamedTuple):
    """One key of a command. `kind` is the first word of what its value is, `of` the words after it."""

    command: str
    name: str
    needed: bool
    kind: str
    of: list[str]


def read_table(path: Path = SHARE / "commands") -> dict[str, dict[str, Key]]:
    """The keys of each command, in the order of the table."""
    table: dict[str, dict[str, Key]] = {}
    for line in path.read_text().splitlines():
        if not line or line.startswith("#"):
            continue
        command, name, needed, kind, *of = line.split()
        table.setdefault(command, {})[name] = Key(command, name, needed == "needed", kind, of)
    return table
