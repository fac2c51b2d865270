"""A process that holds the engine as a library: questions come on standard input, one after another.

A question is a line of JSON with words, the lengths of files by their names, and if a database is to be kept its name,
its digest and its length, or no length where it should be kept already; then come these files and the database. Its
answer is a line of JSON with the status and a length, and then the text; or the line that the database is missing.
"""

import json
import sys
from collections import OrderedDict
from collections.abc import Mapping
from typing import TYPE_CHECKING, Any, BinaryIO

if TYPE_CHECKING:
    from fizhedul.engine import Kept, Output

# How many databases are kept; the one that was asked longest ago goes first.
MOST_KEPT = 2


class Databases:
    """The databases that are kept, by their digests and names."""

    def __init__(self) -> None:
        self.kept: OrderedDict[tuple[str, str], Kept] = OrderedDict()

    def find(self, database: Mapping[str, Any], source: BinaryIO) -> "Kept | None":
        """A database that is kept, or that comes along; None where it is neither."""
        from fizhedul.engine import Kept

        key = (database["digest"], database["name"])
        if database["length"] is not None:
            content = source.read(database["length"])
            # What goes makes room for what comes.
            while len(self.kept) >= MOST_KEPT:
                self.kept.popitem(last=False)
            self.kept[key] = Kept({database["name"]: content})
        elif key not in self.kept:
            return None
        self.kept.move_to_end(key)
        return self.kept[key]


def answer(databases: Databases, question: Mapping[str, Any], source: BinaryIO) -> "Output | None":
    """What a question is answered; None where its database is missing."""
    from fizhedul.engine import run

    files = {name: source.read(length) for name, length in question["files"].items()}
    if question["database"] is None:
        return run(question["words"], files)
    database = databases.find(question["database"], source)
    return None if database is None else database.run(question["words"], files)


def serve(source: BinaryIO, sink: BinaryIO) -> None:
    """Answers questions until there are no more."""
    databases = Databases()
    while line := source.readline():
        found = answer(databases, json.loads(line), source)
        if found is None:
            sink.write(b'{"missing": true}\n')
        else:
            sink.write(json.dumps({"status": found.status, "length": len(found.text)}).encode() + b"\n")
            sink.write(found.text)
        sink.flush()


if __name__ == "__main__":
    serve(sys.stdin.buffer, sys.stdout.buffer)
