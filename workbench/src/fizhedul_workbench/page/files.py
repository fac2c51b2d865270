"""The files that the page was started with: the only ones that are read and written."""

import hashlib
import os
from dataclasses import dataclass
from pathlib import Path

from ..lrp import MOST_BYTES, put_file
from ..words import BAD_INPUT, FAILED_READ, Refused


class Changed(Exception):
    """The file has another content by now than the page knows."""


@dataclass(frozen=True)
class Named:
    """A file that the page was started with."""

    path: str
    # As it was given, for words that name it.
    given: str

    @property
    def name(self) -> str:
        return os.path.basename(self.path)

    def read(self, may_miss: bool) -> str:
        """The file's text; of a file that need not be there, the empty one."""
        try:
            with open(self.path, "rb") as file:
                content = file.read(MOST_BYTES + 1)
        except FileNotFoundError:
            if may_miss:
                return ""
            raise Refused(f"{self.given}: No such file or directory", FAILED_READ) from None
        except OSError as fault:
            raise Refused(f"{self.given}: {fault.strerror}", FAILED_READ) from fault
        if len(content) > MOST_BYTES:
            raise Refused(f"{self.given}: a file has at most {MOST_BYTES} bytes", BAD_INPUT)
        try:
            return content.decode()
        except UnicodeDecodeError as fault:
            raise Refused(f"{self.given}: the text isn't UTF-8", BAD_INPUT) from fault

    def save(self, text: str, known: str, is_forced: bool) -> str:
        """Writes the text whole or not at all, unless somebody else changed the file; the digest of what it now has."""
        content = text.encode()
        if len(content) > MOST_BYTES:
            raise Refused(f"a file has at most {MOST_BYTES} bytes", BAD_INPUT)
        if not is_forced and digest(self.read(True)) != known:
            raise Changed
        put_file(str(Path(self.path).resolve()), content)
        return digest(text)


def digest(text: str) -> str:
    return hashlib.sha256(text.encode()).hexdigest()


def named(path: str) -> Named:
    """A file by its name, which has to be UTF-8."""
    try:
        path.encode()
    except UnicodeEncodeError as fault:
        shown = path.encode(errors="surrogateescape").decode(errors="replace")
        raise Refused(f"{shown}: the name isn't UTF-8", FAILED_READ) from fault
    return Named(os.path.abspath(path), path)
