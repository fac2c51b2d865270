"""Texts that become files, and files that become texts."""

import hashlib
import os
import stat
import tempfile
import time
from functools import lru_cache
from pathlib import Path

from ..lrp import MOST_BYTES
from .asked import ENDINGS

# How many texts of each kind lie in the folder; the one that was asked longest ago goes first.
MOST_FILES = 40
# A file system may give two times of change that are as near as this the same number.
CLOCK_STEP = 2_000_000_000
SHORT = 100_000
Signature = tuple[int, ...]


class Texts:
    """A private folder with texts as files, each named by its content, so that nothing is written twice."""

    def __init__(self) -> None:
        self.folder = tempfile.TemporaryDirectory(prefix="fizhedul-page-")
        self.kept: dict[str, list[Path]] = {key: [] for key in ENDINGS}

    def file(self, key: str, content: bytes) -> str:
        """The file that has this text."""
        path = Path(self.folder.name) / (digest(content)[:32] + ENDINGS[key])
        kept = self.kept[key]
        if path in kept:
            kept.remove(path)
        else:
            path.write_bytes(content)
        kept.append(path)
        for old in kept[:-MOST_FILES]:
            old.unlink(missing_ok=True)
        del kept[:-MOST_FILES]
        return str(path)

    def close(self) -> None:
        self.folder.cleanup()


def digest(content: bytes) -> str:
    """The SHA-256 of a text; that of a long one is remembered, since the same database is asked again and again."""
    return digest_of_long(content) if len(content) > SHORT else hashlib.sha256(content).hexdigest()


@lru_cache(maxsize=4)
def digest_of_long(content: bytes) -> str:
    return hashlib.sha256(content).hexdigest()


class Files:
    """The contents of files, each read again once it may have changed."""

    def __init__(self) -> None:
        self.read: dict[str, tuple[Signature | None, bytes]] = {}

    def content(self, path: str) -> bytes | None:
        """What a file has, up to one byte more than the program reads; None where it can't be read."""
        try:
            now = signature_of(path)
            known, content = self.read.get(path, (None, b""))
            if now is None or now != known:
                with open(path, "rb") as file:
                    found = file.read(MOST_BYTES + 1)
                # What is the same stays one text, of which the digest is known.
                content = content if found == content else found
        except (OSError, ValueError):
            self.read.pop(path, None)
            return None
        self.read[path] = now, content
        return content


def signature_of(path: str) -> Signature | None:
    """What tells a file from what it was before; None where it may change and keep that."""
    found = os.stat(path)
    is_settled = time.time_ns() - max(found.st_mtime_ns, found.st_ctime_ns) > CLOCK_STEP
    if not stat.S_ISREG(found.st_mode) or not is_settled:
        return None
    return found.st_dev, found.st_ino, found.st_size, found.st_mtime_ns, found.st_ctime_ns
