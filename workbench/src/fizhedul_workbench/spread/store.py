"""The folder of a spread question: its files by their digests, and what its parts wrote.

A part is named by the digest of what makes its output: program, files and words. So what is there of a part is good
for any later call that asks the same, and for no other one.
"""

import fcntl
import hashlib
import json
import os
import shutil
import tempfile
from collections.abc import Callable, Iterator, Mapping, Sequence
from contextlib import contextmanager
from dataclasses import dataclass
from pathlib import Path
from typing import IO, Any

from ..words import BAD_INPUT, FAILED_WRITE, MISSING, NO_MEMORY, Refused
from .run_part import CHUNK, LAST_CAUSE, REPORT, SIGNALLED

FIRST_CAUSE = 2


@dataclass(frozen=True)
class Task:
    """What a part runs: the program, its files by their keys, and its other words, the command first; and where it is
    of several questions, their names with their files."""

    program: str
    files: Mapping[str, str]
    words: Sequence[str]
    questions: Sequence[tuple[str, str]] = ()

    def text(self) -> bytes:
        told: dict[str, Any] = {"program": self.program, "files": dict(self.files), "words": list(self.words)}
        if self.questions:
            told["questions"] = list(self.questions)
        return json.dumps(told, sort_keys=True).encode()


@dataclass(frozen=True)
class Done:
    """The output was written whole."""

    report: Mapping[str, Any]


@dataclass(frozen=True)
class Cause:
    """The program refused, and refuses whenever it is asked so."""

    line: str
    status: int
    report: Mapping[str, Any]


@dataclass(frozen=True)
class Failed:
    """The machine failed, and may not fail again."""

    why: str
    status: int = MISSING


Outcome = Done | Cause | Failed


def digest_of(path: Path) -> str:
    with open(path, "rb") as file:
        return hashlib.file_digest(file, "sha256").hexdigest()


def last_line(path: Path) -> str:
    with open(path, "rb") as file:
        file.seek(max(0, path.stat().st_size - CHUNK))
        return file.read().rstrip(b"\n").rpartition(b"\n")[2].decode(errors="replace") + "\n"


@contextmanager
def whole_file(path: Path, mode: int = 0o644) -> Iterator[IO[bytes]]:
    """A file that takes its name when it is whole; what stood there before stays until then."""
    try:
        handle, temporary = tempfile.mkstemp(prefix=".fizhedul-", dir=path.parent)
        try:
            with os.fdopen(handle, "wb") as file:
                yield file
                file.flush()
                os.fsync(file.fileno())
            os.chmod(temporary, mode)
            os.replace(temporary, path)
        except BaseException:
            os.unlink(temporary)
            raise
    except OSError as fault:
        raise Refused(f"{path}: {fault.strerror}", FAILED_WRITE) from fault


def report_of(text: str, key: str) -> Mapping[str, Any] | None:
    """The report of a part among what it wrote to standard error."""
    for line in reversed(text.splitlines()):
        if line.startswith(REPORT):
            try:
                report: dict[str, Any] = json.loads(line.removeprefix(REPORT))
            except ValueError:
                return None
            return report if report.get("key") == key else None
    return None


class Folder:
    """The folder, which one call at a time may use."""

    def __init__(self, path: Path) -> None:
        self.path = path
        # Whether an output is whole, beyond that its program says so.
        self.is_whole: Callable[[Path], bool] = lambda output: True
        self.files = path / "files"
        self.runs = path / "runs"
        try:
            for folder in (path, self.files, self.runs):
                folder.mkdir(exist_ok=True)
            self.lock = open(path / "lock", "w", encoding="utf-8")
        except OSError as fault:
            raise Refused(f"{path}: {fault.strerror}", FAILED_WRITE) from fault
        try:
            fcntl.flock(self.lock, fcntl.LOCK_EX | fcntl.LOCK_NB)
        except BlockingIOError as fault:
            raise Refused(f"{path}: another call is at work there", FAILED_WRITE) from fault
        except OSError:
            # A disk without locks, where nobody is kept out.
            pass

    def remove(self) -> None:
        """Takes the folder away."""
        shutil.rmtree(self.path, ignore_errors=True)

    def close(self) -> None:
        """Lets others use the folder; where no part has run it goes."""
        if self.path.exists() and not any(self.runs.iterdir()):
            self.remove()
        self.lock.close()

    def keep(self, content: bytes, mode: int = 0o644) -> str:
        """Keeps a file, and gives its digest."""
        digest = hashlib.sha256(content).hexdigest()
        path = self.files / digest
        if not path.exists() or digest_of(path) != digest:
            with whole_file(path, mode) as file:
                file.write(content)
        return digest

    def add(self, task: Task) -> str:
        """Keeps a task, and gives the key of its part."""
        return self.keep(task.text())

    def fault_of_disk(self) -> str | None:
        """Why nothing can be written to the folder, or None where something can."""
        try:
            with tempfile.TemporaryFile(dir=self.runs) as file:
                file.write(bytes(CHUNK))
                file.flush()
        except OSError as fault:
            return f"{self.path}: {fault.strerror}"
        return None

    def output(self, key: str) -> Path:
        return self.runs / f"{key}.out"

    def errors(self, key: str) -> Path:
        return self.runs / f"{key}.out.err"

    def forget(self, key: str) -> None:
        """Takes away what a run of the part has left."""
        for path in self.runs.glob(f"{key}.out*"):
            path.unlink(missing_ok=True)

    def outcome(self, key: str) -> Outcome | None:
        """How the part ended, or None where it has not told that."""
        try:
            report = report_of(self.errors(key).read_text(encoding="utf-8", errors="replace"), key)
            if report is None:
                return None
            if digest_of(self.output(key)) != report["output"]:
                return Failed("its output did not arrive whole", FAILED_WRITE)
        except FileNotFoundError:
            return None
        status = int(report["status"])
        if status == 0:
            return Done(report) if self.is_whole(self.output(key)) else Failed("its last line is missing", FAILED_WRITE)
        line = report["why"] or last_line(self.output(key)).strip().removeprefix("refused: ")
        if FIRST_CAUSE <= status <= LAST_CAUSE:
            return Cause(line, status, report)
        if status > SIGNALLED:
            return Failed(f"the program was ended by signal {status - SIGNALLED}")
        return Failed(line or f"status {status}", status if status <= NO_MEMORY else BAD_INPUT)
