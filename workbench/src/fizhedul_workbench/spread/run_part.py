"""Runs one part of a spread question, on any machine that has Python; it needs nothing beside it.

    run_part.py STORE KEY

STORE is a folder in which each file is named by the SHA-256 of its bytes. The file KEY says in JSON which program is
run, on which files and words. The program's output goes to standard output, one page after another, and one line on
standard error tells how the run ended. A part may be of several questions: each line of their outputs has the name of
its question before it.
"""

import hashlib
import io
import json
import os
import resource
import shutil
import signal
import socket
import subprocess
import sys
import tempfile
import time
from typing import IO, Any, Optional, Protocol

REPORT = "fizhedul-part "
CHUNK = 1 << 16
LAST_CAUSE, FAILED_READ, FAILED_WRITE, NO_MEMORY, SIGNALLED = 5, 6, 7, 8, 128
# The programs that run now, for who has to end them.
AT_WORK: "set[subprocess.Popen[bytes]]" = set()


class Damaged(Exception):
    """A file of the store is missing, or is not what its name says."""


class Sink(Protocol):
    """Where output goes."""

    def write(self, data: bytes, /) -> object:
        ...

    def flush(self) -> object:
        ...


class Lines(Protocol):
    """Where whole lines go."""

    def write(self, data: bytes) -> None:
        ...


class Output:
    """Hands output on, and knows its length and digest."""

    def __init__(self, sink: Sink) -> None:
        self.sink = sink
        self.digest = hashlib.sha256()
        self.length = 0

    def write(self, data: bytes) -> None:
        self.sink.write(data)
        self.digest.update(data)
        self.length += len(data)


class Tagged:
    """Hands whole lines on, with a name before each."""

    def __init__(self, output: Output, name: str) -> None:
        self.output = output
        self.tag = name.encode() + b"\t"

    def write(self, data: bytes) -> None:
        self.output.write(b"".join(self.tag + line for line in data.splitlines(keepends=True)))


class Usage:
    """What the runs of a part took: seconds of the processor, and the most memory of one of them in bytes.

    The system counts what this process had when it began a run as the run's own, so less than that is not seen."""

    def __init__(self) -> None:
        self.processor = 0.0
        self.memory = 0
        self.unseen = resource.getrusage(resource.RUSAGE_SELF).ru_maxrss * 1024

    def add(self, used: Any) -> None:
        self.processor += used.ru_utime + used.ru_stime
        self.memory = max(self.memory, used.ru_maxrss * 1024)


def checked(store: str, digest: str) -> str:
    """The path of a file of the store, which has to be the one of its name."""
    path = os.path.join(store, digest)
    try:
        with open(path, "rb") as file:
            found = hashlib.sha256()
            while chunk := file.read(CHUNK):
                found.update(chunk)
    except OSError as fault:
        raise Damaged(f"file {digest[:12]}: {fault.strerror}") from fault
    if found.hexdigest() != digest:
        raise Damaged(f"file {digest[:12]} is not what it was")
    return path


def copy_front(source: IO[bytes], output: Lines) -> bytes:
    """Hands on all lines but the last one, which it gives."""
    held = b""
    while chunk := source.read(CHUNK):
        held += chunk
        line = held.rfind(b"\n", 0, len(held) - 1) + 1
        output.write(held[:line])
        held = held[line:]
    return held


def token_of(line: bytes) -> Optional[str]:
    """The token of the next page, where a page's last line names one."""
    if line.startswith(b"more "):
        return line[len(b"more ") :].decode().strip()
    if line.startswith(b'{"more":"'):
        return str(json.loads(line)["more"])
    return None


def run_page(command: "list[str]", output: Lines, usage: Usage) -> "tuple[int, bytes]":
    """Runs the program once: its status, and its last line, which was not handed on."""
    guard = ["setpriv", "--pdeathsig", "KILL", "--"] if shutil.which("setpriv") else []
    settings = {"GLIBC_TUNABLES": "glibc.malloc.mxfast=0:glibc.malloc.mmap_threshold=131072", **os.environ}
    with subprocess.Popen(
        [*guard, *command], stdin=subprocess.DEVNULL, stdout=subprocess.PIPE, env=settings
    ) as process:
        AT_WORK.add(process)
        try:
            assert process.stdout is not None
            last = copy_front(process.stdout, output)
            _, ended, used = os.wait4(process.pid, 0)
            status = os.waitstatus_to_exitcode(ended)
            process.returncode = status
        except BaseException:
            process.kill()
            raise
        finally:
            AT_WORK.discard(process)
    usage.add(used)
    return (status if status >= 0 else SIGNALLED - status), last


def run_pages(command: "list[str]", output: Output, usage: Usage) -> "tuple[int, int]":
    """Runs the program, and again for each further page: the status, and the number of pages."""
    status, last = run_page(command, output, usage)
    pages = 1
    while status == 0 and (token := token_of(last)) is not None:
        status, last = run_page([*command, f"after={token}"], output, usage)
        pages += 1
    output.write(last)
    output.sink.flush()
    return status, pages


def read_task(store: str, key: str) -> "dict[str, Any]":
    with open(checked(store, key), encoding="utf-8") as file:
        task: "dict[str, Any]" = json.load(file)
    return task


def command_of(store: str, task: "dict[str, Any]") -> "list[str]":
    """The command line of a part, all of whose files were looked at."""
    files = [f"{role}={checked(store, digest)}" for role, digest in task["files"].items()]
    command, *words = task["words"]
    return [checked(store, task["program"]), command, *files, *words]


class Ending:
    """How a part ended: a status, and why where that isn't the program's; the runs of the program, and the statuses of
    questions that it refused."""

    def __init__(self) -> None:
        self.status = 0
        self.why = ""
        self.runs = 0
        self.refused: "dict[str, int]" = {}


def run_questions(store: str, task: "dict[str, Any]", output: Output, usage: Usage, ending: Ending) -> None:
    """Asks several questions. What the program refuses for a cause is its answer; a failure of the machine ends all."""
    command = command_of(store, task)
    for name, query in task["questions"]:
        tagged = Tagged(output, name)
        ending.status, last = run_page([*command, f"query={checked(store, query)}"], tagged, usage)
        tagged.write(last)
        ending.runs += 1
        if ending.status > LAST_CAUSE:
            ending.why = f"{name}: {last.decode(errors='replace').strip() or f'status {ending.status}'}"
            return
        if ending.status:
            ending.refused[name], ending.status = ending.status, 0
    output.sink.flush()


def run_part(store: str, key: str, sink: Sink) -> "dict[str, Any]":
    """Runs a part, and tells how it ended."""
    output, usage, ending, begun = Output(sink), Usage(), Ending(), time.monotonic()
    store = os.path.abspath(store)
    try:
        task = read_task(store, key)
        if task.get("questions"):
            run_questions(store, task, output, usage, ending)
        else:
            ending.status, ending.runs = run_pages(command_of(store, task), output, usage)
    except Damaged as fault:
        ending.status, ending.why = FAILED_READ, str(fault)
    except OSError as fault:
        ending.status, ending.why = FAILED_WRITE, f"its output: {fault.strerror}"
    except MemoryError:
        ending.status, ending.why = NO_MEMORY, "memory"
    return {
        "key": key,
        "status": ending.status,
        "why": ending.why,
        "refused": ending.refused,
        "output": output.digest.hexdigest(),
        "length": output.length,
        "runs": ending.runs,
        "seconds": round(time.monotonic() - begun, 3),
        "processor": round(usage.processor, 3),
        "memory": usage.memory,
        "unseen": usage.unseen,
        "machine": socket.gethostname(),
    }


def report_line(report: "dict[str, Any]") -> str:
    return f"{REPORT}{json.dumps(report)}\n"


def end_all() -> None:
    """Ends the programs that run now."""
    for process in list(AT_WORK):
        process.send_signal(signal.SIGKILL)


# Where a machine that does not see the folder of the parts keeps files.
PLACE = os.path.join("~", ".cache", "fizhedul", "spread")


def missing(digests: "list[str]") -> "tuple[str, list[str]]":
    """The place of this machine's files, and which ones it doesn't have."""
    place = os.path.expanduser(PLACE)
    os.makedirs(place, exist_ok=True)
    return f"{socket.gethostname()}:{place}", [
        each for each in digests if not os.path.exists(os.path.join(place, each))
    ]


def put(files: "dict[str, tuple[bytes, int]]") -> None:
    """Keeps files, with their modes, on this machine; each takes its name when it is whole."""
    place = os.path.expanduser(PLACE)
    for digest, (content, mode) in files.items():
        handle, temporary = tempfile.mkstemp(dir=place)
        with os.fdopen(handle, "wb") as file:
            file.write(content)
        os.chmod(temporary, mode)
        os.replace(temporary, os.path.join(place, digest))


def run_in_memory(key: str) -> "tuple[bytes, str]":
    """Runs a part on the files that are kept here: its output, and the line of its report."""
    sink = io.BytesIO()
    report = run_part(os.path.expanduser(PLACE), key, sink)
    return sink.getvalue(), report_line(report)


def main(store: str, key: str) -> int:
    """Runs a part on standard output and standard error."""
    report = run_part(store, key, sys.stdout.buffer)
    sys.stderr.write(report_line(report))
    return int(report["status"])


if __name__ == "__main__":
    sys.exit(main(*sys.argv[1:]))
