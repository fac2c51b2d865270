"""The tool `spread`."""

import hashlib
import json
import os
import shlex
import signal
import sys
from collections.abc import Mapping, Sequence
from pathlib import Path

from ..words import BAD_INPUT, MISSING, Refused, choice, keyed, usage, whole
from .asked import MOST_PARTS, Asked, keys_of_program, program_file
from .engine import Settings, engine_of
from .plans import Plan, plan_of
from .progress import Progress, tell
from .rounds import Rules, calm, find_done, interrupt, run_all
from .store import Cause, Done, Folder, digest_of, whole_file
from .told import table

USES = """fizhedul spread list db=FILE query=FILE from=A to=B parts=N engine=parallel|slurm|dask out=FILE [overlap=N]
fizhedul spread list db=FILE query=FILE from=A to=B by=SORT parts=N engine=.. out=FILE
fizhedul spread count db=FILE query=FILE from=A to=B parts=N engine=.. out=FILE
fizhedul spread decide db=FILE queries=FOLDER [parts=N] engine=.. out=FILE
fizhedul spread decide db=FILE query=FILE by=SORT parts=N engine=.. out=FILE"""
MOST_TRIES = 100
ENGINES = ["parallel", "slurm", "dask"]
OWN_KEYS = ["db", "query", "out", "engine", "jobs", "hosts", "scheduler", "options", "tries"]
KEYS = {
    "list": ["from", "to", "parts", "overlap", "by"],
    "count": ["from", "to", "parts"],
    "decide": ["queries", "parts", "by"],
}


def read_words(words: Sequence[str]) -> tuple[str, dict[str, str]]:
    """The command that is spread, and the words by their keys."""
    if not words or words[0] not in KEYS:
        raise usage("what is spread is one of\n" + USES)
    command = words[0]
    needed = ["db", "engine", "out", *([] if command == "decide" else ["query", "from", "to", "parts"])]
    found = keyed(words[1:], [*OWN_KEYS, *KEYS[command], *keys_of_program(command)], needed)
    if command == "decide":
        if ("queries" in found) == ("query" in found):
            raise usage("'decide' is spread over queries=FOLDER, or query=FILE with by=SORT and parts=N")
        if ("by" in found) == ("queries" in found) or ("query" in found and "parts" not in found):
            raise usage("query=FILE goes with by=SORT and parts=N, and a folder of queries without 'by'")
    if "by" in found and ("overlap" in found or found.get("wide") == "yes"):
        raise usage("by=SORT goes without overlap and wide=yes")
    choice(found, "engine", "parallel", ENGINES)
    return command, found


def settings_of(found: Mapping[str, str]) -> Settings:
    """How the engine is to run parts."""
    for key, engine in (("hosts", "parallel"), ("scheduler", "dask")):
        if key in found and found["engine"] != engine:
            raise usage(f"'{key}' goes with engine={engine}")
    jobs = whole(found, "jobs", 0, 1, MOST_PARTS) or None
    tries = whole(found, "tries", 3, 1, MOST_TRIES)
    return Settings(jobs, found.get("hosts"), found.get("scheduler"), shlex.split(found.get("options", "")), tries)


def conclude(plan: Plan, folder: Folder) -> None:
    """Refuses where the question as a whole was refused, or a part is missing."""
    runs = plan.runs
    for run in runs:
        if isinstance(run.outcome, Cause):
            raise Refused(run.outcome.line, run.outcome.status)
    for run in runs:
        if not run.is_settled:
            done = sum(each.is_settled for each in runs)
            why, status = (
                (run.failures[-1], getattr(run.outcome, "status", MISSING)) if run.failures else ("", BAD_INPUT)
            )
            kept = f"{done} of {len(runs)} parts are done and kept in {folder.path}; the same words go on from there"
            raise Refused(f"part {run.number} of {len(runs)} ({run.what}): {why}; {kept}", status)


def made_line(asked: Asked, plan: Plan, out: Path) -> bytes:
    """The line on how the result was made."""
    words = [f"{key}={value}" for key, value in asked.found.items() if key not in OWN_KEYS or key in ("db", "query")]
    told = {
        "command": asked.command,
        "words": words,
        **plan.told,
        "parts": len(plan.runs),
        "engine": asked.found["engine"],
        "program": asked.program,
        "files": asked.files,
        "keys": keys_digest(plan),
        "result": digest_of(out),
    }
    return json.dumps(told).encode() + b"\n"


def keys_digest(plan: Plan) -> str:
    """A digest of what all parts are: programs, files and words."""
    return hashlib.sha256(" ".join(run.key for run in plan.runs).encode()).hexdigest()


def is_made(out: Path, how: Path, plan: Plan) -> bool:
    """Whether the result is there already, made of the same parts."""
    try:
        told = json.loads(how.read_bytes())
        return bool(told["keys"] == keys_digest(plan) and told["result"] == digest_of(out))
    except (OSError, ValueError, KeyError):
        return False


def run_parts(folder: Folder, plan: Plan, found: Mapping[str, str], settings: Settings) -> None:
    """Runs the parts that are not done yet, and tells of all of them."""
    progress = Progress(len(plan.runs))
    find_done(folder, plan.runs, progress)
    # On this machine as many at a time as it has processors; elsewhere others say how many.
    is_here = found["engine"] != "slurm" and not settings.hosts and not settings.scheduler
    most = settings.jobs or ((os.cpu_count() or 1) if is_here else len(plan.runs))
    try:
        if not all(run.is_settled for run in plan.runs):
            engine = engine_of(found["engine"])(folder, settings)
            try:
                run_all(engine, plan.runs, Rules(most, settings.tries), progress)
            finally:
                with calm():
                    engine.close()
    except KeyboardInterrupt:
        done = sum(run.is_settled for run in plan.runs)
        tell(f"stopped; {done} of {len(plan.runs)} parts are done and kept in {folder.path}")
        raise
    finally:
        if any(run.outcome or run.failures for run in plan.runs):
            sys.stderr.write(table(plan.runs))


def write_result(asked: Asked, plan: Plan, out: Path, how: Path) -> None:
    """Writes the whole of what the parts answer, and beside it how it was made."""
    how.unlink(missing_ok=True)
    with whole_file(out) as sink:
        plan.merge(sink)
    with whole_file(how) as sink:
        sink.write(made_line(asked, plan, out))
    tell(f"{out} is whole: {out.stat().st_size} bytes of {len(plan.runs)} parts; {how} tells how it was made")


def spread_tool(words: Sequence[str]) -> None:
    """Runs a question in parts, and writes the whole of what they answer, or nothing."""
    command, found = read_words(words)
    settings = settings_of(found)
    for number in (signal.SIGTERM, signal.SIGHUP):
        if signal.getsignal(number) != signal.SIG_IGN:
            signal.signal(number, interrupt)
    out = Path(found["out"])
    how = out.with_name(out.name + ".how")
    program = program_file()
    folder = Folder(out.with_name(out.name + ".parts").absolute())
    try:
        asked = Asked(command, found, folder, folder.keep(program.read_bytes(), 0o755), {})
        plan = plan_of(asked)
        if is_made(out, how, plan):
            tell(f"{out} is made already")
            folder.remove()
            return
        folder.is_whole = plan.is_whole
        run_parts(folder, plan, found, settings)
        conclude(plan, folder)
        write_result(asked, plan, out, how)
        folder.remove()
    finally:
        folder.close()
    refused = [
        each for run in plan.runs if isinstance(run.outcome, Done) for each in run.outcome.report["refused"].items()
    ]
    if refused:
        name, status = refused[0]
        raise Refused(f"{len(refused)} of the questions, as their lines say; the first is {name}", status)
