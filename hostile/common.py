"""What the groups share: the program, run with files in a folder of its own, and the count of what passed."""

import argparse
import contextlib
import hashlib
import io
import multiprocessing
import os
import resource
import shutil
import subprocess
import sys
import tempfile

HERE = os.path.dirname(os.path.realpath(__file__))
EXAMPLES = os.path.join(HERE, "..", "examples")
BUILT = os.environ.get("FIZHEDUL_PROGRAM") or os.path.join(HERE, "..", "crates", "lrp_main", "out", "lrp_main")
STATUSES = {0, 2, 3, 4, 5, 6, 7, 8}
LONGEST = 16777216
SECONDS = 60  # of the processor, for one run
WAIT = 1800  # on the clock


def spent():
    """The processor seconds of this process and of the programs that it ran."""
    usages = map(resource.getrusage, (resource.RUSAGE_SELF, resource.RUSAGE_CHILDREN))
    return sum(usage.ru_utime + usage.ru_stime for usage in usages)


class Tally:
    """The count of one group, or of all; what failed is shown at once, and in short."""

    def __init__(self):
        self.groups = {}
        self.group = None

    def begin(self, name):
        self.finish()
        self.group = name
        self.groups[name] = [0, 0, 0]
        self.began = spent()

    def finish(self):
        if self.group:
            passed, failed, hard = self.groups[self.group]
            beyond = ", %d beyond the evaluator" % hard if hard else ""
            print(
                "%s: %d passed, %d failed%s, %.1f processor seconds"
                % (self.group, passed, failed, beyond, spent() - self.began),
                flush=True,
            )
        self.group = None

    def check(self, is_right, what, *details):
        self.groups[self.group][0 if is_right else 1] += 1
        if not is_right and self.groups[self.group][1] <= 20:
            print("%s: %s" % (self.group, what), *(shortened(it) for it in details), sep="\n    ", flush=True)

    def too_hard(self):
        self.groups[self.group][2] += 1

    def end(self):
        """Prints the last line, and gives the status to end with."""
        self.finish()
        passed, failed = (sum(it[i] for it in self.groups.values()) for i in (0, 1))
        print("%d passed, %d failed" % (passed, failed))
        return 1 if failed or not passed else 0


def shortened(it):
    text = it.decode(errors="replace") if isinstance(it, bytes) else str(it)
    return text if len(text) <= 600 else text[:600] + " .. (%d in all)" % len(text)


def bounded(inner):
    """What a child does before it runs: it bounds its processor time, and then what else is asked for."""

    def before():
        resource.setrlimit(resource.RLIMIT_CPU, (SECONDS, SECONDS))
        if inner:
            inner()

    return before


class Program:
    """The program under test. Each run has to end with a status of its table, and to write nothing to standard error."""

    def __init__(self, path, tally):
        self.tally = tally
        self.room = tempfile.mkdtemp(prefix="hostile-")
        os.chmod(self.room, 0o755)
        self.path = os.path.join(self.room, "program")
        shutil.copyfile(path, self.path)
        os.chmod(self.path, 0o755)
        self.folder = os.path.join(self.room, "files")
        os.mkdir(self.folder)
        os.chmod(self.folder, 0o755)

    def close(self):
        shutil.rmtree(self.room, ignore_errors=True)

    def write(self, name, data):
        with open(os.path.join(self.folder, name), "wb") as file:
            file.write(data)

    def run(self, *words, database=None, query=None, statuses=STATUSES, **how):
        """The status and the output. A run that dies, hangs or says a word to standard error counts as failed."""
        words = list(words)
        for key, name, data in (("db", "db", database), ("query", "query", query)):
            if data is not None:
                self.write(name, data)
                words.append("%s=%s" % (key, name))
        how["preexec_fn"] = bounded(how.get("preexec_fn"))
        how = {
            "cwd": self.folder,
            "stdin": subprocess.DEVNULL,
            "stdout": subprocess.PIPE,
            "stderr": subprocess.PIPE,
            "timeout": WAIT,
            **how,
        }
        try:
            ran = subprocess.run([self.path, *words], **how)
        except subprocess.TimeoutExpired:
            self.tally.check(False, "no end within %d s: %s" % (WAIT, words), database, query)
            return None, b""
        if ran.returncode not in statuses or ran.stderr:
            self.tally.check(
                False, "status %s: %s" % (ran.returncode, words), database or b"", query or b"", ran.stderr or b""
            )
        return ran.returncode, ran.stdout or b""

    def expect(self, wanted, status, *words, **how):
        """Counts whether a run ends with this output and status."""
        got = self.run(*words, **how)
        files = [it for it in (how.get("database"), how.get("query")) if it is not None]
        self.tally.check(
            got == (status, wanted),
            " ".join(words)[:300],
            *files,
            b"wanted %d " % status + wanted,
            "got %s " % got[0],
            got[1]
        )
        return got

    def has_ask(self):
        """Whether ask is built: a relation of two columns is asked for."""
        got = self.run(
            "ask",
            database=b"relation r(t: time, u: time) { (0+2n, 1+2n); }",
            query=b"{ t: time, u: time | r(t, u) }",
            statuses=range(10),
        )
        return got == (0, b"relation answer(t: time, u: time) {\n  (0+2n, 1+2n);\n}\n")


def digest(database, query):
    half = lambda data: hashlib.sha256(data).digest()
    return hashlib.sha256(half(database) + half(query)).hexdigest()


def token(times, texts, files=None):
    spelled = ",".join("x" + text.hex() for text in texts)
    front = "T1/" if files is None else "T2/%s/" % files
    return front + ",".join(map(str, times)) + "/" + spelled


def refusal(what, fault):
    return ("refused: %s %s\n" % (what, fault)).encode()


CHOSEN = []  # the groups of this run, each with its name, the program and the seeds


def run_group(number):
    """Runs one of the chosen groups with a copy of the program of its own: what it said, and its counts."""
    name, group, path, seeds = CHOSEN[number]
    said = io.StringIO()
    with contextlib.redirect_stdout(said):
        tally = Tally()
        program = Program(path, tally)
        try:
            tally.begin(name)
            group(program, tally, seeds)
            tally.finish()
        finally:
            program.close()
    return said.getvalue(), tally.groups


def main(about, groups, seeds, jobs):
    """Runs the groups, each a function of a program, a tally and seeds, on the program that is named, or on the built one."""
    words = argparse.ArgumentParser(description=about)
    words.add_argument("program", nargs="?", default=BUILT)
    words.add_argument(
        "--only", nargs="+", metavar="WORD", default=[""], help="groups whose name holds one of these words"
    )
    words.add_argument(
        "--seeds",
        nargs=2,
        type=int,
        metavar=("FIRST", "END"),
        default=seeds,
        help="the random cases from FIRST up to END (%d %d)" % seeds,
    )
    words.add_argument("--jobs", type=int, default=jobs, help="so many groups side by side (%d)" % jobs)
    options = words.parse_args()
    if not os.access(options.program, os.X_OK):
        words.exit(2, "hostile: there is no program at %s\n" % options.program)
    sys.setrecursionlimit(20000)  # formulas may stand deep in one another
    for name, group in groups:
        if any(word in name for word in options.only):
            CHOSEN.append((name, group, options.program, range(*options.seeds)))
    tally = Tally()
    # Forked, since the groups are functions without names.
    with multiprocessing.get_context("fork").Pool(options.jobs) as pool:
        for said, counts in pool.imap(run_group, range(len(CHOSEN)), 1):
            print(said, end="", flush=True)
            tally.groups.update(counts)
    return tally.end()
