"""Parts by Slurm, as job arrays. The folder of the parts is one that all nodes see."""

import re
import shlex
import subprocess
import time
from collections.abc import Sequence

from ..words import MISSING, Refused
from .engine import Engine, Settings, need
from .store import Folder

MOST_OF_AN_ARRAY = 1000
# Seconds between two looks at the queue, and those that a file may take to be seen from here.
PAUSE, PATIENCE = 1.0, 3.0
SCRIPT = """#!/bin/sh
key=$(sed -n "${{SLURM_ARRAY_TASK_ID}}p" {listed})
exec python3 {store}/{runner} {store} "$key" >{runs}/"$key".out 2>{runs}/"$key".out.err
"""


class Slurm(Engine):
    """A job array, or several of them where there are many parts."""

    def __init__(self, folder: Folder, settings: Settings) -> None:
        super().__init__(folder, settings)
        for tool in ("sbatch", "squeue", "scancel", "scontrol"):
            need(tool, "slurm-client")
        self.arrays: dict[str, list[str]] = {}
        self.looked = 0.0
        self.ended = 0.0

    def ask(self, *words: str, script: str = "") -> str:
        """Runs a command of Slurm."""
        done = subprocess.run(words, input=script, capture_output=True, text=True, check=False)
        if done.returncode:
            said = done.stderr.strip().rpartition("\n")[2]
            raise Refused(f"{words[0]}: {said or f'status {done.returncode}'}", MISSING)
        return done.stdout

    def start(self, keys: Sequence[str], most: int) -> None:
        self.arrays, self.looked, self.ended = {}, 0.0, 0.0
        for begin in range(0, len(keys), MOST_OF_AN_ARRAY):
            some = list(keys[begin : begin + MOST_OF_AN_ARRAY])
            listed = self.folder.path / f"keys-{begin}"
            listed.write_text("".join(f"{key}\n" for key in some), encoding="utf-8")
            places = {"listed": listed, "store": self.folder.files, "runs": self.folder.runs}
            script = SCRIPT.format(
                runner=self.runner, **{name: shlex.quote(str(path)) for name, path in places.items()}
            )
            words = ["--parsable", "--no-requeue", "--job-name=fizhedul", f"--array=1-{len(some)}%{most}"]
            words += ["--output=/dev/null", "--error=/dev/null", f"--chdir={self.folder.path}"]
            number = self.ask("sbatch", *words, *self.settings.options, script=script)
            self.arrays[number.strip().partition(";")[0]] = some

    def is_in_queue(self) -> bool:
        """Whether some part is waiting or running; an array that the queue no longer knows has ended."""
        if not self.arrays:
            return False
        words = ["squeue", "--noheader", f"--jobs={','.join(self.arrays)}"]
        done = subprocess.run(words, capture_output=True, text=True, check=False)
        if done.returncode and "Invalid job id" not in done.stderr:
            # The server does not answer now; what it runs goes on.
            return True
        return bool(done.stdout.strip())

    def is_at_work(self) -> bool:
        now = time.monotonic()
        if self.ended:
            return now < self.ended + PATIENCE
        if now >= self.looked + PAUSE:
            self.looked = now
            if not self.is_in_queue():
                self.ended = now
        return True

    def stop(self) -> None:
        if not self.arrays:
            return
        subprocess.run(["scancel", *self.arrays], capture_output=True, check=False)
        while self.is_in_queue():
            time.sleep(PAUSE / 4)
        self.arrays = {}

    def told(self, key: str) -> str:
        for number, keys in self.arrays.items():
            if key in keys:
                words = ["scontrol", "--oneliner", "show", "job", f"{number}_{keys.index(key) + 1}"]
                said = subprocess.run(words, capture_output=True, text=True, check=False).stdout
                state = re.search(r"JobState=(\S+) Reason=(\S+)", said)
                if state:
                    return f"Slurm says {state[1]}" + (f", {state[2]}" if state[2] != "None" else "")
        return super().told(key)
