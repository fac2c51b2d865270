"""Parts by GNU parallel, on this machine, or by ssh on others."""

import io
import os
import re
import shlex
import shutil
import signal
import subprocess
import tarfile
from collections.abc import Sequence

from ..words import MISSING, Refused
from .engine import ENDS_WITH_PARENT, Engine, Settings, need
from .store import Folder

# Where files are kept on other machines, seen from the folder in which ssh begins.
STORE = ".cache/fizhedul/spread"
PATIENCE = 3


class Parallel(Engine):
    """One process of GNU parallel, which starts a process for each part."""

    def __init__(self, folder: Folder, settings: Settings) -> None:
        super().__init__(folder, settings)
        self.program = need("parallel", "parallel")
        self.guard = ENDS_WITH_PARENT if shutil.which("setpriv") else []
        self.ssh = shlex.split(os.environ.get("FIZHEDUL_SSH", "ssh"))
        self.process: subprocess.Popen[bytes] | None = None
        self.log = folder.path / "parallel.log"
        self.rounds = 0

    def hosts(self) -> list[str]:
        """The machines of `hosts`, without the numbers of processes that may stand before them."""
        logins = self.settings.hosts.split(",") if self.settings.hosts else []
        return [re.sub(r"^\d+/", "", login) for login in logins]

    def on(self, host: str, line: str, content: bytes = b"") -> bytes:
        """Runs a line of shell on another machine."""
        done = subprocess.run([*self.ssh, host, line], input=content, capture_output=True, check=False)
        if done.returncode:
            said = done.stderr.decode(errors="replace").strip().rpartition("\n")[2]
            raise Refused(f"{host}: {said or f'status {done.returncode}'}", MISSING)
        return done.stdout

    def send(self, host: str) -> None:
        """Sends the files that the machine doesn't have, all at once."""
        there = set(self.on(host, f"mkdir -p {STORE} && ls {STORE}").decode().split())
        missing = [path for path in sorted(self.folder.files.iterdir()) if path.name not in there]
        if not missing:
            return
        content = io.BytesIO()
        with tarfile.open(fileobj=content, mode="w") as archive:
            for path in missing:
                archive.add(path, path.name)
        # A file takes its name when it is whole.
        line = f"cd {STORE} && new=$(mktemp -d ./new.XXXXXX) && tar -x -C $new && mv $new/* . && rmdir $new"
        self.on(host, line, content.getvalue())

    def at_a_time(self, most: int) -> list[str]:
        """How many parts at a time; on other machines, where nothing else is said, one for each processor at first."""
        if not self.settings.hosts:
            return ["-j", str(most)]
        share = str(most) if self.settings.jobs else f"{max(1, 100 >> self.rounds)}%"
        return ["-j", share, "-S", self.settings.hosts, "--ssh", shlex.join([*self.guard, *self.ssh])]

    def start(self, keys: Sequence[str], most: int) -> None:
        for host in self.hosts():
            self.send(host)
        listed = self.folder.path / "keys"
        listed.write_text("".join(f"{key}\n" for key in keys), encoding="utf-8")
        store = STORE if self.settings.hosts else str(self.folder.files)
        guard = " ".join(self.guard)
        line = f"exec {guard} python3 {shlex.quote(f'{store}/{self.runner}')} {shlex.quote(store)} {{}}"
        words = ["--plain", "--will-cite", "-a", str(listed), "--results", f"{self.folder.runs}/{{}}.out"]
        words += [*self.at_a_time(most), *self.settings.options, line]
        self.rounds += 1
        with open(self.log, "wb") as log:
            self.process = subprocess.Popen(
                [*self.guard, self.program, *words], stdin=subprocess.DEVNULL, stdout=log, stderr=log, process_group=0
            )

    def is_at_work(self) -> bool:
        return self.process is not None and self.process.poll() is None

    def stop(self) -> None:
        if self.process is None:
            return
        # At the first signal it begins no more parts, at the second one it ends those that run.
        for number in (signal.SIGTERM, signal.SIGTERM, signal.SIGKILL):
            if self.process.poll() is None:
                self.process.send_signal(number)
                try:
                    self.process.wait(PATIENCE if number == signal.SIGTERM else None)
                except subprocess.TimeoutExpired:
                    continue
        self.process = None

    def told(self, key: str) -> str:
        said = self.log.read_text(encoding="utf-8", errors="replace").strip()
        return f"parallel says: {said.splitlines()[0]}" if said else super().told(key)
