"""Parts by Dask: on workers of this machine that are started here, or on those of a scheduler that is named."""

import importlib.util
import logging
import os
import shutil
import signal
import subprocess
import sys
import tempfile
from collections.abc import Sequence
from contextlib import suppress
from pathlib import Path
from types import ModuleType
from typing import Any

from distributed import Client

from ..words import MISSING, Refused
from .engine import ENDS_WITH_PARENT, RUNNER, Engine, Settings
from .store import Folder

LOOPBACK = "127.0.0.1"
# Seconds in which a scheduler and its workers have to be there.
PATIENCE = 60


def named_module(path: Path) -> ModuleType:
    """The module of a file under the file's own name, by which workers that were sent the file know it too."""
    spec = importlib.util.spec_from_file_location(path.stem, path)
    assert spec is not None and spec.loader is not None
    module = importlib.util.module_from_spec(spec)
    sys.modules[path.stem] = module
    spec.loader.exec_module(module)
    return module


class Cluster:
    """A scheduler with workers of its own on this machine, each a process of one thread."""

    def __init__(self, folder: Path, workers: int, options: Sequence[str]) -> None:
        self.address = folder / "scheduler.json"
        self.address.unlink(missing_ok=True)
        self.log = open(folder / "dask.log", "wb")
        # A part whose worker is lost is tried again by who counts the tries.
        self.settings = {**os.environ, "DASK_DISTRIBUTED__SCHEDULER__ALLOWED_FAILURES": "0"}
        where = ["--scheduler-file", str(self.address), "--no-dashboard", "--host", LOOPBACK]
        several = ["--nworkers", str(workers), "--nthreads", "1", "--memory-limit", "0"]
        room = ["--local-directory", str(folder / "dask")]
        self.processes = [self.begin("dask_scheduler", [*where, "--port", "0"])]
        self.processes.append(self.begin("dask_worker", [*where, *several, *room, *options]))

    def begin(self, module: str, words: Sequence[str]) -> "subprocess.Popen[bytes]":
        guard = ENDS_WITH_PARENT if shutil.which("setpriv") else []
        command = [*guard, sys.executable, "-m", f"distributed.cli.{module}", *words]
        return subprocess.Popen(
            command, stdin=subprocess.DEVNULL, stdout=self.log, stderr=self.log, env=self.settings, process_group=0
        )

    def close(self) -> None:
        for process in reversed(self.processes):
            try:
                os.killpg(process.pid, signal.SIGKILL)
            except ProcessLookupError:
                pass
            process.wait()
        self.log.close()


class Dask(Engine):
    """Tasks of a client; what they give is written to the folder here."""

    def __init__(self, folder: Folder, settings: Settings) -> None:
        super().__init__(folder, settings)
        for name in ("distributed", "tornado", "asyncio"):
            logging.getLogger(name).setLevel(logging.CRITICAL)
        self.room = tempfile.TemporaryDirectory()
        # The name has the digest, since workers keep a module by its name.
        file = Path(self.room.name) / f"fizhedul_part_{self.runner[:16]}.py"
        file.write_bytes(RUNNER.read_bytes())
        self.part = named_module(file)
        self.futures: dict[str, Any] = {}
        self.causes: dict[str, str] = {}
        workers = settings.jobs or os.cpu_count() or 1
        self.cluster = None if settings.scheduler else Cluster(folder.path, workers, settings.options)
        try:
            self.client = self.connected(workers)
            self.client.upload_file(str(file))
        except BaseException:
            if self.cluster:
                self.cluster.close()
            raise

    def connected(self, workers: int) -> Client:
        """A client of the scheduler, once it has workers."""
        try:
            if self.cluster is None:
                client = Client(self.settings.scheduler, timeout=PATIENCE // 3)
                client.wait_for_workers(1, timeout=PATIENCE)
            else:
                client = Client(scheduler_file=str(self.cluster.address), timeout=PATIENCE)
                client.wait_for_workers(workers, timeout=PATIENCE)
        except (OSError, TimeoutError, ValueError) as fault:
            raise Refused(f"Dask: {str(fault) or 'no worker came'}", MISSING) from fault
        return client

    def send(self) -> None:
        """Sends to each machine the files that it doesn't have."""
        paths = {path.name: path for path in self.folder.files.iterdir()}
        asked: set[str] = set()
        for worker, (place, digests) in self.client.run(self.part.missing, list(paths)).items():
            if place not in asked and digests:
                files = {each: (paths[each].read_bytes(), paths[each].stat().st_mode & 0o777) for each in digests}
                self.client.run(self.part.put, files, workers=[worker])
            asked.add(place)

    def start(self, keys: Sequence[str], most: int) -> None:
        self.send()
        self.causes = {}
        self.waiting = list(keys)
        self.most = most
        self.refill()

    def refill(self) -> None:
        """Submits parts while fewer than are allowed at a time are under way."""
        while self.waiting and len(self.futures) < self.most:
            key = self.waiting.pop(0)
            self.futures[key] = self.client.submit(self.part.run_in_memory, key, pure=False)

    def is_at_work(self) -> bool:
        for key, future in list(self.futures.items()):
            if future.done():
                del self.futures[key]
                self.take(key, future)
        self.refill()
        return bool(self.futures)

    def take(self, key: str, future: Any) -> None:
        """Writes what a part gave, or keeps why it gave nothing."""
        if future.status != "finished":
            fault = future.exception() if future.status == "error" else None
            lost = type(fault).__name__ == "KilledWorker"
            self.causes[key] = "its worker was lost" if lost else f"Dask says {fault or future.status}"
            return
        output, report = future.result()
        self.folder.output(key).write_bytes(output)
        self.folder.errors(key).write_text(report, encoding="utf-8")

    def stop(self) -> None:
        if self.futures:
            # A scheduler that does not answer has lost its workers too.
            with suppress(OSError, TimeoutError):
                self.client.cancel(list(self.futures.values()))
                self.client.run(self.part.end_all, on_error="ignore")
        self.futures, self.waiting = {}, []

    def close(self) -> None:
        with suppress(OSError, TimeoutError):
            self.client.close(timeout=PATIENCE)
        if self.cluster:
            self.cluster.close()
        self.room.cleanup()

    def told(self, key: str) -> str:
        return self.causes.get(key) or super().told(key)
