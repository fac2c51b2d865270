"""What runs parts: GNU parallel, Slurm and Dask have one interface."""

import shutil
from abc import ABC, abstractmethod
from collections.abc import Callable, Sequence
from dataclasses import dataclass
from pathlib import Path

from ..words import MISSING, Refused
from .store import Folder

RUNNER = Path(__file__).with_name("run_part.py")
# A program that is started so ends with the one that started it, whatever ends that.
ENDS_WITH_PARENT = ["setpriv", "--pdeathsig", "KILL", "--"]


@dataclass(frozen=True)
class Settings:
    """How an engine is to run parts: how many at a time, on which machines, with which words of its own, and how often
    each of them."""

    jobs: int | None = None
    hosts: str | None = None
    scheduler: str | None = None
    options: Sequence[str] = ()
    tries: int = 1


class Engine(ABC):
    """Runs parts; each writes its output and its report to the files of the folder that bear its key."""

    def __init__(self, folder: Folder, settings: Settings) -> None:
        self.folder = folder
        self.settings = settings
        self.runner = folder.keep(RUNNER.read_bytes())

    @abstractmethod
    def start(self, keys: Sequence[str], most: int) -> None:
        """Begins to run these parts, at most so many at a time."""

    @abstractmethod
    def is_at_work(self) -> bool:
        """Whether some part may still write its report."""

    @abstractmethod
    def stop(self) -> None:
        """Ends whatever `start` began; when this returns, nothing of it runs."""

    def close(self) -> None:
        """Ends what is kept from one start to the next."""

    def told(self, key: str) -> str:
        """What is known of a part that ended without a report."""
        return "it ended without a report"


def need(tool: str, package: str) -> str:
    """The path of a tool, which is one of a Debian package."""
    found = shutil.which(tool)
    if found is None:
        raise Refused(f"the Debian package {package} is missing (apt-get install {package})", MISSING)
    return found


def engine_of(name: str) -> Callable[[Folder, Settings], Engine]:
    """The engine of a name. Only the chosen one is imported, since each needs packages of its own."""
    if name == "slurm":
        from .on_slurm import Slurm

        return Slurm
    if name == "dask":
        from .on_dask import Dask

        return Dask
    from .on_parallel import Parallel

    return Parallel
