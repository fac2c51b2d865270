"""'spread' by Dask, on four workers of this machine."""

import tempfile
import unittest
from pathlib import Path

from servers import dask
from spread_cases import Cases, FewCases, has_module, leave_out


class Workers(Cases, unittest.TestCase):
    """Workers that are started for each question."""

    words = ["engine=dask", "jobs=4"]

    @classmethod
    def prepare(cls):
        if not has_module("distributed"):
            leave_out("'distributed'", "python3-distributed")


class OthersWorkers(FewCases, unittest.TestCase):
    """Workers that somebody else has started."""

    @classmethod
    def prepare(cls):
        room = tempfile.TemporaryDirectory()
        cls.addClassCleanup(room.cleanup)
        cls.words = ["engine=dask", f"scheduler={cls.enterClassContext(dask(Path(room.name), 4))}"]


if __name__ == "__main__":
    unittest.main()
