"""'spread' by Slurm, with this machine as its one node."""

import tempfile
import unittest
from pathlib import Path

from servers import slurm
from spread_cases import Cases


class OneNode(Cases, unittest.TestCase):
    """Slurm, as it is started for the tests."""

    words = ["engine=slurm"]

    @classmethod
    def prepare(cls):
        room = tempfile.TemporaryDirectory()
        cls.addClassCleanup(room.cleanup)
        cls.setting = cls.enterClassContext(slurm(Path(room.name)))


if __name__ == "__main__":
    unittest.main()
