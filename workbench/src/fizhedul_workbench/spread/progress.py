"""What is told on standard error while parts run."""

import sys
import time

PAUSE = 1.0


def tell(line: str) -> None:
    print(f"spread: {line}", file=sys.stderr, flush=True)


class Progress:
    """How many parts are done: a line each second at most, and one for each failure."""

    def __init__(self, total: int) -> None:
        self.total = total
        self.done = 0
        self.told = time.monotonic()

    def part_is_done(self) -> None:
        self.done += 1
        now = time.monotonic()
        if now >= self.told + PAUSE or self.done == self.total:
            self.told = now
            tell(f"{self.done} of {self.total} parts are done")

    def part_has_failed(self, number: int, why: str) -> None:
        tell(f"part {number}: {why}")
