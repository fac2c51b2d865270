"""How long it takes to prove the crates that are left, by the table of docs/gate.md and by how fast this machine is.

The table tells what each crate cost when the gate was last measured. How much slower or faster this machine is, the crates
tell that were proved here.
"""

import re

# A row of the table, with the minutes of the crate's proof, which are left out where they are next to nothing.
ROW = re.compile(r"(?m)^\| `(lrp_\w+)` \| ([\d.]*) \|")
# The seconds of a proof for which no minutes stand there, and those of a line of code where there is no table.
LEAST, LINE = 3, 0.2
# What a further job brings. It is a guess that fits the first commands which were measured.
GAIN = 0.6
# For so many seconds of work the table's own machine speaks, beside what was proved here.
TABLE = 60


def costs_of(page, lines):
    """The seconds of each crate's proof. A crate without a row has what others of as many lines have on the average."""
    told = {name: 60 * float(minutes or 0) or LEAST for name, minutes in ROW.findall(page) if name in lines}
    known = sum(lines[name] for name in told)
    line = sum(told.values()) / known if known else LINE
    return {name: told.get(name, line * lines[name]) for name in lines}


def turns(ready, room):
    """The crates whose turn it is, each with its jobs, where there is room for so many jobs. Those that are ready are given,
    the most urgent one first, which gets what the others leave."""
    spare = max(1, room - len(ready) + 1)
    return [(name, 1 if at else spare) for at, name in enumerate(ready[: max(0, room)])]


def speed_of(jobs):
    """How many seconds of work so many jobs do in a second."""
    return 1 + GAIN * (jobs - 1)


class Forecast:
    """How long it still takes, with so many jobs at a time. Crates, and what each stands on, are given by name."""

    def __init__(self, below, costs, ranks, slots):
        self.below, self.costs, self.ranks, self.slots = below, costs, ranks, slots
        self.told = self.taken = TABLE

    def note(self, name, jobs, seconds):
        """Takes note of a proof that has ended."""
        self.told += self.costs[name]
        self.taken += seconds * speed_of(jobs)

    def work(self, name, jobs=1, seconds=0):
        """The seconds of work that a crate still takes, of which so many jobs have been at work for so many seconds."""
        whole = self.costs[name] * self.taken / self.told
        return max(whole - seconds * speed_of(jobs), whole / 10)

    def seconds_left(self, waiting, running):
        """The seconds on the clock till no crate waits and none is at work; for each of these its jobs and seconds are given."""
        left = {name: [self.work(name, *at_work), at_work[0]] for name, at_work in running.items()}
        waiting, clock = set(waiting), 0
        while waiting or left:
            self.begin(waiting, left)
            step = min(work / speed_of(jobs) for work, jobs in left.values())
            clock += step
            for one in left.values():
                one[0] -= step * speed_of(one[1])
            left = {name: one for name, one in left.items() if one[0] > 1e-6}
        return clock

    def begin(self, waiting, left):
        """Moves the crates whose turn it is from those that wait to those that are left to be done."""
        open_ones = waiting | set(left)
        ready = sorted((it for it in waiting if open_ones.isdisjoint(self.below[it])), key=lambda it: -self.ranks[it])
        for name, jobs in turns(ready, self.slots - sum(jobs for _, jobs in left.values())):
            left[name] = [self.work(name), jobs]
            waiting.remove(name)


def shown(seconds):
    """A time that lies ahead, in words."""
    minutes = round(seconds / 60)
    return f"about {minutes} min" if minutes else "less than a minute"
