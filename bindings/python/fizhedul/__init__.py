"""Exact queries over relations that repeat for ever.

A database has relations of infinitely many rows, as all departures at minute 5 of every hour. A query is a formula of
first-order logic over them, and its answers are exact, over all integers:

>>> import fizhedul
>>> db = fizhedul.Database("relation bus(t: time) { (5+60n); }")
>>> early = db.query("{ t: time | (bus(t) and t >= 600) }")
>>> early.decide()
(605,)
>>> list(early.list(0, 1000))
[(605,), (665,), (725,), (785,), (845,), (905,), (965,)]

All calls are made in this process, by the shared library `libfizhedul`: the one in the package, the one that the
variable FIZHEDUL_LIBRARY names, or that of the system.
"""

from .databases import Database, open
from .engine import MissingLibrary
from .queries import Query
from .refusals import Refused
from .steps import Step
from .written import Point, Row

__all__ = ["Database", "MissingLibrary", "Point", "Query", "Refused", "Row", "Step", "open"]
