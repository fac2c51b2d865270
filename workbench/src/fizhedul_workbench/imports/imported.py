"""What an import gives."""

from dataclasses import dataclass

from ..lrp import Relation


@dataclass(frozen=True)
class Imported:
    """Remarks that go before the relations, what is not carried over, the relations."""

    remarks: list[str]
    left: list[str]
    relations: list[Relation]
