"""Ranges of a log's entries: which are missing between answers, and which stand in two of them."""
from typing import Iterable, List, NamedTuple, Optional


class Range(NamedTuple):
    """Entries by their numbers in the log, both ends with them."""
    first: int
    last: int

    def __str__(self) -> str:
        return f"{self.first}" if self.first == self.last else f"{self.first} to {self.last}"


class Covered(NamedTuple):
    """What answers hold of a log."""
    missing: List[Range]
    """What none of them has, up to the last entry that one has or was asked for."""
    twice: List[Range]
    """What several of them have."""


def covered(held: Iterable[Range], asked_up_to: Optional[int] = None) -> Covered:
    """Compares the ranges of answers, in any order."""
    missing: List[Range] = []
    twice: List[Range] = []
    end: Optional[int] = None
    for it in sorted(held):
        if end is not None and it.first > end + 1:
            missing.append(Range(end + 1, it.first - 1))
        if end is not None and it.first <= end:
            twice.append(Range(it.first, min(end, it.last)))
        end = it.last if end is None else max(end, it.last)
    if end is not None and asked_up_to is not None and asked_up_to > end:
        missing.append(Range(end + 1, asked_up_to))
    return Covered(missing, twice)
