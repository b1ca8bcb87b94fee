"""Blocks: which octets of which files are worked on together."""
from typing import Iterable, List, NamedTuple, Tuple

from .files import Span

# About how many octets a block has, and how many spans at most.
BLOCKSIZE, MOST_SPANS = 1 << 22, 2000


class Block(NamedTuple):
    """Spans of files, in the order of the files."""
    number: int
    spans: Tuple[Span, ...]

    @property
    def length(self) -> int:
        return sum(it.length for it in self.spans)


def blocks_of(spans: Iterable[Span], blocksize: int) -> List[Block]:
    """Spans in their order, small ones together."""
    groups: List[List[Span]] = []
    size = 0
    for span in spans:
        if not groups or size + span.length > blocksize or len(groups[-1]) == MOST_SPANS:
            groups.append([])
            size = 0
        groups[-1].append(span)
        size += span.length
    return [Block(number, tuple(group)) for number, group in enumerate(groups)]
