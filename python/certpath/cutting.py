"""Cuts octets into items."""
from array import array
from ctypes import byref
from typing import NamedTuple, Tuple

from . import library

# How many octets are cut in one call, or more if an item is longer.
WINDOW = 1 << 16
# Where items begin is four octets each in a file that has fewer octets than this.
SMALL = 1 << 32
# How a file ends, by the numbers of certpath.h.
ENDS = ("clean", "cut", "fault")


class End(NamedTuple):
    """How a file ends after its items: "clean", "cut" or "fault", and where they end.

    >>> import certpath
    >>> leaf = open("samples/leaf.der", "rb").read()
    >>> certpath.frame(leaf).end, certpath.frame(leaf[:-1]).end, certpath.frame(leaf + b"text").end
    (End(word='clean', at=884), End(word='cut', at=0), End(word='fault', at=884))
    """
    word: str
    at: int

    @property
    def is_clean(self) -> bool:
        return self.word == "clean"


class Cutter:
    """Cuts octets into items, a window of them at a time, so that many small items take little
    memory beside the octets."""

    def __init__(self, octets: bytes, limit: int) -> None:
        self.length, self.limit = len(octets), limit
        self.octets, self.framed = octets, library.Framed()
        # (a file may have millions of items, so that half the room counts)
        self.starts: "array[int]" = array("I" if len(octets) < SMALL else "Q")
        self.spans: "array[int]" = array("Q")

    def cut(self, at: int, length: int) -> Tuple[str, int]:
        """Cuts a window: notes where its items begin, and gives how it ends."""
        window = library.part_of(self.octets, at, length)
        self.make_room(length // 64 + 16)
        while True:
            room = len(self.spans) // 2
            spans = library.spans_at(self.spans.buffer_info()[0])
            status = library.loaded().certpath_frame(*window, self.limit, spans, room,
                                                     byref(self.framed))
            if status != library.TOO_SMALL:
                break
            self.make_room(self.framed.count)
        library.refuse(status)
        self.starts.extend(map(at.__add__, self.spans[:2 * self.framed.count:2]))
        return ENDS[self.framed.end], at + self.framed.at

    def make_room(self, count: int) -> None:
        """Makes room for so many spans, each an offset and a length."""
        if len(self.spans) < 2 * count:
            self.spans = array("Q", bytes(2 * count * self.spans.itemsize))

    def all(self) -> End:
        """Cuts all of the octets; gives how they end."""
        at, size = 0, WINDOW
        while True:
            length = min(size, self.length - at)
            word, end = self.cut(at, length)
            if word == "fault" or at + length == self.length:
                self.starts.append(end)
                return End(word, end)
            # (an item may be longer than the window)
            size = 2 * size if end == at else WINDOW
            at = end


def is_one(octets: bytes, limit: int) -> bool:
    """Whether octets are one item of at most so many content octets, and nothing else."""
    span, framed = library.Span(), library.Framed()
    status = library.loaded().certpath_frame(*library.octets_of(octets), limit, byref(span), 1,
                                             byref(framed))
    if status == library.TOO_SMALL:
        return False
    library.refuse(status)
    return framed.count == 1 and ENDS[framed.end] == "clean"
