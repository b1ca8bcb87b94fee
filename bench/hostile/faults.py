"""Families of `certpath frame --why` and `certpath why`: items that are other, whose first fault is at their end or deep within."""
from family import UNLIMITED, Files, family, of_octets
from kinds import ELEMENTS, ITEMS_OF_WHY
from one_item import ANCHOR, FRAME, MANY, ONE_ITEM, X, nested
from parts import element, entry, integer, revocation_list

WHY = ("--why",)
# A BOOLEAN that is neither 00 nor ff (X.690, 11.1), a NULL, and an INTEGER that is negative.
BROKEN, NULL, NEGATIVE = bytes.fromhex("010105"), bytes.fromhex("0500"), bytes.fromhex("0201ff")
# An item without parts.
EMPTY = bytes.fromhex("3000")
# So many levels are around the SEQUENCE whose last element is broken: that is at the fiftieth, the last that is read.
LEVELS = 48


def ending_broken(size):
    """A SEQUENCE of NULLs of about so many octets, and a broken element at its end."""
    return element(0x30, NULL * ((size - FRAME) // len(NULL)), BROKEN)


@of_octets("frame-why-flat", "an item of NULLs whose last element is broken", "frame", words=WHY, sizes=ONE_ITEM, known=ELEMENTS)
def frame_why_flat(size):
    return [ending_broken(size)]


@of_octets("frame-why-33", "an item of SEQUENCEs of 33 NULLs each, one more than a vector of 32 holds, the last element broken", "frame",
           words=WHY, sizes=ONE_ITEM, known=ELEMENTS)
def frame_why_33(size):
    one = element(0x30, NULL * 33)
    return [element(0x30, one * ((size - FRAME) // len(one)), BROKEN)]


@of_octets("frame-why-deep", "an item of NULLs at the fiftieth level, the last element broken", "frame", words=WHY, sizes=ONE_ITEM, known=ELEMENTS)
def frame_why_deep(size):
    return [nested(LEVELS, ending_broken(size))]


@family("frame-why-entries", "a list whose last entry has a negative serial number", "frame", words=(*WHY, *UNLIMITED), known=ELEMENTS, **MANY)
def frame_why_entries(count):
    return [revocation_list(X, entry(integer(1)) * count + entry(NEGATIVE))]


@family("frame-why-empty", "n items without parts", "frame", words=WHY)
def frame_why_empty(count):
    return [EMPTY * count]


@family("why-anchors-other", "n anchors without parts", "why", other=None, known=ITEMS_OF_WHY)
def why_anchors_other(count):
    return Files([ANCHOR], [EMPTY] * count, [])
