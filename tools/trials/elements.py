"""How trials take items of DER apart: the elements that octets are."""
from typing import NamedTuple

SEQUENCE = 0x30


class Part(NamedTuple):
    """An element: its identifier octet, its content, and all its octets."""
    tag: int
    content: bytes
    octets: bytes


def parts_of(octets):
    """The elements that octets are, one after another, of tags below 31."""
    parts, at = [], 0
    while at < len(octets):
        first, begin = octets[at + 1], at + 2
        if first > 0x80:
            begin += first - 0x80
            first = int.from_bytes(octets[at + 2:begin], "big")
        end = begin + first
        parts.append(Part(octets[at], octets[begin:end], octets[at:end]))
        at = end
    return parts
