"""Object identifiers, by their numbers or by the content octets of an OBJECT IDENTIFIER."""
from typing import Union

from . import arguments

# As many octets has an identifier at most, and as many digits one of its numbers.
MOST_OCTETS, MOST_DIGITS = 128, 40
# What a call takes as an identifier: numbers as `2.5.29.15`, or content octets.
IdentifierGiven = Union[str, bytes]


def subidentifier(number: int) -> bytes:
    """A subidentifier: seven bits an octet, the highest first (X.690, 8.19.2)."""
    found = [number & 0x7f]
    while number := number >> 7:
        found.append(0x80 | number & 0x7f)
    return bytes(reversed(found))


def is_number(text: str) -> bool:
    """Whether a text is a number, without zeros before it."""
    return text.isascii() and text.isdigit() and len(text) <= MOST_DIGITS and text == str(int(text))


def octets_of(numbers: str, what: str,
              others: str = "no numbers with dots between them, as 2.5.29.15 has") -> bytes:
    """The content octets of numbers as `2.5.29.15`; ValueError of any other text."""
    parts = numbers.split(".")
    if not all(map(is_number, parts)):
        raise ValueError(f"{what}: {others}")
    first, *further = map(int, parts)
    if not further or first > 2 or first < 2 and further[0] > 39:
        raise ValueError(f"{what}: no object identifier begins so (X.690, 8.19.4)")
    octets = b"".join(map(subidentifier, [40 * first + further[0], *further[1:]]))
    if len(octets) > MOST_OCTETS:
        raise ValueError(f"{what}: an identifier of more than {MOST_OCTETS} octets")
    return octets


def identifier_of(given: IdentifierGiven, what: str) -> bytes:
    """The content octets of an identifier that is given by its numbers, or as those octets."""
    if isinstance(given, str):
        return octets_of(given, what)
    return arguments.octets(given, what, "numbers as '2.5.29.15' are needed, or content octets")
