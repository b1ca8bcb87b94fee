"""The trust anchors of a run."""
from typing import NamedTuple, Optional, Tuple

from ..items import Kind, frame
from ..loading import LeftOut, load
from .files import digest, opened

ABOVE = "an item is above the limit, and none after it is read"


class BadAnchors(ValueError):
    """No anchor can be used."""


class Anchors(NamedTuple):
    """The anchors of a file of PEM, DER or PKCS #7, as it was read once for the whole run."""
    octets: bytes
    """The items, in DER one after another."""
    items: int
    """How many items there are, up to one that is above the limit."""
    usable: int
    """How many of them are certificates: no other one can end a path."""
    left: int
    """How many things of the file are left out."""
    first_left: Optional[LeftOut]
    """The first of these."""
    is_whole: bool
    """Whether no item is above the limit."""

    @property
    def sha256(self) -> str:
        return digest(self.octets)

    def amiss(self, path: str) -> str:
        """What is wrong with them, as a line; empty where nothing is."""
        causes = [f"{self.usable} of {self.items} items are certificates"] \
            if self.usable < self.items else []
        further = f", and {self.left - 1} more" if self.left > 1 else ""
        causes += [f"{self.first_left}; left out{further}"] if self.first_left else []
        causes += [] if self.is_whole else [ABOVE]
        return f"anchors {path}: {'; '.join(causes)}" if causes else ""

    def why_none(self) -> str:
        """Why no anchor can be used."""
        if self.first_left and not self.items:
            return str(self.first_left)
        return "none of its items is a certificate" if self.is_whole else ABOVE


def digests_of(octets: bytes, limit: int) -> Tuple[str, ...]:
    """The digests of the items of a file, in hex, by position."""
    items = frame(octets, limit)
    return tuple(digest(items.octets(it)) for it in range(len(items)))


def read(path: str, limit: int) -> Anchors:
    """The anchors of a file. BadAnchors where none of them can be used, OSError."""
    with opened(path) as file:
        loaded = load(file.read(), path)
    octets, first_left = loaded.items.data, next(iter(loaded.left), None)
    items = frame(octets, limit)
    usable = sum(it is Kind.CERTIFICATE for it in items.kinds())
    found = Anchors(octets, len(items), usable, len(loaded.left), first_left, items.end.is_clean)
    if not usable:
        raise BadAnchors(f"anchors {path}: {found.why_none()}")
    return found
