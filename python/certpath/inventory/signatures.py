"""Which keys vouch for the items of a shard: as a voucher file says, or as OpenSSL verifies."""
import re
from typing import Callable, Container, Dict, Iterator, List, Tuple

from .. import openssl
from ..items import Items, Kind, Signed, frame
from ..names import Name
from ..questions import holders_by_issuer, signed_at
from .files import digest
from .index import Index

LINE = re.compile(r"[0-9A-Fa-f]{64} [0-9A-Fa-f]{64}")
# What this process has verified, for so many items at most: some 30 MB.
MOST_REMEMBERED = 1 << 16
REMEMBERED: Dict[Tuple[str, str, bool, int], List[str]] = {}


class BadLine(ValueError):
    """A line of a voucher file is neither empty nor two digests."""


def lines_of(path: str, summed: Callable[[bytes], None] = lambda octets: None) -> Iterator[str]:
    """The lines of a voucher file that aren't empty; BadLine with the number of the first bad one.
    `summed` is given all octets."""
    with open(path, "rb") as file:
        for number, line in enumerate(file, 1):
            summed(line)
            text = line.decode("ascii", "replace").rstrip("\r\n")
            if LINE.fullmatch(text):
                yield text
            elif text:
                raise BadLine(f"vouchers line {number}")


def given(index: Index, items: List[str]) -> Dict[str, List[str]]:
    """By the digest of each item the digests of the keys that the voucher file has for it."""
    return {it: index.keys_for(it) for it in items}


class Verifying:
    """Verifies the signatures of a shard by OpenSSL. What is verified depends on the item, on the
    certificates under its issuer's name, and on the options: it is remembered by these."""

    def __init__(self, items: Items, anchors: Items, weak: bool, tries: int):
        self.items, self.anchors, self.weak, self.tries = items, anchors, weak, tries
        self.judge, self.places = openssl.Judge(tries=tries), holders_by_issuer(items, anchors)
        self.holders: Dict[Name, openssl.KeyHolders] = {}
        self.marks: Dict[Name, str] = {}

    def mark(self, issuer: Name) -> str:
        """A digest of the certificates under a name, in their order."""
        if issuer not in self.marks:
            octets = ((self.anchors if it.is_anchor else self.items).octets(it.position)
                      for it in self.places[issuer])
            self.marks[issuer] = digest("".join(map(digest, octets)).encode())
        return self.marks[issuer]

    def keys(self, item: Signed) -> List[str]:
        """The digests of the keys that verify an item's signature."""
        if item.issuer not in self.holders:
            self.holders[item.issuer] = self.judge.holders(
                [it.certificate(self.items, self.anchors) for it in self.places[item.issuer]])
        tried = self.judge.judged(item, self.holders[item.issuer]).tried
        taken = [it.key for it in tried if it.why is None and (self.weak or not it.weaknesses)]
        return [*dict.fromkeys(map(digest, taken))]

    def remembered(self, item: Signed, name: str) -> List[str]:
        """The same of an item by its digest, which is verified once by this process."""
        known = name, self.mark(item.issuer), self.weak, self.tries
        if known not in REMEMBERED:
            if len(REMEMBERED) >= MOST_REMEMBERED:
                REMEMBERED.clear()
            REMEMBERED[known] = self.keys(item)
        return REMEMBERED[known]


def verified(bundle: bytes, anchors: bytes, limit: int, weak: bool, tries: int,
             shared: Container[str] = ()) -> Dict[str, List[str]]:
    """By the digest of each item the digests of the keys that OpenSSL verifies its signature by.
    Those of `shared` are in other shards, too, and are remembered."""
    items = frame(bundle, limit)
    verifying, keys = Verifying(items, frame(anchors, limit), weak, tries), {}
    for position, kind in enumerate(items.kinds()):
        if kind is not Kind.OTHER:
            item = signed_at(items, position)
            name = digest(item.public_bytes())
            keys[name] = (verifying.remembered(item, name) if name in shared
                          else verifying.keys(item))
    return keys


def text(keys: Dict[str, List[str]], items: List[str]) -> str:
    """A voucher file for some items."""
    return "".join(f"{key} {item}\n" for item in items for key in keys.get(item, ()))
