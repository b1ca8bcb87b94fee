"""Vouchers: which keys vouch for which items."""
import hashlib
import os
from ctypes import byref
from typing import Any, Dict, Iterable, Iterator, Tuple, Union

from . import arguments, library
from .items import Octets

DIGEST = library.DIGEST
DIGITS = 2 * DIGEST
# What text consists of. That 64 octets of digests are such happens once in 2^88 times.
TEXT = bytes(range(32, 127)) + b"\t\r\n"
# How many octets of a report on no items are asked for.
ROOM = 64
# What a call takes as vouchers, and what is done with other things.
NEEDED = "Vouchers are needed, the text of a voucher file, or pairs of digests as octets"
OF_TEXT, OF_PATH = "Vouchers.from_text() reads a voucher file", "Path.read_text() gives the text"
OF_PAIRS, COLLECTIONS = "Vouchers() takes several pairs", (list, tuple, set, frozenset, dict)
OF_DIGITS = "bytes.fromhex() makes them of hex digits"


def refuse_lines(text: bytes) -> None:
    """BadLine if the octets are no voucher file, as the library's reader of voucher files says.

    It reads vouchers for a report; this one is on no items at all.
    """
    settings = library.Settings(moment=library.Moment(1970, 1, 1))
    given = b"", 0, b"", 0, *library.octets_of(text), byref(settings)
    library.text_of(lambda *room: library.loaded().certpath_why(*given, *room), ROOM)


def pairs_of(octets: Octets, what: str = "vouchers") -> bytes:
    """Pairs of digests one after another; ValueError if they can't be such: they are text, or
    of another length."""
    octets = arguments.octets(octets, what, NEEDED, OF_TEXT)
    if octets and not octets[:library.PAIR].translate(None, TEXT):
        raise ValueError(f"{what}: these octets are text, not pairs of digests; "
                         "Vouchers.from_text() reads a voucher file")
    if len(octets) % library.PAIR:
        raise ValueError(f"{what}: pairs of {library.PAIR} octets are needed, and "
                         f"{len(octets) % library.PAIR} are left over")
    return octets


def refuse_type(given: Any) -> None:
    """TypeError of what is neither vouchers nor text nor octets, with what makes it such."""
    remedy = (OF_PATH if isinstance(given, os.PathLike)
              else OF_PAIRS if isinstance(given, COLLECTIONS) else None)
    if remedy is not None:
        raise TypeError(f"vouchers: {NEEDED}, not {arguments.type_name(given)}; {remedy}")


def refuse_path(text: str) -> None:
    """ValueError of the path of a file in the place of its text."""
    if "\n" not in text and os.path.isfile(text):
        raise ValueError("vouchers: the text of a voucher file is needed, and this is the path of "
                         f"a file; {OF_PATH}")


class Vouchers:
    """Which keys vouch for which items: pairs of SHA-256 digests, as a voucher file has them.

    >>> import certpath
    >>> vouchers = certpath.Vouchers.from_text(open("samples/vouchers.txt").read())
    >>> vouchers, certpath.Vouchers(vouchers) == vouchers
    (<Vouchers(4 pairs)>, True)
    >>> leaf, issuer = certpath.load("samples/fullchain.pem").items
    >>> made = certpath.Vouchers()
    >>> made.add(issuer.public_key_bytes, leaf.public_bytes())
    >>> [*made] == [(issuer.read().key_digest, leaf.read().item_digest)], {*made} < {*vouchers}
    (True, True)

    To go over them gives the pairs, the digest of a key and that of an item, in ascending order.
    """

    def __init__(self, pairs: Iterable[Tuple[bytes, bytes]] = ()) -> None:
        if isinstance(pairs, (str, bytes, bytearray, memoryview)):
            raise TypeError("vouchers: pairs of digests are needed; Vouchers.from_text() reads a "
                            "voucher file, Vouchers.from_octets() pairs one after another")
        self._pairs: Dict[bytes, None] = {}
        for pair in pairs:
            try:
                key_digest, item_digest = pair
            except (TypeError, ValueError):
                raise TypeError("vouchers: each is a pair of digests, of a key and of an item, not "
                                f"{arguments.type_name(pair)}") from None
            self.add_digests(key_digest, item_digest)

    @classmethod
    def from_text(cls, text: Union[str, bytes]) -> "Vouchers":
        """The vouchers of a file as ./vouch writes it, by its text or octets.

        Each line is empty, or has two digests of 64 hex digits in either case with one space
        between them. A line ends by LF or CR LF; the last one may end by nothing. BadLine of any
        other line, with its number: the library's own reader says so.
        """
        refuse_type(text)
        if isinstance(text, str):
            refuse_path(text)
        octets = text.encode() if isinstance(text, str) else arguments.octets(text, "the text")
        refuse_lines(octets)
        made = cls()
        for line in octets.split(b"\n"):
            if len(line) > DIGITS:
                key, item = line[:DIGITS], line[DIGITS + 1:2 * DIGITS + 1]
                made._pairs[bytes.fromhex((key + item).decode())] = None
        return made

    @classmethod
    def from_octets(cls, octets: Octets) -> "Vouchers":
        """The vouchers of pairs one after another, as `octets` gives them; ValueError of octets
        that can't be such."""
        octets, made = pairs_of(octets), cls()
        for it in range(0, len(octets), library.PAIR):
            made._pairs[octets[it:it + library.PAIR]] = None
        return made

    def add(self, key: bytes, item: bytes) -> None:
        """A key (DER, SubjectPublicKeyInfo) verifies the signature of an item (DER)."""
        key, item = arguments.octets(key, "the key"), arguments.octets(item, "the item")
        self.add_digests(hashlib.sha256(key).digest(), hashlib.sha256(item).digest())

    def add_digests(self, key_digest: bytes, item_digest: bytes) -> None:
        """As `add`, by the SHA-256 digests of the key and of the item, 32 octets each."""
        digests = (arguments.octets(key_digest, "the key's digest", of_text=OF_DIGITS),
                   arguments.octets(item_digest, "the item's digest", of_text=OF_DIGITS))
        if any(len(it) != DIGEST for it in digests):
            raise ValueError(f"a SHA-256 digest has {DIGEST} octets; {OF_DIGITS}")
        self._pairs[b"".join(digests)] = None

    def octets(self) -> bytes:
        """The pairs one after another, in ascending order."""
        return b"".join(sorted(self._pairs))

    def text(self) -> str:
        """A voucher file."""
        return "".join(f"{it[:DIGEST].hex()} {it[DIGEST:].hex()}\n" for it in sorted(self._pairs))

    def __len__(self) -> int:
        return len(self._pairs)

    def __iter__(self) -> Iterator[Tuple[bytes, bytes]]:
        return ((it[:DIGEST], it[DIGEST:]) for it in sorted(self._pairs))

    def __eq__(self, other: object) -> bool:
        return isinstance(other, Vouchers) and self._pairs.keys() == other._pairs.keys()

    __hash__ = None  # type: ignore[assignment]

    def __repr__(self) -> str:
        return f"<Vouchers({len(self)} pairs)>"


# What a call takes as vouchers: Vouchers, their octets, or the text of a voucher file.
VouchersGiven = Union[Vouchers, bytes, str]


def vouchers_of(given: VouchersGiven) -> bytes:
    """The pairs of vouchers, of their octets, or of the text of a voucher file."""
    if isinstance(given, Vouchers):
        return given.octets()
    refuse_type(given)
    return Vouchers.from_text(given).octets() if isinstance(given, str) else pairs_of(given)


def voucher_file(given: VouchersGiven) -> bytes:
    """A voucher file of vouchers, of their octets, or of its own text."""
    refuse_type(given)
    if isinstance(given, str):
        refuse_path(given)
        return given.encode()
    return (given if isinstance(given, Vouchers) else Vouchers.from_octets(given)).text().encode()
