"""Entries: what a file holds one after another, and where."""
from typing import NamedTuple, Optional, Tuple

ITEM, CHAIN = "item", "chain"
CUT, FAULT = "cut", "fault"


class Place(NamedTuple):
    """Where an entry stands: the octet at which it begins in a file of items, or its number from 0
    in an answer of a log."""
    file: str
    offset: int


class Entry(NamedTuple):
    """One entry. Where it couldn't be read there are no octets, and `cause` says why."""
    place: Place
    source: str
    """"item", "x509_entry" or "precert_entry"; empty where that couldn't be read."""
    octets: bytes
    """The certificate or list; what was handed in, and no more is known of it."""
    chain: Tuple[bytes, ...] = ()
    """The certificates that a log has with it, its issuer first."""
    end: str = ""
    """"cut" or "fault" where no octets could be cut out."""
    cause: str = ""
    """What is wrong with the entry, or with its chain."""
    number: Optional[int] = None
    """Its number in the log, where that is known."""
    timestamp: str = ""
    """When the log took it, in UTC; empty where that isn't known."""
    leaf_hash: Optional[str] = None
    """The hash of its leaf in the log's tree, in hex; None where its number isn't known or the leaf
    can't be read."""
    issuer_key_hash: bytes = b""
    """Of a precertificate the digest of its issuer's key, as the log's tree has it."""
    tbs: Optional[bytes] = None
    """Of a precertificate the TBSCertificate to be issued, as the log's tree has it."""


def unread(place: Place, cause: str, end: str = FAULT) -> Entry:
    """An entry that couldn't be read."""
    return Entry(place, "", b"", (), end, cause)
