"""Answers of a transparency log to get-entries (RFC 6962, 4.6), cut into certificates with their
chains. The structures are those of TLS (RFC 6962, 3.1 and 3.4), so no DER is read here."""
import binascii
import json
from base64 import b64decode
from datetime import datetime, timedelta
from typing import Iterator, NamedTuple, Optional, Tuple

from . import trees
from .entries import FAULT, Entry, Place, unread

VERSION_1, TIMESTAMPED_ENTRY = 0, 0
SOURCES = {0: "x509_entry", 1: "precert_entry"}
X509, PRECERT = SOURCES.values()
# How many octets the length of each takes: ASN.1Cert and TBSCertificate, a chain, extensions.
CERTIFICATE, CHAIN, EXTENSIONS = 3, 3, 2
TIMESTAMP, ISSUER_KEY_HASH = 8, 32
EPOCH = datetime(1970, 1, 1)
FIELDS = ("leaf_input", "extra_data")


class Malformed(ValueError):
    """What is wrong with an entry."""


class Octets:
    """Octets that are taken from their front, by a name that stands in what is said of them."""

    def __init__(self, name: str, octets: bytes):
        self.name, self.octets, self.at = name, octets, 0

    def take(self, length: int) -> bytes:
        taken = self.octets[self.at:self.at + length]
        if len(taken) < length:
            raise Malformed(f"{self.name}: cut at octet {len(self.octets)}")
        self.at += length
        return taken

    def number(self, length: int) -> int:
        return int.from_bytes(self.take(length), "big")

    def vector(self, length: int) -> bytes:
        """A vector of octets whose length takes so many octets (RFC 5246, 4.3)."""
        return self.take(self.number(length))

    def end(self):
        if self.at < len(self.octets):
            raise Malformed(f"{self.name}: {len(self.octets) - self.at} octets too many")


class Leaf(NamedTuple):
    """What a MerkleTreeLeaf holds (RFC 6962, 3.4)."""
    source: str
    timestamp: str
    """When the log took the entry, in UTC, to the millisecond."""
    certificate: bytes
    """Of a precert_entry its TBSCertificate alone."""
    issuer_key_hash: bytes = b""
    """Of a precert_entry the digest of its issuer's key (RFC 6962, 3.2)."""


def moment_of(name: str, milliseconds: int) -> str:
    """A time stamp, counted from 1970, without leap seconds (RFC 6962, 3.2)."""
    try:
        return (EPOCH + timedelta(milliseconds=milliseconds)).isoformat(timespec="milliseconds")
    except OverflowError:
        raise Malformed(f"{name}: time stamp {milliseconds}") from None


def read_leaf(octets: Octets) -> Leaf:
    version, kind = octets.number(1), octets.number(1)
    if (version, kind) != (VERSION_1, TIMESTAMPED_ENTRY):
        raise Malformed(f"{octets.name}: version {version}, leaf type {kind}")
    timestamp = moment_of(octets.name, octets.number(TIMESTAMP))
    number = octets.number(2)
    if number not in SOURCES:
        raise Malformed(f"{octets.name}: entry type {number}")
    source = SOURCES[number]
    key_hash = octets.take(ISSUER_KEY_HASH) if source == PRECERT else b""
    leaf = Leaf(source, timestamp, octets.vector(CERTIFICATE), key_hash)
    octets.vector(EXTENSIONS)
    octets.end()
    return leaf


def read_chain(octets: Octets) -> Tuple[bytes, ...]:
    inner = Octets(octets.name, octets.vector(CHAIN))
    octets.end()
    chain = []
    while inner.at < len(inner.octets):
        chain.append(inner.vector(CERTIFICATE))
    return tuple(chain)


def decoded(entry, field: str) -> Octets:
    """A field of an entry, out of base64."""
    text = entry.get(field) if isinstance(entry, dict) else None
    if not isinstance(text, str):
        raise Malformed(f"{field}: not there" if text is None else f"{field}: not a string")
    try:
        return Octets(field, b64decode(text, validate=True))
    except (binascii.Error, ValueError):
        raise Malformed(f"{field}: not base64") from None


def read_entry(place: Place, entry, number: Optional[int] = None) -> Entry:
    """One entry. Where the certificate is there and the chain isn't, the certificate is kept."""
    leaf_hash = None
    try:
        octets = decoded(entry, FIELDS[0])
        leaf_hash = None if number is None else trees.leaf_hash(octets.octets)
        leaf = read_leaf(octets)
    except Malformed as error:
        return unread(place, str(error))._replace(number=number, leaf_hash=leaf_hash)
    found = Entry(place, leaf.source, b"" if leaf.source == PRECERT else leaf.certificate,
                  number=number, timestamp=leaf.timestamp, leaf_hash=leaf_hash,
                  issuer_key_hash=leaf.issuer_key_hash,
                  tbs=leaf.certificate if leaf.source == PRECERT else None)
    try:
        extra = decoded(entry, FIELDS[1])
        # (a PrecertChainEntry begins with the precertificate, an X509ChainEntry with the chain)
        found = found._replace(octets=found.octets or extra.vector(CERTIFICATE))
        return found._replace(chain=read_chain(extra))
    except Malformed as error:
        return found._replace(end="" if found.octets else FAULT, cause=str(error))


def read_entries(file: str, octets: bytes, first: Optional[int] = None) -> Iterator[Entry]:
    """The entries of an answer, whose first one has this number in the log; one that says why,
    where it is no answer or has none."""
    try:
        entries = json.loads(octets)["entries"]
        if not isinstance(entries, list):
            raise Malformed("entries: not a list")
        if not entries:
            raise Malformed("entries: none")
    except json.JSONDecodeError as error:
        at = len(error.doc[:error.pos].encode(errors="surrogatepass"))
        yield unread(Place(file, at), f"not JSON: {error.msg}")
    except UnicodeDecodeError as error:
        yield unread(Place(file, error.start), "not JSON: not UTF-8")
    except (KeyError, TypeError, RecursionError, ValueError) as error:
        yield unread(Place(file, 0), f"no answer to get-entries: {type(error).__name__} {error}")
    else:
        for at, entry in enumerate(entries):
            yield read_entry(Place(file, at), entry, None if first is None else first + at)
