"""Rows: what the proved library says of an entry by itself."""
from functools import lru_cache
from typing import Any, Dict, Iterable, Iterator, NamedTuple, Optional, Set

from ..cutting import is_one
from ..extensions import POISON, SCT_LIST, tbs_of
from ..items import Contents, Kind, Name, contents_of, frame
from ..library import BadItem, BadName
from ..serving import allows
from .entries import CHAIN, Entry
from .files import digest

# What is written in the column `class`, as `certpath path` says it.
WORDS = {Kind.CERTIFICATE: "cert", Kind.LIST: "list", Kind.OTHER: "other"}
CERT, LIST, OTHER = WORDS.values()
NAMES_KEPT, KEYS_KEPT = 1 << 16, 1 << 12
BACKSLASH = "\\"
WRONG_HASH = "leaf_input: its issuer key hash is of another key than its issuer's"
NO_HASH = "extra_data: no issuer with whose key the issuer key hash could be compared"
WRONG_TBS = "leaf_input: its TBSCertificate isn't that of the precertificate"
# The purpose of certificates that sign precertificates alone (RFC 6962, 3.1), and any purpose.
PRECERTIFICATES, ANY = "1.3.6.1.4.1.11129.2.4.4", "2.5.29.37.0"


class Row(NamedTuple):
    """A row of the table; its fields are the columns. What a row doesn't have is empty."""
    file: str
    offset: int
    log_index: str
    timestamp: str
    source: str
    length: int
    kind: str
    sha256: str = ""
    subject: str = ""
    issuer: str = ""
    names: str = ""
    not_before: str = ""
    not_after: str = ""
    serial: str = ""
    key_sha256: str = ""
    algorithm: str = ""
    tbs_sha256: str = ""
    outcome: str = ""
    path: str = ""
    anchor: str = ""
    reasons: str = ""
    cause: str = ""


class Read(NamedTuple):
    """An item that was read, with digests of names in hex; empty where it has none."""
    row: Row
    subject: str = ""
    issuer: str = ""

    @property
    def name(self) -> str:
        """The name under which others look for it: a certificate's subject, a list's issuer."""
        return self.subject or self.issuer


def escaped(character: str) -> str:
    """A character, if it is printable and no backslash, else its octets of UTF-8."""
    if character.isprintable() and character != BACKSLASH:
        return character
    return "".join(f"\\{it:02X}" for it in character.encode())


@lru_cache(maxsize=NAMES_KEPT)
def shown(name: bytes) -> str:
    """A name as text without control characters, as `certpath why` shows it but for letters beyond
    ASCII, which stand as they are."""
    try:
        text = Name(name).raw_text
    except BadName:
        return "#" + name.hex().upper()
    return "".join(map(escaped, text)) or "(empty)"


@lru_cache(maxsize=KEYS_KEPT)
def key_digest(octets: bytes) -> str:
    """The digest of a certificate's key; empty of anything else."""
    key = contents_of(octets).key
    return "" if key is None else digest(key)


def digest_of(name: Optional[bytes]) -> str:
    """The digest of a name; empty where there is none."""
    return "" if name is None else digest(name)


@lru_cache(maxsize=KEYS_KEPT)
def signs_precertificates(octets: bytes) -> bool:
    """Whether a certificate signs precertificates in the place of their issuer: its extKeyUsage
    names that purpose, and not any one (RFC 6962, 3.1)."""
    try:
        return allows(octets, PRECERTIFICATES) and not allows(octets, ANY)
    except BadItem:
        return False


def is_signed_for_issuer(entry: Entry) -> bool:
    """Whether the first of a precertificate's chain signs precertificates in the place of their
    issuer, which is the second one."""
    return any(map(signs_precertificates, entry.chain[:1]))


def fault_of_hash(entry: Entry) -> str:
    """What is wrong with the issuer key hash of a precertificate (RFC 6962, 3.2): its issuer is the
    first of its chain, or the second one where the first signs precertificates for it."""
    if not entry.issuer_key_hash:
        return ""
    issuers = entry.chain[1:] if is_signed_for_issuer(entry) else entry.chain
    if not issuers:
        return NO_HASH
    return "" if entry.issuer_key_hash.hex() == key_digest(issuers[0]) else WRONG_HASH


def to_be_issued(entry: Entry) -> bytes:
    """The TBSCertificate of a certificate without its list of time stamps, or that which was to be
    issued for a precertificate: a precertificate and its certificate have one (RFC 6962, 3.2)."""
    return tbs_of(entry.octets, SCT_LIST) if entry.tbs is None else entry.tbs


def fault_of_tbs(entry: Entry) -> str:
    """What is wrong with the TBSCertificate of a precertificate's entry: it is the precertificate's
    without the poison (RFC 6962, 3.2). Of one that another certificate signed for the issuer it has
    other names and identifiers, and isn't compared."""
    if entry.tbs is None or is_signed_for_issuer(entry):
        return ""
    try:
        return "" if tbs_of(entry.octets, POISON) == entry.tbs else WRONG_TBS
    except BadItem:
        # (it is no certificate, as its class says)
        return ""


def moment(at) -> str:
    return "" if at is None else at.isoformat()[:len("2027-01-01T00:00:00")]


def serial(octets: bytes) -> str:
    """A serial number in hex, two digits an octet."""
    number = int.from_bytes(octets, "big", signed=True)
    digits = f"{number:x}"
    return digits.zfill(len(digits) + len(digits) % 2)


def held(field: Optional[bytes]) -> bytes:
    """A field that items of this class have."""
    assert field is not None
    return field


def columns_of(contents: Contents) -> Dict[str, str]:
    """The columns that a certificate or a list has, beside those of each entry."""
    found = {"issuer": shown(held(contents.issuer)), "algorithm": held(contents.algorithm).hex(),
             "not_before": moment(contents.first), "not_after": moment(contents.last)}
    if contents.kind is Kind.CERTIFICATE:
        found.update(subject=shown(held(contents.subject)), serial=serial(held(contents.serial)),
                     key_sha256=digest(held(contents.key)))
    return found


def end_of(octets: bytes, limit: int) -> str:
    """Why octets aren't one item, as `certpath frame` says it; empty where they are."""
    if is_one(octets, limit):
        return ""
    items = frame(octets, limit)
    if items.end.is_clean:
        return f"not one item: {len(items)} items"
    return f"not one item: {len(items)} items, end {items.end.word} {items.end.at}"


def row_of(entry: Entry, kind: str, **columns: Any) -> Row:
    """The columns that an entry has by itself, and further ones."""
    number = "" if entry.number is None else str(entry.number)
    return Row(*entry.place, number, entry.timestamp, entry.source, len(entry.octets), kind,
               **columns)


def read(entry: Entry, limit: int) -> Read:
    """The row of an entry. What isn't one item under the limit is `other`, whatever else it is."""
    if entry.end:
        return Read(row_of(entry, entry.end, cause=entry.cause))
    amiss = end_of(entry.octets, limit)
    contents = None if amiss else contents_of(entry.octets)
    causes = (entry.cause, amiss, fault_of_hash(entry), "" if amiss else fault_of_tbs(entry))
    cause = "; ".join(filter(None, causes))
    own = {"sha256": digest(entry.octets), "cause": cause}
    if contents is None or contents.kind is Kind.OTHER:
        return Read(row_of(entry, OTHER, **own))
    if contents.kind is Kind.CERTIFICATE:
        own["tbs_sha256"] = digest(to_be_issued(entry))
    row = row_of(entry, WORDS[contents.kind], **own, **columns_of(contents))
    return Read(row, digest_of(contents.subject), digest_of(contents.issuer))


def with_chains(entries: Iterable[Entry], met: Set[str]) -> Iterator[Entry]:
    """Each entry, and after it what is new of its chain, with the source `chain`: what isn't met
    yet, by digests, to which it is added."""
    for entry in entries:
        yield entry
        for octets in entry.chain:
            item = digest(octets)
            if item not in met:
                met.add(item)
                yield Entry(entry.place, CHAIN, octets)
