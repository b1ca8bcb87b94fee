"""Makes a log for trials: certificates of some hundred issuers, revocation lists, and faults, in
files of items and in answers to get-entries (RFC 6962, 4.6). Each signature is a real one.

A number makes the log, so equal numbers make equal files. Who signed what is known, so that
vouchers can be written without verifying anything.
"""
import hashlib
import json
import os
import random
from base64 import b64encode
from typing import List, NamedTuple, Optional

from trials.ed25519 import Key

MOMENT = "2026-12-01T00:00:00"
PAST, FUTURE, EXPIRED = b"260101000000Z", b"270101000000Z", b"261101000000Z"
ED25519 = bytes.fromhex("300506032b6570")
CONSTRAINTS, USAGE, SUBJECT_KEY, AUTHORITY_KEY = (bytes.fromhex(f"0603551d{one}") for one in ("13", "0f", "0e", "23"))
POISON = bytes.fromhex("060a2b06010401d679020403")
ROOTS, ANCHORS, MIDDLES, LOWER = 10, 9, 60, 240
# One of so many entries has a fault; one of so many authorities has several certificates; one of so
# many entries of an answer is a precertificate.
FAULTY, CROSSED, PRECERTIFICATES = 100, 3, 20
ANSWER = 1000
# How many kinds of faults entries of an answer have.
KINDS = 5


def element(tag: int, *parts: bytes) -> bytes:
    content = b"".join(parts)
    size = len(content)
    octets = size.to_bytes((size.bit_length() + 7) // 8, "big")
    length = octets if 0 < size < 128 else bytes([128 + len(octets)]) + octets if size else b"\0"
    return bytes([tag]) + length + content


def sequence(*parts: bytes) -> bytes:
    return element(0x30, *parts)


def name(text: str) -> bytes:
    attribute = sequence(bytes.fromhex("0603550403"), element(0x0c, text.encode()))
    return sequence(element(0x31, attribute))


def number(value: int) -> bytes:
    return element(0x02, value.to_bytes(value.bit_length() // 8 + 1, "big"))


def extension(identifier: bytes, critical: bool, value: bytes) -> bytes:
    return sequence(identifier, *[b"\x01\x01\xff"] * critical, element(0x04, value))


class Authority:
    """A name with a key."""

    def __init__(self, text: str):
        self.name = name(text)
        self.key = Key(hashlib.sha256(text.encode()).digest())
        self.public = sequence(ED25519, element(0x03, b"\0" + self.key.public))
        self.identifier = hashlib.sha256(self.public).digest()[:20]

    def signed(self, tbs: bytes) -> bytes:
        return sequence(tbs, ED25519, element(0x03, b"\0" + self.key.sign(tbs)))


LEAF = Authority("the one key of all leaves")


class Made(NamedTuple):
    """An item, and the key element that signed it; none where none did."""
    octets: bytes
    signer: Optional[bytes]
    tbs: bytes = b""
    """Of a precertificate the TBSCertificate that is to be issued."""


class Entry(NamedTuple):
    """An entry of a log or of a file: an item with its chain, or text that is none."""
    made: Optional[Made]
    chain: tuple = ()
    answer: Optional[dict] = None
    """The entry of an answer, where it has a fault."""
    is_precertificate: bool = False


def to_be_signed(serial: int, issuer: Authority, subject: bytes, public: bytes,
                 extensions: List[bytes], end: bytes = FUTURE, version: int = 2) -> bytes:
    validity = sequence(element(0x17, PAST), element(0x17, end))
    identifier = extension(AUTHORITY_KEY, False, sequence(element(0x80, issuer.identifier)))
    return sequence(element(0xa0, number(version)), number(serial), ED25519, issuer.name, validity,
                    subject, public, element(0xa3, sequence(*extensions, identifier)))


def certificate(serial: int, issuer: Authority, subject: bytes, public: bytes, extensions: List[bytes],
                end: bytes = FUTURE, version: int = 2) -> Made:
    tbs = to_be_signed(serial, issuer, subject, public, extensions, end, version)
    return Made(issuer.signed(tbs), issuer.public)


def authority(serial: int, issuer: Authority, subject: Authority, length: Optional[int] = None,
              end: bytes = FUTURE) -> Made:
    limit = [] if length is None else [number(length)]
    return certificate(serial, issuer, subject.name, subject.public, [
        extension(CONSTRAINTS, True, sequence(b"\x01\x01\xff", *limit)),
        extension(USAGE, True, bytes.fromhex("03020106")),
        extension(SUBJECT_KEY, False, element(0x04, subject.identifier))], end)


def revocations(issuer: Authority, serials: List[int], end: bytes = FUTURE) -> Made:
    entries = [sequence(number(serial), element(0x17, PAST)) for serial in serials]
    tbs = sequence(number(1), ED25519, issuer.name, element(0x17, PAST), element(0x17, end),
                   *[sequence(*entries)] * bool(entries))
    return Made(issuer.signed(tbs), issuer.public)


class Authorities:
    """Roots, of which one is no anchor, and authorities below them on two levels."""

    def __init__(self, chance: random.Random):
        self.chance, self.serial = chance, 1 << 40
        self.roots = [Authority(f"Root {index}") for index in range(ROOTS)]
        self.middles = [Authority(f"Middle {index}") for index in range(MIDDLES)]
        self.lower = [Authority(f"Lower {index}") for index in range(LOWER)]
        self.anchors = [self.issued(root, root) for root in self.roots[:ANCHORS]]
        self.above, self.items = {}, []
        for issuers, subjects in ((self.roots, self.middles), (self.middles, self.lower)):
            for subject in subjects:
                self.add(subject, issuers)
        self.lists = [self.revoked(root) for root in self.roots + self.lower + self.middles
                      if root in self.roots or chance.randrange(4)]

    def issued(self, issuer, subject, length=None, end=FUTURE):
        self.serial += 1
        return authority(self.serial, issuer, subject, length, end)

    def add(self, subject, issuers):
        """One certificate of an authority, or several: another issuer, an end that is past, a
        path length that is too short."""
        chance, made = self.chance, []
        for _ in range(1 if chance.randrange(CROSSED) else 3):
            issuer = chance.choice(issuers)
            length = chance.choice((None, None, None, None, 2, 1, 0))
            end = EXPIRED if chance.randrange(20) == 0 else FUTURE
            made.append(self.issued(issuer, subject, length, end))
            self.above.setdefault(subject, (made[0], issuer))
        self.items += made

    def revoked(self, issuer):
        serials = [self.chance.randrange(1 << 20) for _ in range(20)]
        return revocations(issuer, serials, EXPIRED if self.chance.randrange(20) == 0 else FUTURE)

    def chain(self, issuer):
        """The certificates that a log has with what an authority issued."""
        made = []
        while issuer in self.above:
            item, issuer = self.above[issuer]
            made.append(item)
        return tuple(made)


def leaf(chance: random.Random, serial: int, issuer: Authority, is_precertificate: bool) -> Made:
    fault = chance.randrange(3 * FAULTY)
    poison = [extension(POISON, True, b"\x05\x00")] * is_precertificate
    given = name(f"{serial}.example.test"), LEAF.public
    rest = EXPIRED if fault == 0 else FUTURE, 3 if fault == 1 else 2
    made = certificate(serial, issuer, *given, poison, *rest)
    if is_precertificate:
        made = made._replace(tbs=to_be_signed(serial, issuer, *given, [], *rest))
    if fault == 2:
        return made._replace(octets=made.octets[:-1] + bytes([made.octets[-1] ^ 1]), signer=None)
    return made


def vector(length: int, octets: bytes) -> bytes:
    return len(octets).to_bytes(length, "big") + octets


def answer_of(made: Made, issuer: Authority, chain: tuple, is_precertificate: bool) -> dict:
    """An entry of an answer (RFC 6962, 3.4 and 4.6)."""
    front = b"\0\0" + (1700000000000).to_bytes(8, "big") + int(is_precertificate).to_bytes(2, "big")
    links = vector(3, b"".join(vector(3, link.octets) for link in chain))
    if is_precertificate:
        key_hash = hashlib.sha256(issuer.public).digest()
        leaf_input = front + key_hash + vector(3, made.tbs) + vector(2, b"")
        extra_data = vector(3, made.octets) + links
    else:
        leaf_input, extra_data = front + vector(3, made.octets) + vector(2, b""), links
    return {"leaf_input": b64encode(leaf_input).decode(), "extra_data": b64encode(extra_data).decode()}


def spoilt(kind: int, answer: dict, entry: Entry) -> Entry:
    """An entry of an answer with a fault of this kind; of some the certificate can be read
    nevertheless."""
    text = answer["leaf_input"]
    if kind == 0:
        return Entry(None, answer={**answer, "leaf_input": "*" + text})
    if kind == 1:
        return Entry(None, answer={**answer, "leaf_input": text[:len(text) // 8 * 4]})
    if kind == 2:
        return Entry(None, answer={"extra_data": answer["extra_data"]})
    if kind == 3:
        return Entry(None, answer="no entry")
    if entry.is_precertificate:
        return Entry(None, answer={**answer, "extra_data": "AAAA"})
    return Entry(entry.made, (), {**answer, "extra_data": "AAAB"})


class Log:
    """Entries in files, in the order in which the files are read."""

    def __init__(self, entries: int, seed: int = 44, precertificates: int = PRECERTIFICATES):
        self.chance, self.precertificates = random.Random(seed), precertificates
        self.authorities = Authorities(self.chance)
        self.count = entries
        self.faults = 0

    def issuer(self):
        return self.chance.choice(self.authorities.lower + self.authorities.middles)

    def item_entries(self, count: int):
        """Leaves of a file of items, and among them all authorities and lists: each file has these."""
        chance, extra = self.chance, [*self.authorities.items, *self.authorities.lists]
        chance.shuffle(extra)
        places = sorted(chance.randrange(count) for _ in extra)
        for place in range(count):
            while places and places[0] == place:
                places.pop(0)
                yield Entry(extra[len(places)])
            yield Entry(leaf(chance, chance.randrange(1 << 20), self.issuer(), False))

    def answer_entries(self, count: int):
        for at in range(count):
            issuer = self.issuer()
            is_precertificate = self.chance.randrange(self.precertificates) == 0
            made = leaf(self.chance, self.chance.randrange(1 << 20), issuer, is_precertificate)
            chain = self.authorities.chain(issuer)
            entry = Entry(made, chain, None, is_precertificate)
            answer = answer_of(made, issuer, chain, is_precertificate)
            is_faulty = at % FAULTY == FAULTY - 1
            self.faults += is_faulty
            yield spoilt(self.faults % KINDS, answer, entry) if is_faulty else entry._replace(answer=answer)


class Written(NamedTuple):
    """What was written of a log."""
    files: List[str]
    anchors: str
    vouchers: str
    entries: int
    """How many rows the table of it has to have."""
    faults: int


class Writer:
    """Writes a log into a folder; `each` is given each item in the order of everything, and the
    file and offset of its entry, or None for those of chains."""

    def __init__(self, folder: str, log: Log, each=lambda made, place: None):
        self.folder, self.log, self.each = folder, log, each
        self.files, self.entries, self.faults, self.lines = [], 0, 0, set()

    def path(self, file: str) -> str:
        return os.path.join(self.folder, file)

    def meet(self, made: Made, place):
        self.each(made, place)
        if made.signer:
            digests = hashlib.sha256(made.signer).hexdigest(), hashlib.sha256(made.octets).hexdigest()
            self.lines.add("%s %s\n" % digests)

    def items(self, file: str, count: int, end: bytes):
        """A file of items, with something after them that is none."""
        path, offset = self.path(file), 0
        with open(path, "wb") as to:
            for entry in self.log.item_entries(count):
                to.write(entry.made.octets)
                self.meet(entry.made, (path, offset))
                offset += len(entry.made.octets)
                self.entries += 1
            to.write(end)
        self.entries, self.faults = self.entries + bool(end), self.faults + bool(end)
        self.files.append(path)

    def answer(self, file: str, count: int):
        path, answers = self.path(file), []
        for entry in self.log.answer_entries(count):
            if entry.made:
                self.meet(entry.made, (path, len(answers)))
            for made in entry.chain:
                self.meet(made, None)
            answers.append(entry.answer)
        with open(path, "w", encoding="ascii") as to:
            json.dump({"entries": answers}, to)
        self.entries += count
        self.files.append(path)

    def write(self) -> Written:
        half, log = self.log.count // 2, self.log
        self.items("a.der", half // 2, b"\x30\x82\x01")
        for at in range(0, half, ANSWER):
            self.answer(f"answer-{at // ANSWER:04}.json", min(ANSWER, half - at))
        self.items("b.der", half - half // 2, b"-----BEGIN CERTIFICATE-----")
        with open(self.path("anchors.der"), "wb") as to:
            to.writelines(anchor.octets for anchor in log.authorities.anchors)
        with open(self.path("vouchers.txt"), "w", encoding="ascii") as to:
            to.writelines(sorted(self.lines))
        return Written(self.files, self.path("anchors.der"), self.path("vouchers.txt"),
                       self.entries, self.faults + log.faults)
