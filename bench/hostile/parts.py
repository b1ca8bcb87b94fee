"""Writers of strict DER for hostile files: certificates, revocation lists, keys on P-256, and lines of voucher files.

Each item has the one spelling that `path` asks for, so that it is of class `cert` or `list`. Nothing is signed: `path` believes the
voucher file. Signatures for `./vouch` have the right form and are wrong.
"""
import functools
import hashlib
import os
import sys

sys.path.insert(0, os.path.join(os.path.dirname(os.path.abspath(__file__)), os.pardir, "judge"))
from items import ALGORITHM, FIRST, LAST, SIGNED, element

# A moment at which all items are valid.
MOMENT = "2025-06-01T00:00:00"
VERSION_3 = bytes.fromhex("a003020102")
VALIDITY = element(0x30, FIRST, LAST)
COMMON_NAME = bytes.fromhex("0603550403")
# id-ecPublicKey, with prime256v1, and ecdsa-with-SHA256 (RFC 5480).
OF_KEY = bytes.fromhex("06072a8648ce3d0201")
P256 = element(0x30, OF_KEY, bytes.fromhex("06082a8648ce3d030107"))
ECDSA_SHA256 = bytes.fromhex("300a06082a8648ce3d040302")
# The field and the generator of P-256 (SEC 2, 2.4.2).
PRIME = 2**256 - 2**224 + 2**192 + 2**96 - 1
GENERATOR = (0x6B17D1F2E12C4247F8BCE6E563A440F277037D812DEB33A0F4A13945D898C296,
             0x4FE342E2FE1A7F9B8EE7EB4A7C0F9E162BCE33576B315ECECBB6406837BF51F5)


@functools.lru_cache(maxsize=None)
def name(text):
    """A name of one common name."""
    return element(0x30, element(0x31, element(0x30, COMMON_NAME, element(0x0C, text.encode()))))


def key(number):
    """A key element (SubjectPublicKeyInfo) of an unknown algorithm, different for each number."""
    return element(0x30, ALGORITHM, b"\x03\x09\x00", number.to_bytes(8, "big"))


def extension(identifier, value, is_critical=False):
    return element(0x30, element(0x06, identifier), b"\x01\x01\xff" if is_critical else b"", element(0x04, value))


@functools.lru_cache(maxsize=4096)
def authority(limit=None):
    """A critical basicConstraints of an authority, with its path length, if any (RFC 5280, 4.2.1.9)."""
    spelled = b"" if limit is None else integer(limit)
    return extension(b"\x55\x1d\x13", element(0x30, b"\x01\x01\xff", spelled), True)


def integer(number):
    """An INTEGER that isn't negative."""
    return element(0x02, number.to_bytes(number.bit_length() // 8 + 1, "big"))


def key_ids(own, named):
    """The subject's and the issuer's key identifiers (RFC 5280, 4.2.1.1 and 4.2.1.2), none if they are none."""
    found = b"" if own is None else extension(b"\x55\x1d\x0e", element(0x04, own))
    return found if named is None else found + extension(b"\x55\x1d\x23", element(0x30, element(0x80, named)))


def certificate(subject, issuer, public, serial=1, limit=None, own=None, named=None, further=b""):
    """An authority of two names, which are elements, and a key element."""
    extensions = element(0xA3, element(0x30, authority(limit), key_ids(own, named), further))
    return assembled(element(0x30, VERSION_3, integer(serial), ALGORITHM, issuer, VALIDITY, subject, public, extensions))


def small_certificate(subject, issuer, public, algorithm=ALGORITHM, signature=None, serial=1):
    """A certificate without extensions, of version 1."""
    signed = element(0x30, integer(serial), algorithm, issuer, VALIDITY, subject, public)
    return assembled(signed) if signature is None else element(0x30, signed, algorithm, element(0x03, b"\0", signature))


def assembled(signed):
    return element(0x30, signed, SIGNED)


def entry(serial, further=b""):
    """An entry of a revocation list, by its serial number's element."""
    return element(0x30, serial, FIRST, further)


def revocation_list(issuer, entries=b"", version=b""):
    """A revocation list; none of its entries if they are no octets."""
    rows = element(0x30, entries) if entries else b""
    return assembled(element(0x30, version, ALGORITHM, issuer, FIRST, LAST, rows))


def digest(octets):
    return hashlib.sha256(octets).hexdigest()


def voucher(public, item):
    """The line of a voucher file that says that a key signed an item."""
    return f"{digest(public)} {digest(item)}\n".encode()


def vouchers_by_all(count, item):
    """The lines that say that so many keys, from the first on, all signed an item. It is hashed once."""
    signed = digest(item)
    return [f"{digest(key(it))} {signed}\n".encode() for it in range(count)]


def drawn(seed, size):
    """So many octets that look random, the same ones each time."""
    return hashlib.shake_256(str(seed).encode()).digest(size)


def drawn_lines(seed, count):
    """So many lines of a voucher file, all different, in no order."""
    octets = drawn(seed, 64 * count)
    for at in range(0, len(octets), 64):
        yield f"{octets[at:at + 32].hex()} {octets[at + 32:at + 64].hex()}\n".encode()


def points():
    """Points of P-256, one multiple of its generator after the other."""
    x, y = GENERATOR
    yield x, y
    slope = 3 * (x * x - 1) * pow(2 * y, -1, PRIME) % PRIME
    x2 = (slope * slope - 2 * x) % PRIME
    x, y = x2, (slope * (x - x2) - y) % PRIME
    while True:
        yield x, y
        slope = (y - GENERATOR[1]) * pow(x - GENERATOR[0], -1, PRIME) % PRIME
        x2 = (slope * slope - x - GENERATOR[0]) % PRIME
        x, y = x2, (slope * (x - x2) - y) % PRIME


def p256_keys(count):
    """Different key elements that OpenSSL can read."""
    for _, (x, y) in zip(range(count), points()):
        yield element(0x30, P256, element(0x03, b"\0\4", x.to_bytes(32, "big"), y.to_bytes(32, "big")))


def wrong_signature(number):
    """A signature of ECDSA in its form (RFC 3279, 2.2.3), by none of the keys."""
    octets = drawn(number, 64)
    return element(0x30, *(element(0x02, b"\x00\xc1", it[1:]) for it in (octets[:32], octets[32:])))
