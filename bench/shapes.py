#!/usr/bin/env python3
"""Writes shapes.der, from which `bench_workload` makes its inputs: certificates of common shapes, and the parts of a revocation list.

    bench/shapes.py > bench/shapes.der

Each item is a SEQUENCE. Fields of eight octets, as `SUBJECT0`, are where an input has a number of its own, in hex: of the
subject, the issuer, the serial, the key, or what is else drawn. So every item keeps its lengths, and each input is made by
copying octets. Nothing is signed: keys and signatures are octets of the right length. `data/shapes.der` of the crate is the same file.
"""
import hashlib
import os
import sys

sys.path.insert(0, os.path.join(os.path.dirname(os.path.abspath(__file__)), "judge"))
from items import element

SUBJECT, ISSUER, SERIAL, DRAWN = b"SUBJECT0", b"ISSUER00", b"SERIAL00", b"DRAWN000"


def sequence(*parts):
    return element(0x30, *parts)


def identifier(text):
    """An OBJECT IDENTIFIER, from its dotted form."""
    first, second, *others = (int(part) for part in text.split("."))
    octets = b""
    for number in (40 * first + second, *others):
        digits = [number & 0x7F]
        while number := number >> 7:
            digits.append(0x80 | number & 0x7F)
        octets += bytes(reversed(digits))
    return element(0x06, octets)


def integer(octets):
    return element(0x02, octets)


def filler(name, size, *fields):
    """So many octets that look drawn, with fields in them; the first octet is below 128 and not 0."""
    octets = hashlib.shake_256(name.encode()).digest(size)
    octets = bytes([octets[0] & 0x3F | 0x40]) + octets[1:]
    at = 8
    for field in fields:
        octets = octets[:at] + field + octets[at + len(field):]
        at += len(field) + 8
    return octets


def name(*attributes):
    """A name of one attribute a step: the last number of its type under 2.5.4, the string's tag, and the text."""
    return sequence(*(element(0x31, sequence(identifier(f"2.5.4.{kind}"), element(tag, text))) for kind, tag, text in attributes))


RSA, EC = "1.2.840.113549.1.1.1", "1.2.840.10045.2.1"
SHA256_RSA = sequence(identifier("1.2.840.113549.1.1.11"), element(0x05))
SHA384_EC = sequence(identifier("1.2.840.10045.4.3.3"))


def rsa_key(size):
    modulus = b"\0" + bytes([0xC1]) + filler(f"modulus {size}", size // 8 - 1, SUBJECT)
    key = sequence(integer(modulus), integer(b"\1\0\1"))
    return sequence(sequence(identifier(RSA), element(0x05)), element(0x03, b"\0", key))


def ec_key():
    point = b"\4" + filler("point", 64, SUBJECT)
    return sequence(sequence(identifier(EC), identifier("1.2.840.10045.3.1.7")), element(0x03, b"\0", point))


def extension(kind, value, critical=False):
    marks = (element(0x01, b"\xff"),) if critical else ()
    return sequence(identifier(kind), *marks, element(0x04, value))


def key_id(field):
    return field + filler("key identifier", 12)


def subject_key():
    return extension("2.5.29.14", element(0x04, key_id(SUBJECT)))


def authority_key():
    return extension("2.5.29.35", sequence(element(0x80, key_id(ISSUER))))


def usage(bits, unused):
    return extension("2.5.29.15", element(0x03, bytes([unused]) + bits), True)


def purposes(*last):
    return extension("2.5.29.37", sequence(*(identifier(f"1.3.6.1.5.5.7.3.{entry}") for entry in last)))


def constraints(*parts):
    return extension("2.5.29.19", sequence(*parts), True)


def alternative(*names):
    return extension("2.5.29.17", sequence(*(element(tag, text) for tag, text in names)))


def uri(text):
    return element(0x86, text)


def points():
    place = element(0xA0, element(0xA0, uri(b"http://crl.example.test/" + ISSUER + b".crl")))
    return extension("2.5.29.31", sequence(sequence(place)))


def access():
    return extension("1.3.6.1.5.5.7.1.1", sequence(
        sequence(identifier("1.3.6.1.5.5.7.48.1"), uri(b"http://ocsp.example.test")),
        sequence(identifier("1.3.6.1.5.5.7.48.2"), uri(b"http://aia.example.test/" + ISSUER + b".crt"))))


def policies():
    practice = sequence(identifier("1.3.6.1.5.5.7.2.1"), element(0x16, b"https://www.example.test/cps"))
    return extension("2.5.29.32", sequence(
        sequence(identifier("2.23.140.1.2.1")),
        sequence(identifier("1.3.6.1.4.1.44947.1.1.1"), sequence(practice))))


def timestamps(count):
    """A list of signed certificate timestamps (RFC 6962, 3.3)."""
    stamps = b""
    for number in range(count):
        signature = sequence(integer(filler(f"r {number}", 32, DRAWN)), integer(filler(f"s {number}", 32)))
        stamp = b"\0" + filler(f"log {number}", 32) + (1764000000000 + number).to_bytes(8, "big") + b"\0\0"
        stamp += b"\4\3" + len(signature).to_bytes(2, "big") + signature
        stamps += len(stamp).to_bytes(2, "big") + stamp
    return extension("1.3.6.1.4.1.11129.2.4.2", element(0x04, len(stamps).to_bytes(2, "big") + stamps))


FIRST, LAST = element(0x17, b"250301000000Z"), element(0x17, b"350301000000Z")


def certificate(issuer, subject, key, algorithm, signature, *extensions):
    serial = b"\3" + filler("serial", 7) + SERIAL
    tbs = sequence(
        element(0xA0, integer(b"\2")), integer(serial), algorithm, issuer, sequence(FIRST, LAST), subject, key,
        element(0xA3, sequence(*extensions)))
    return sequence(tbs, algorithm, element(0x03, b"\0", filler(f"signature {signature}", signature, DRAWN)))


def issuing(field):
    """The name of an authority, by its number."""
    return name((6, 0x13, b"CZ"), (10, 0x0C, b"Example Trust Services"), (3, 0x0C, b"Example Issuing CA " + field))


def host(field):
    return b"host-" + field + b".example.test"


def shapes():
    """The certificates: three leaves, an authority, an anchor, and two small ones."""
    plain = name((3, 0x0C, host(SUBJECT)))
    long = name(
        (6, 0x13, b"CZ"), (8, 0x0C, "Hlavní město Praha".encode()), (7, 0x0C, b"Praha"), (10, 0x0C, b"Example s.r.o."),
        (11, 0x0C, b"Operations"), (5, 0x13, SUBJECT), (3, 0x0C, "Jan Novák".encode()))
    leaf = (usage(b"\xa0", 5), purposes(1, 2), constraints(), subject_key(), authority_key(), access())
    signing = (usage(b"\x06", 1), subject_key())
    yield certificate(
        issuing(ISSUER), plain, rsa_key(2048), SHA256_RSA, 256, *leaf,
        alternative((0x82, host(SUBJECT)), (0x82, b"www." + host(SUBJECT))), policies(), timestamps(2))
    yield certificate(
        issuing(ISSUER), plain, ec_key(), SHA384_EC, 104, *leaf,
        alternative(*((0x82, b"%d." % number + host(SUBJECT)) for number in range(12)), (0x87, b"\x0a\x00\x00\x01")),
        policies(), points(), timestamps(3))
    yield certificate(
        issuing(ISSUER), long, rsa_key(2048), SHA256_RSA, 256, usage(b"\xe0", 5), purposes(2, 4), subject_key(), authority_key(),
        alternative((0x81, b"jan." + SUBJECT + b"@example.test"), (0xA4, long)), policies(), points(), access())
    yield certificate(
        issuing(ISSUER), issuing(SUBJECT), rsa_key(2048), SHA256_RSA, 512,
        constraints(element(0x01, b"\xff"), integer(b"\3")), *signing, authority_key(), policies(), points(), access())
    yield certificate(
        issuing(SUBJECT), issuing(SUBJECT), rsa_key(4096), SHA256_RSA, 512, constraints(element(0x01, b"\xff")), *signing)
    same = name((3, 0x0C, b"x"))
    yield certificate(same, same, ec_key(), SHA384_EC, 72, constraints(element(0x01, b"\xff")))
    yield certificate(
        name((3, 0x0C, ISSUER)), name((3, 0x0C, SUBJECT)), ec_key(), SHA384_EC, 72, constraints(element(0x01, b"\xff")))


def list_parts():
    """What is before the entries of a list, two entries, and what is after them in the signed part and after that."""
    yield sequence(integer(b"\1"), SHA256_RSA, issuing(ISSUER), FIRST, LAST)
    serial = integer(b"\3" + filler("serial", 7) + SERIAL)
    date = element(0x17, b"260102030405Z")
    yield sequence(serial, date)
    yield sequence(serial, date, sequence(extension("2.5.29.21", element(0x0A, b"\4"))))
    yield sequence(element(0xA0, sequence(authority_key(), extension("2.5.29.20", integer(b"\7" + SERIAL)))))
    yield sequence(SHA256_RSA, element(0x03, b"\0", filler("signature of a list", 256, DRAWN)))


if __name__ == "__main__":
    sys.stdout.buffer.write(b"".join([*shapes(), *list_parts()]))
