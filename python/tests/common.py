"""What the tests share: the samples, and certificates made octet by octet."""
import os
import unittest
from datetime import datetime, timezone

import certpath

TOP = os.path.join(os.path.dirname(os.path.abspath(__file__)), "..", "..")
COMMON_NAME, ORGANIZATION, COUNTRY, UNNAMED = "550403", "55040a", "550406", "2a0304"
UTF8, PRINTABLE, TELETEX, BMP, OCTET_STRING = 0x0c, 0x13, 0x14, 0x1e, 0x04
AT = datetime(2027, 1, 1, tzinfo=timezone.utc)


def sample(name):
    with open(os.path.join(TOP, "samples", name), "rb") as file:
        return file.read()


def element(tag, *contents):
    """An element of a tag (X.690, 8.1), its length in the one shortest form."""
    content = b"".join(contents)
    length = len(content)
    if length < 128:
        return bytes((tag, length)) + content
    octets = length.to_bytes((length.bit_length() + 7) // 8, "big")
    return bytes((tag, 128 + len(octets))) + octets + content


def attribute(identifier, value, tag=UTF8):
    content = value if isinstance(value, bytes) else value.encode()
    return element(0x30, element(0x06, bytes.fromhex(identifier)), element(tag, content))


def name_of(*sets):
    """A name of sets, each an attribute or a list of them."""
    return element(0x30, *(element(0x31, *(it if isinstance(it, list) else [it])) for it in sets))


def common_name(value, tag=UTF8):
    return name_of(attribute(COMMON_NAME, value, tag))


def time_of(text):
    return element(0x17 if len(text) == 13 else 0x18, text.encode())


def certificate(subject=b"\x30\x00", issuer=b"\x30\x00", begin="250101000000Z", end="260101000000Z",
                extensions=()):
    """A certificate of version 1, or 3 with extensions, with a key and a signature that nobody can
    use."""
    algorithm = element(0x30, element(0x06, b"\x2a\x03"))
    key = element(0x30, element(0x30, element(0x06, b"\x2a\x03")), element(0x03, b"\x00"))
    version = element(0xa0, element(0x02, b"\x02")) if extensions else b""
    more = element(0xa3, element(0x30, *extensions)) if extensions else b""
    signed = element(0x30, version, element(0x02, b"\x01"), algorithm, issuer,
                     element(0x30, time_of(begin), time_of(end)), subject, key, more)
    return element(0x30, signed, algorithm, element(0x03, b"\x00"))


def extension(identifier, value):
    """An extension that isn't critical, under 2.5.29."""
    return element(0x30, element(0x06, bytes((0x55, 0x1d, identifier))), element(0x04, value))


VERSION_1 = certificate()


class Chain(unittest.TestCase):
    """The path of the samples, from the leaf to the root that is the anchor."""

    def setUp(self):
        chain = sample("leaf.der") + sample("intermediate.der") + sample("root.der")
        vouchers = certpath.Vouchers.from_text(sample("vouchers.txt").decode())
        self.given, self.at = (chain, sample("root.der"), vouchers), AT
        self.answer = certpath.find(*self.given, target=0, at=self.at)
