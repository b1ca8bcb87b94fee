"""Tries extensions, the part of a certificate that is signed, and digests.

    cd python && python3 -m unittest
"""
import hashlib
import unittest
from datetime import datetime, timedelta, timezone
from unittest import mock

import certpath
from certpath import library
from certpath.extensions import extensions_of
from tests.common import VERSION_1, certificate, element, extension, sample

ITEMS = "leaf.der", "intermediate.der", "root.der"
# 1.3.6.1.4.1.11129.2.4, under which RFC 6962 has its extensions.
LOGS = bytes.fromhex("2b06010401d6790204")


def of_logs(number, value, critical=b""):
    """An extension under 1.3.6.1.4.1.11129.2.4."""
    return element(0x30, element(0x06, LOGS, bytes((number,))), critical, element(0x04, value))


POISON = of_logs(3, b"\x05\x00", b"\x01\x01\xff")
SCTS = of_logs(2, b"\x04\x00")
USAGE, OTHER = extension(15, b"\x03\x02\x07\x80"), extension(99, b"")


def x509():
    try:
        from cryptography import x509 as found
    except ImportError:
        raise unittest.SkipTest("cryptography isn't installed") from None
    return found


class Extensions(unittest.TestCase):
    def test_rows(self):
        item = certpath.Certificate(certificate(extensions=(POISON, OTHER, USAGE, OTHER)))
        poison, other, usage, again = item.extensions
        self.assertEqual(poison, (LOGS + b"\x03", True, b"\x05\x00"))
        self.assertEqual(other, (b"\x55\x1d\x63", False, b""))
        self.assertEqual((usage.value, again), (b"\x03\x02\x07\x80", other))
        self.assertEqual((poison.identifier, poison.is_critical), (LOGS + b"\x03", True))

    def test_by_identifier(self):
        item = certpath.Certificate(certificate(extensions=(USAGE, SCTS)))
        for wanted, found in (("2.5.29.15", 0), (b"\x55\x1d\x0f", 0), (certpath.SCT_LIST, 1)):
            self.assertEqual(item.extension(wanted), item.extensions[found])
        self.assertIsNone(item.extension(certpath.POISON))
        for wrong, error in (("keyUsage", ValueError), ("1", ValueError), ("", ValueError),
                             ("1.2.", ValueError), ("3.1", ValueError), ("1.40", ValueError),
                             ("1.02", ValueError), ("2." + "1" * 41, ValueError), (7, TypeError),
                             ("1.2." + ".".join(["3"] * 128), ValueError), (None, TypeError)):
            with self.subTest(wrong=wrong), self.assertRaises(error):
                item.extension(wrong)

    def test_none(self):
        self.assertEqual(certpath.Certificate(VERSION_1).extensions, ())
        self.assertEqual(len(certpath.RevocationList(sample("list.der")).extensions), 1)
        with self.assertRaises(certpath.NoField):
            extensions_of(b"x")

    def test_many(self):
        many = [extension(it % 120, bytes(it)) for it in range(300)]
        item = certpath.Certificate(certificate(extensions=many))
        self.assertEqual([(it.identifier[2], len(it.value)) for it in item.extensions],
                         [(it % 120, it) for it in range(300)])

    def test_like_cryptography(self):
        found = x509()
        for name in ITEMS:
            item = certpath.Certificate(sample(name))
            others = found.load_der_x509_certificate(sample(name)).extensions
            self.assertEqual(
                [(it.oid.dotted_string, it.critical) for it in others],
                [(next(kind for kind in (x.oid.dotted_string for x in others)
                       if item.extension(kind) == it), it.is_critical) for it in item.extensions])
            self.assertEqual([it.value.public_bytes() for it in others],
                             [it.value for it in item.extensions])


class Signed(unittest.TestCase):
    def test_all(self):
        for name in ITEMS:
            octets = sample(name)
            item = certpath.Certificate(octets)
            self.assertEqual(octets[4:4 + len(item.tbs())], item.tbs())
            self.assertEqual(item.tbs(), certpath.tbs(octets))
            self.assertEqual(item.tbs(), certpath.tbs(item, certpath.POISON))

    def test_log_entry(self):
        """A precertificate and the certificate that followed it have one entry (RFC 6962, 3.2)."""
        before = certificate(extensions=(USAGE, POISON, OTHER))
        after = certificate(extensions=(USAGE, OTHER, SCTS))
        plain = certpath.tbs(certificate(extensions=(USAGE, OTHER)))
        self.assertEqual(certpath.tbs(before, certpath.POISON), plain)
        self.assertEqual(certpath.tbs(after, certpath.SCT_LIST), plain)
        self.assertEqual(certpath.tbs(after, LOGS + b"\x02"), plain)
        self.assertNotEqual(certpath.tbs(after, certpath.POISON), plain)
        other = certificate(extensions=(OTHER, USAGE, SCTS))
        self.assertNotEqual(certpath.tbs(other, certpath.SCT_LIST), plain)

    def test_every_one(self):
        """Each of several is left out, and where none is left there is no field of them."""
        twice = certpath.tbs(certificate(extensions=(SCTS, USAGE, SCTS)), certpath.SCT_LIST)
        self.assertEqual(twice, certpath.tbs(certificate(extensions=(USAGE,))))
        alone = certpath.tbs(certificate(extensions=(POISON,)), certpath.POISON)
        self.assertIn(alone[2:], certpath.tbs(certificate(extensions=(POISON,))))
        self.assertNotIn(b"\xa3", alone)

    def test_lengths(self):
        """What is left has lengths of its own, of one octet and of three."""
        for size in (0, 100, 127, 128, 200, 255, 256, 300, 65535, 65536, 70000):
            large = extension(98, bytes(size))
            for extensions in ((large,), (large, USAGE), (USAGE, large)):
                with self.subTest(size=size, count=len(extensions)):
                    octets = certificate(extensions=(*extensions, SCTS))
                    self.assertEqual(certpath.tbs(octets, certpath.SCT_LIST),
                                     certpath.tbs(certificate(extensions=extensions)))

    def test_refused(self):
        for octets in (b"", b"x", sample("list.der"), sample("leaf.der") + b"\0"):
            with self.assertRaises(certpath.BadItem):
                certpath.tbs(octets)
        for wrong, error in (("poison", ValueError), (3, TypeError)):
            with self.assertRaises(error):
                certpath.tbs(sample("leaf.der"), wrong)
        with self.assertRaises(TypeError):
            certpath.tbs("samples/leaf.der")

    def test_like_cryptography(self):
        found = x509()
        for name in ITEMS:
            other = found.load_der_x509_certificate(sample(name))
            self.assertEqual(certpath.tbs(sample(name)), other.tbs_certificate_bytes)

    def test_precertificate_like_cryptography(self):
        """Of a certificate with SCTs that `cryptography` signed."""
        found = x509()
        from cryptography.hazmat.primitives import hashes, serialization
        from cryptography.hazmat.primitives.asymmetric import ec
        key, now = ec.generate_private_key(ec.SECP256R1()), datetime(2026, 1, 1, tzinfo=timezone.utc)
        name = found.Name([found.NameAttribute(found.NameOID.COMMON_NAME, "a.test")])
        made = found.CertificateBuilder(name, name, key.public_key(), 5, now, now + timedelta(9))
        for oid, value in (("2.5.29.99", b"x" * 200), (certpath.SCT_LIST, b"\x04\x02\x00\x00"),
                           ("2.5.29.98", b"")):
            made = made.add_extension(
                found.UnrecognizedExtension(found.ObjectIdentifier(oid), value), critical=False)
        signed = made.sign(key, hashes.SHA256())
        octets = signed.public_bytes(serialization.Encoding.DER)
        self.assertEqual(certpath.tbs(octets, certpath.SCT_LIST), signed.tbs_precertificate_bytes)
        self.assertEqual(certpath.tbs(octets), signed.tbs_certificate_bytes)


class Digests(unittest.TestCase):
    def test_contents(self):
        for octets in (*map(sample, (*ITEMS, "list.der")), VERSION_1, b"", b"x" * 100):
            found = certpath.Item(octets).read()
            key = None if found.key is None else hashlib.sha256(found.key).digest()
            self.assertEqual((found.item_digest, found.key_digest),
                             (hashlib.sha256(octets).digest(), key))


class Rooms(unittest.TestCase):
    def test_extensions_ask_for_room(self):
        octets = certificate(extensions=[extension(it % 120, b"") for it in range(40)])
        call, asked = library.loaded().certpath_extensions, []

        def counted(*words):
            asked.append(words[5])
            return call(*words)

        with mock.patch.object(library.loaded(), "certpath_extensions", counted):
            self.assertEqual(len(certpath.Certificate(octets).extensions), 40)
        self.assertEqual(asked, [16, 40])


if __name__ == "__main__":
    unittest.main()
