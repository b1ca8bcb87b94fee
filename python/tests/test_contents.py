"""Tries that an item is read once, and that it holds what the calls on single fields say."""
import ctypes
import pickle
import unittest
from unittest import mock

import certpath
from certpath import library
from tests.common import VERSION_1, certificate, element, extension, sample

FIELDS = ("issuer", "subject", "key", "serial", "algorithm")
IDENTIFIER = b"\x01\x02\x03"


def field_of(octets, number):
    """A field by `certpath_field`; None if the item has none."""
    buffer, length = ctypes.create_string_buffer(4096), ctypes.c_size_t()
    status = library.loaded().certpath_field(octets, ctypes.c_size_t(len(octets)), number, buffer,
                                             ctypes.c_size_t(4096), ctypes.byref(length))
    return {0: buffer.raw[:length.value], 3: None}[status]


def times_of(octets):
    """The times by `certpath_times`; None if the item has none."""
    validity = library.Validity()
    status = library.loaded().certpath_times(octets, ctypes.c_size_t(len(octets)),
                                             ctypes.byref(validity))
    return {0: validity, 3: None}[status]


def parts(moment):
    return moment.year, moment.month, moment.day, moment.hour, moment.minute, moment.second


class Contents(unittest.TestCase):
    octets = [*map(sample, ("leaf.der", "intermediate.der", "root.der", "list.der", "other_list.der")),
              VERSION_1, b"\x30\x00", b"", b"x" * 100]

    def test_fields(self):
        for octets in self.octets:
            found = certpath.Item(octets).read()
            with self.subTest(octets=len(octets)):
                self.assertIs(found.kind, certpath.class_of(octets))
                self.assertEqual([getattr(found, it) for it in FIELDS],
                                 [*(field_of(octets, number) for number in range(5))])

    def test_times(self):
        for octets in self.octets:
            found, times = certpath.Item(octets).read(), times_of(octets)
            with self.subTest(octets=len(octets)):
                if times is None:
                    self.assertEqual((found.first, found.last), (None, None))
                    continue
                self.assertEqual(found.first.timetuple()[:6], parts(times.first))
                self.assertEqual(found.last.timetuple()[:6], parts(times.last))

    def test_no_next_update(self):
        algorithm = element(0x30, element(0x06, b"\x2a\x03"))
        signed = element(0x30, algorithm, b"\x30\x00", element(0x17, b"250101000000Z"))
        item = certpath.item_of(element(0x30, signed, algorithm, element(0x03, b"\x00")))
        self.assertIs(item.kind, certpath.Kind.LIST)
        self.assertIsNone(item.next_update_utc)
        times = times_of(item.public_bytes())
        self.assertEqual((times.has_last, parts(times.last)), (0, parts(times.first)))

    def test_key_identifiers(self):
        own = extension(14, element(0x04, IDENTIFIER))
        other = extension(35, element(0x30, element(0x80, b"")))
        broken = extension(35, b"\x30\x80\x00\x00")
        for extensions, found in (((), (None, None)), ((own,), (IDENTIFIER, None)),
                                  ((own, other), (IDENTIFIER, b"")), ((broken,), (None, None))):
            item = certpath.Certificate(certificate(extensions=extensions))
            with self.subTest(found=found):
                self.assertEqual((item.subject_key_id, item.authority_key_id), found)

    def test_like_cryptography(self):
        try:
            from cryptography import x509
        except ImportError:
            self.skipTest("cryptography isn't installed")
        for name in ("leaf.der", "intermediate.der"):
            item = certpath.Certificate(sample(name))
            other = x509.load_der_x509_certificate(sample(name)).extensions
            own = other.get_extension_for_class(x509.SubjectKeyIdentifier).value.digest
            issuers = other.get_extension_for_class(x509.AuthorityKeyIdentifier).value.key_identifier
            self.assertEqual((item.subject_key_id, item.authority_key_id), (own, issuers))

    def test_read_once(self):
        octets = sample("leaf.der")
        for make in (certpath.Certificate, certpath.item_of, certpath.Item,
                     lambda it: certpath.frame(it)[0]):
            with mock.patch.object(library, "contents_of", wraps=library.contents_of) as read, \
                    mock.patch.object(library.loaded(), "certpath_class") as classed:
                item = make(octets)
                self.assertEqual((item.kind, item.read().kind), 2 * (certpath.Kind.CERTIFICATE,))
                self.assertEqual(item.field(3), item.read().serial)
                self.assertEqual((read.call_count, classed.call_count), (1, 0))

    def test_item_of(self):
        for octets in self.octets:
            item = certpath.item_of(octets)
            self.assertIs(type(item).kind, certpath.class_of(octets))
            self.assertEqual(pickle.loads(pickle.dumps(item)), item)
        with self.assertRaises(TypeError):
            certpath.item_of("x")


if __name__ == "__main__":
    unittest.main()
