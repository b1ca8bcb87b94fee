"""Tries fingerprints, PEM, object identifiers and trust stores.

    cd python && python3 -m unittest
"""
import base64
import hashlib
import os
import pickle
import tempfile
import unittest
from unittest import mock

import certpath
from certpath import identifiers, stores
from tests.common import AT, TOP, sample

ITEMS = "leaf.der", "intermediate.der", "root.der"


class Identifiers(unittest.TestCase):
    def test_numbers(self):
        for wanted, octets in (("2.5.29.15", "551d0f"), ("1.3.6.1.4.1.11129.2.4.3", "2b06010401d679020403"),
                               ("2.999", "8837"), ("0.0", "00")):
            self.assertEqual(identifiers.octets_of(wanted, "it").hex(), octets)

    def test_wrong(self):
        for wrong in ("keyUsage", "1", "", "1.2.", "3.1", "1.40", "1.02", "2." + "1" * 41,
                      "1.2." + ".".join(["3"] * 128)):
            with self.subTest(wrong=wrong), self.assertRaises(ValueError):
                identifiers.identifier_of(wrong, "it")
        for wrong in (7, None):
            with self.assertRaises(TypeError):
                identifiers.identifier_of(wrong, "it")


class Digests(unittest.TestCase):
    def test_fingerprint(self):
        octets, item = sample("leaf.der"), certpath.Certificate(sample("leaf.der"))
        for name in ("sha256", "sha1", "sha3_256"):
            self.assertEqual(item.fingerprint(name), hashlib.new(name, octets).digest())
        self.assertEqual(item.fingerprint(), hashlib.sha256(octets).digest())
        for wrong, error in (("sha257", ValueError), (7, TypeError)):
            with self.assertRaises(error):
                item.fingerprint(wrong)


class Pem(unittest.TestCase):
    def test_base64(self):
        lines = certpath.item_of(sample("leaf.der")).pem().splitlines()
        self.assertEqual(base64.b64decode("".join(lines[1:-1])), sample("leaf.der"))

    def test_read_back(self):
        for name in (*ITEMS, "list.der"):
            item = certpath.item_of(sample(name))
            loaded = certpath.load(item.pem().encode())
            self.assertEqual((loaded.form, [*loaded.items], loaded.left), ("PEM", [item], []))
            self.assertTrue(all(len(it) <= 64 for it in item.pem().splitlines()))

    def test_samples(self):
        with open(os.path.join(TOP, "samples", "fullchain.pem"), encoding="ascii") as file:
            text = file.read()
        items = certpath.load(text.encode()).items
        self.assertEqual("".join(it.pem() for it in items), text)

    def test_other(self):
        with self.assertRaises(certpath.BadItem):
            certpath.Item(b"x").pem()


class Stores(unittest.TestCase):
    def setUp(self):
        room = tempfile.TemporaryDirectory()
        self.addCleanup(room.cleanup)
        self.room, self.root = room.name, certpath.item_of(sample("root.der"))

    def put(self, name, octets):
        path = os.path.join(self.room, name)
        with open(path, "wb") as file:
            file.write(octets)
        return path

    def test_file(self):
        text = self.root.pem().encode()
        store = certpath.trust_store(self.put("a.pem", text + sample("list.pem") + text))
        self.assertEqual([*store], [self.root])
        self.assertEqual([*pickle.loads(pickle.dumps(store))], [self.root])

    def test_folder(self):
        self.put("b.pem", self.root.pem().encode())
        self.put("a.der", sample("intermediate.der"))
        self.put("README", b"no certificates")
        self.put(".hidden.der", sample("leaf.der"))
        os.symlink("b.pem", os.path.join(self.room, "0.0"))
        os.mkdir(os.path.join(self.room, "more"))
        self.assertEqual([*certpath.trust_store(self.room)],
                         [self.root, certpath.item_of(sample("intermediate.der"))])

    def test_system(self):
        path = self.put("own.pem", self.root.pem().encode())
        with mock.patch.dict(os.environ, SSL_CERT_FILE=path, SSL_CERT_DIR="/none"):
            self.assertEqual([*certpath.trust_store()], [self.root])
            bundle = certpath.load(sample("leaf.der") + sample("intermediate.der"))
            try:
                found = certpath.verify(bundle, at=AT)
            except certpath.openssl.Missing as error:
                self.skipTest(str(error))
            self.assertEqual(found.anchor, self.root)
        with mock.patch.dict(os.environ, SSL_CERT_FILE="/none", SSL_CERT_DIR="/none"), \
                mock.patch.object(stores, "BUNDLES", ("/none",)), self.assertRaises(OSError):
            certpath.trust_store()

    def test_system_folder(self):
        """Of the system's folder, files that are named by hashes."""
        self.put("0a1b2c3d.0", self.root.pem().encode())
        for name in ("leaf.pem", "0A1B2C3D.1", "0a1b2c3d.r0", "0a1b2c3.0", ".0a1b2c3d.0", "0a1b2c3d."):
            self.put(name, certpath.item_of(sample("leaf.der")).pem().encode())
        with mock.patch.dict(os.environ, SSL_CERT_FILE="/none", SSL_CERT_DIR=self.room):
            self.assertEqual([*certpath.trust_store()], [self.root])

    def test_refused(self):
        with self.assertRaises(OSError):
            certpath.trust_store(os.path.join(self.room, "none"))
        for path in (self.room, self.put("text", b"text")):
            with self.assertRaises(ValueError):
                certpath.trust_store(path)
        with self.assertRaises(TypeError):
            certpath.trust_store(7)

    def test_verify(self):
        """A store is taken as anchors, by `verify` and by `find`."""
        store = certpath.trust_store(self.put("root.pem", self.root.pem().encode()))
        bundle = certpath.frame(sample("leaf.der") + sample("intermediate.der"))
        vouchers = certpath.Vouchers.from_text(sample("vouchers.txt"))
        at = AT
        self.assertTrue(certpath.find(bundle, store, vouchers, 0, at))
        try:
            self.assertTrue(certpath.verify(bundle, store, at=at))
        except certpath.openssl.Missing as error:
            self.skipTest(str(error))


if __name__ == "__main__":
    unittest.main()
