"""Tries `verify`, which answers for a chain in one call.

    cd python && python3 -m unittest
"""
import os
import unittest
from datetime import datetime, timezone

import certpath
from tests.common import sample

AT = datetime(2026, 12, 1, tzinfo=timezone.utc)
FOLDER = os.path.join(os.path.dirname(os.path.abspath(__file__)), "..", "..", "samples")
CHAIN, ROOT = os.path.join(FOLDER, "fullchain.pem"), os.path.join(FOLDER, "root.pem")


def verified(chain=CHAIN, anchors=ROOT, **asked):
    return certpath.verify(chain, anchors, at=AT, **asked)


class Verify(unittest.TestCase):
    def setUp(self):
        try:
            certpath.openssl.verifier()
        except certpath.openssl.Missing as error:
            self.skipTest(str(error))

    def test_chain(self):
        found = verified(host="www.example.test", purpose="serverAuth")
        self.assertTrue(found)
        self.assertEqual(found.answer.positions, (0, 1))
        self.assertEqual([it.kind for it in found.path], [certpath.Kind.CERTIFICATE] * 2)
        self.assertEqual(found.anchor.public_bytes(), certpath.load(ROOT).items[0].public_bytes())
        self.assertEqual(found.left, ())
        asked = found.answer.asked
        self.assertEqual((asked.host, asked.purpose.hex()), (b"www.example.test", "2b06010505070301"))

    def test_demands(self):
        for asked in ({"host": "other.test"}, {"demand_lists": True}):
            with self.subTest(**asked):
                found = verified(**asked)
                self.assertFalse(found)
                self.assertEqual((found.path, found.anchor), ((), None))

    def test_why(self):
        """The reasons are those of the host and the purpose that were asked for."""
        lines = verified(host="other.test", purpose="serverAuth").why().splitlines()
        self.assertEqual(lines[:4], ["purpose serverAuth", "host other.test", "none", "check yes"])
        self.assertIn("at 0 doesn't serve other.test: it names www.example.test", lines)

    def test_moment(self):
        late = datetime(2099, 1, 1, tzinfo=timezone.utc)
        found = certpath.verify(CHAIN, ROOT, at=late)
        self.assertFalse(found)
        self.assertIn("at 0 not usable: expired", found.why())

    def test_sources(self):
        """Files by their paths, octets of PEM and DER, what was loaded, and several of them."""
        with open(CHAIN, "rb") as file:
            chain = file.read()
        leaf, issuer = certpath.load(CHAIN).items
        for given in (chain, certpath.load(CHAIN), [CHAIN], [leaf.public_bytes(), issuer.public_bytes()],
                      [certpath.load(chain)]):
            self.assertTrue(verified(given))
        self.assertTrue(verified(anchors=[sample("root.pem")]))
        self.assertFalse(verified(leaf.public_bytes()))

    def test_left_out(self):
        key = os.path.join(FOLDER, "keys", "leaf.pem")
        found = verified([CHAIN, key])
        self.assertTrue(found)
        self.assertEqual([(it.name, len(it.left)) for it in found.left], [(key, 1)])

    def test_nothing(self):
        for chain, anchors, what in ((b"", ROOT, "the chain"), (CHAIN, b"text", "the anchors")):
            with self.assertRaisesRegex(ValueError, f"^{what}: neither certificate nor"):
                verified(chain, anchors)
        with self.assertRaises(certpath.BadHost):
            verified(host="*.example.test")
        with self.assertRaises(OSError):
            verified(os.path.join(FOLDER, "none.pem"))
