"""Tries `certpath.load`: files of PEM, DER and PKCS #7, and what is left out of them."""
import base64
import os
import pathlib
import shutil
import subprocess
import tempfile
import unittest
from unittest import mock

import certpath
from certpath import loading
from tests.common import TOP, element, sample

CHAIN = sample("leaf.der") + sample("intermediate.der")


def signed_data(certificates):
    """SignedData with certificates, and without signers (RFC 5652, 5.1)."""
    one = element(0x30, element(0x06, bytes.fromhex("2a864886f70d010701")))
    members = element(0xa0, *certificates)
    signed = element(0x30, b"\x02\x01\x01", b"\x31\x00", one, members, b"\x31\x00")
    return element(0x30, element(0x06, bytes.fromhex("2a864886f70d010702")), element(0xa0, signed))


def block(label, octets, width=64):
    text = base64.b64encode(octets).decode()
    lines = [text[it:it + width] for it in range(0, len(text), width)]
    return "\n".join((f"-----BEGIN {label}-----", *lines, f"-----END {label}-----", "")).encode()


def shown(loaded):
    """What is left out, as tuples."""
    return [tuple(it) for it in loaded.left]


class Loading(unittest.TestCase):
    def test_forms(self):
        pem = block("CERTIFICATE", sample("leaf.der")) + block("X509 CRL", sample("list.der"))
        for source, form, count in ((pem, "PEM", 2), (CHAIN, "DER", 2), (b"", "empty", 0),
                                    (b"text", "other", 0), ("x".encode("utf-16"), "other", 0)):
            loaded = certpath.load(source)
            with self.subTest(form=form):
                self.assertEqual((loaded.form, len(loaded.items)), (form, count))
                self.assertTrue(loaded.items.end.is_clean)
        self.assertEqual(certpath.load(pem).items.data, sample("leaf.der") + sample("list.der"))
        self.assertEqual(certpath.load(CHAIN).left, [])

    def test_sources(self):
        path = os.path.join(TOP, "samples", "fullchain.pem")
        for source in (path, pathlib.Path(path)):
            loaded = certpath.load(source)
            self.assertEqual((loaded.name, loaded.form, loaded.left), (path, "PEM", []))
            self.assertEqual(loaded.items.data, CHAIN)
        self.assertEqual(certpath.load(path, "chain").name, "chain")
        for octets in (CHAIN, bytearray(CHAIN), memoryview(CHAIN)):
            self.assertEqual(certpath.load(octets).items.data, CHAIN)
            self.assertIsNone(certpath.load(octets).name)
        for wrong in (7, None, [1]):
            with self.subTest(wrong=wrong), self.assertRaises(TypeError):
                certpath.load(wrong)
        with self.assertRaises(OSError):
            certpath.load(os.path.join(TOP, "none"))

    def test_left_out_of_pem(self):
        text = b"".join((block("PRIVATE KEY", b"secret"), block("MIGHTBEAKEY", b"secret"),
                         block("CERTIFICATE", sample("leaf.der")), b"-----END CERTIFICATE-----\n",
                         block("CERTIFICATE", sample("leaf.der") + b"xx"), b"-----BEGIN CMS-----\n"))
        loaded = certpath.load(text)
        self.assertEqual(loaded.items.data, 2 * sample("leaf.der"))
        lines = text.split(b"\n")
        stray = [it for it, line in enumerate(lines, 1) if line == b"-----END CERTIFICATE-----"][1]
        self.assertEqual(shown(loaded), [
            (1, None, "PRIVATE KEY", "the block holds neither certificate nor revocation list", 0),
            (4, None, None, "the label isn't known", 0),
            (stray, None, None, "an END that ends no block", 1),
            (stray + 1, None, "CERTIFICATE", "2 octets after the item", 2),
            (len(lines) - 1, None, "CMS", "its END is missing", 2)])
        self.assertNotIn("MIGHTBEAKEY", str(loaded.left))

    def test_left_out_of_der(self):
        leaf = sample("leaf.der")
        loaded = certpath.load(leaf + b"\x30\x01\x00" + leaf + b"\x30\x05\x00")
        self.assertEqual(loaded.items.data, leaf + leaf)
        self.assertEqual(shown(loaded), [
            (None, len(leaf), None, "neither certificate nor revocation list", 1),
            (None, 2 * len(leaf) + 3, None, "4 octets of it missing, 3 octets to the file's end",
             2)])
        self.assertEqual(str(loaded.left[0]),
                         f"octet {len(leaf)}: neither certificate nor revocation list")

    def test_left_out_as_a_whole(self):
        for source, reason in ((b"", "the file is empty"),
                               (b"text", "the file is neither PEM nor DER"),
                               ("x".encode("utf-16"), "the file is a text in UTF-16")):
            left = certpath.load(source).left
            self.assertEqual([*map(tuple, left)], [(None, None, None, reason, 0)])
            self.assertEqual(str(left[0]), reason)

    def test_signed_data(self):
        file = signed_data([sample("leaf.der"), b"\x30\x00", sample("intermediate.der")])
        loaded = certpath.load(file)
        self.assertEqual((loaded.form, loaded.items.data), ("PKCS #7", CHAIN))
        self.assertEqual(shown(loaded), [(None, 0, None, "certificate 1 of the SignedData: neither "
                                                         "certificate nor revocation list", 1)])
        in_pem = certpath.load(block("PKCS7", file))
        self.assertEqual((in_pem.form, in_pem.items.data), ("PEM", CHAIN))

    def test_of_openssl(self):
        if shutil.which("openssl") is None:
            self.skipTest("the command openssl isn't there")
        with tempfile.TemporaryDirectory() as room:
            path = os.path.join(room, "chain.p7b")
            chain = os.path.join(TOP, "samples", "fullchain.pem")
            subprocess.run(["openssl", "crl2pkcs7", "-nocrl", "-certfile", chain, "-outform", "DER",
                            "-out", path], check=True)
            loaded = certpath.load(path)
        self.assertEqual((loaded.form, loaded.left), ("PKCS #7", []))
        # (OpenSSL writes the set in an order of its own)
        self.assertEqual({it.public_bytes() for it in loaded.items},
                         {sample("leaf.der"), sample("intermediate.der")})

    def test_before(self):
        key, leaf = block("PRIVATE KEY", b"x"), block("CERTIFICATE", sample("leaf.der"))
        for text, wanted in ((key, [0]), (leaf, []), (leaf + key, [1]), (key + leaf, [0]),
                             (key + leaf + key + key + leaf + leaf + key, [0, 1, 1, 3])):
            self.assertEqual([it.before for it in certpath.load(text).left], wanted)

    def test_shapes(self):
        leaf, crl = sample("leaf.der"), sample("list.der")
        self.assertEqual(certpath.load(leaf + crl + b"\x30\x00" + leaf).shapes,
                         ["certificate", "revocation list", "certificate"])
        pem = block("X509 CRL", crl) + block("PKCS7", b"\x30\x00") + block("CERTIFICATE", leaf)
        self.assertEqual(certpath.load(pem).shapes, ["revocation list", "certificate"])
        self.assertEqual(certpath.load(b"").shapes, [])
        many = certpath.load(3000 * leaf)
        self.assertEqual((len(many.items), set(many.shapes), len(many.shapes)),
                         (3000, {"certificate"}, 3000))

    def test_shape_of(self):
        leaf, crl = sample("leaf.der"), sample("list.der")
        self.assertEqual([*map(certpath.shape_of, (leaf, bytearray(leaf), memoryview(crl)))],
                         ["certificate", "certificate", "revocation list"])
        for octets in (b"", b"\x30", b"\x30\x00", leaf + b"\x00", leaf[:-1], leaf + leaf, b"\x00" + leaf,
                       element(0x31, leaf), block("CERTIFICATE", leaf)):
            with self.subTest(octets=octets[:8]):
                self.assertIsNone(certpath.shape_of(octets))
        # (a shape isn't a class)
        empty = element(0x30, element(0x30, b"\x02\x00", 5 * b"\x30\x00"), b"\x30\x00", b"\x03\x00")
        self.assertEqual(certpath.shape_of(empty), "certificate")
        self.assertIs(certpath.class_of(empty), certpath.Kind.OTHER)
        self.assertEqual(certpath.load(empty).shapes, ["certificate"])
        # (X.690, 10.1: the length of the whole is in its shortest form)
        self.assertIsNone(certpath.shape_of(b"\x30\x81" + empty[1:]))
        with self.assertRaises(TypeError):
            certpath.shape_of("leaf.der")

    def test_rooms(self):
        text = 40 * block("PRIVATE KEY", b"x") + block("CERTIFICATE", sample("leaf.der"))
        whole = certpath.load(text)
        self.assertEqual((len(whole.left), whole.items.data), (40, sample("leaf.der")))
        with mock.patch.object(loading, "ROOM", 0):
            self.assertEqual(certpath.load(text).left, whole.left)

    def test_labels(self):
        for label in loading.LABELS[8:]:
            left = certpath.load(block(label, b"x")).left
            self.assertEqual([it.label for it in left], [label])

    def test_remedies(self):
        pem = block("CERTIFICATE", sample("leaf.der"))
        signed = signed_data([sample("leaf.der")])
        for octets, form in ((pem, "PEM"), (signed, "PKCS #7")):
            with self.assertRaisesRegex(certpath.BadItem, f"this is {form}, which certpath.load"):
                certpath.Certificate(octets)
        for given in (pem, certpath.frame(pem)):
            with self.assertRaisesRegex(certpath.BadItem, "the anchors: .* PEM, which certpath.load"):
                certpath.questions(CHAIN, given)

    def test_texts_for_paths(self):
        """A text that is no path isn't shown: it may be a private key."""
        key = block("PRIVATE KEY", b"secret" * 8).decode()
        for call in (certpath.load, certpath.trust_store, certpath.verify,
                     lambda it: certpath.verify(CHAIN, [it])):
            for text in (key, key.replace("\n", " "), 100 * key, "MC4CAQAw" * 600):
                with self.assertRaisesRegex(ValueError, "a path is needed, and this is text") as raised:
                    call(text)
                self.assertNotRegex(str(raised.exception), "c2VjcmV0|MC4CAQAw")
        for wrong in (3, None, [b""]):
            with self.assertRaisesRegex(TypeError, "a path or octets are needed"):
                certpath.load(wrong)


if __name__ == "__main__":
    unittest.main()
