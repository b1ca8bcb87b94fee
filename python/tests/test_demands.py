"""Tries paths to a host and for a purpose, and the reports on them."""
import os
import pickle
import subprocess
import tempfile
import unittest

import certpath
from tests.common import AT, TOP, Chain, certificate, common_name, element, extension

CLIENT, SERVER = (element(0x06, bytes.fromhex(f"2b0601050507030{it}")) for it in (2, 1))
# Subject alternative names, and extended key usage (RFC 5280, 4.2.1).
NAMES, USAGES = 17, 37


class Hosts(Chain):
    def test_host(self):
        for host, outcome in (("www.example.test", certpath.Outcome.PATH),
                              ("WWW.example.test.", certpath.Outcome.PATH),
                              ("example.test", certpath.Outcome.NO_PATH),
                              ("192.0.2.1", certpath.Outcome.NO_PATH)):
            answer = certpath.find(*self.given, target=0, at=self.at, host=host)
            with self.subTest(host=host):
                self.assertIs(answer.outcome, outcome)
                self.assertTrue(certpath.check(answer))
                self.assertTrue(certpath.check(pickle.loads(pickle.dumps(answer))))

    def test_check_of_others(self):
        plain = certpath.Answer(*self.answer)
        given = (*self.given, 0, self.at, plain)
        self.assertTrue(certpath.check(*given, host="www.example.test"))
        self.assertFalse(certpath.check(*given, host="example.test"))
        with self.assertRaises(TypeError):
            certpath.check(self.answer, host="example.test")

    def test_wrong_hosts(self):
        for host in ("", "https://a.test/", "a b", b"\xff"):
            with self.subTest(host=host), self.assertRaises(certpath.BadHost):
                certpath.find(*self.given, target=0, at=self.at, host=host)
        with self.assertRaises(TypeError):
            certpath.find(*self.given, target=0, at=self.at, host=7)


class Purposes(unittest.TestCase):
    def setUp(self):
        usage = extension(37, element(0x30, CLIENT))
        self.target = certificate(common_name("a"), common_name("b"), extensions=[usage])
        self.anchor = certificate(common_name("b"), common_name("b"))
        vouchers = certpath.Vouchers()
        vouchers.add(certpath.Certificate(self.anchor).public_key_bytes, self.target)
        self.given = self.target, self.anchor, vouchers, 0, AT.replace(year=2025)

    def test_purposes(self):
        for purpose, found in ((None, True), ("clientAuth", True), ("sslclient", True),
                               ("1.3.6.1.5.5.7.3.2", True), ("serverAuth", False)):
            answer = certpath.find(*self.given, purpose=purpose)
            with self.subTest(purpose=purpose):
                self.assertEqual((bool(answer), certpath.check(answer)), (found, True))

    def test_wrong_purposes(self):
        for purpose in ("", b"", "tls", "1"):
            with self.subTest(purpose=purpose), self.assertRaises(ValueError):
                certpath.find(*self.given, purpose=purpose)


class Reports(unittest.TestCase):
    """The reports are what the program prints of the same files, the host and the purpose."""

    def setUp(self):
        names = extension(NAMES, element(0x30, element(0x82, b"a.test"), element(0x82, b"*.b.test")))
        usages = extension(USAGES, element(0x30, CLIENT))
        bundle = certificate(common_name("a"), common_name("b"), extensions=[names, usages])
        anchors = certificate(common_name("b"), common_name("b"))
        vouchers = certpath.Vouchers()
        vouchers.add(certpath.Certificate(anchors).public_key_bytes, bundle)
        self.given, self.at = (bundle, anchors, vouchers.text()), AT.replace(year=2025)
        folder = tempfile.TemporaryDirectory(prefix="reports-")
        self.addCleanup(folder.cleanup)
        self.files = [os.path.join(folder.name, it) for it in ("bundle", "anchors", "vouchers")]
        for path, octets in zip(self.files, (bundle, anchors, vouchers.text().encode())):
            with open(path, "wb") as file:
                file.write(octets)

    def printed(self, name, host=None, purpose=None):
        words = [] if name == "paths" else ["--target", "0"]
        words += [f"--host={host}"] * (host is not None)
        words += [f"--purpose={purpose}"] * (purpose is not None)
        command = [os.path.join(TOP, "dist", "certpath"), name, *self.files, *words, "--at",
                   "2025-01-01T00:00:00"]
        ran = subprocess.run(command, stdout=subprocess.PIPE, text=True)
        self.assertIn(ran.returncode, (0, 1))
        return ran.stdout

    def test_hosts_and_purposes(self):
        found = []
        for host in (None, "a.test", "A.TEST.", "c.b.test", "c.test", "192.0.2.1", "[2001:db8::1]"):
            for purpose in (None, "clientAuth", "sslserver", "1.3.6.1.5.5.7.3.2", "1.3.6.1.4.1.311"):
                asked = {"host": host, "purpose": purpose}
                for name in ("path", "why"):
                    with self.subTest(name=name, **asked):
                        text = getattr(certpath, name)(*self.given, 0, self.at, **asked)
                        self.assertEqual(text, self.printed(name, **asked))
                found.append("\npath 0 anchor 0\n" in f"\n{text}")
        # (three purposes that the target has, or none, for each of four hosts that it serves, or none)
        self.assertEqual((len(found), sum(found)), (35, 12))

    def test_purposes_of_all(self):
        for purpose, line in ((None, "0 path 0 anchor 0"), ("client", "0 path 0 anchor 0"),
                              ("serverAuth", "0 none")):
            with self.subTest(purpose=purpose):
                text = certpath.paths(*self.given, self.at, purpose=purpose)
                self.assertEqual(text, self.printed("paths", purpose=purpose))
                self.assertEqual(text.splitlines()[0], line)
        with self.assertRaises(TypeError):
            certpath.paths(*self.given, self.at, host="a.test")

    def test_octets(self):
        for name in ("path", "why"):
            call = getattr(certpath, name)
            self.assertEqual(call(*self.given, 0, self.at, host=b"a.test", purpose=CLIENT[2:]),
                             call(*self.given, 0, self.at, host="a.test", purpose="clientAuth"))
            text = call(*self.given, 0, self.at, purpose=b"\x2b\x80\x0a")
            self.assertIn("purpose 2b 80 0a\n", text)

    def test_wrong(self):
        for name in ("path", "why"):
            call = getattr(certpath, name)
            for host in ("", "https://a.test/", "a b", b"\xff", "a.test\0"):
                with self.subTest(name=name, host=host), self.assertRaises(certpath.BadHost) as raised:
                    call(*self.given, 0, self.at, host=host)
                with self.assertRaises(certpath.BadHost) as other:
                    certpath.find(*self.given, 0, self.at, host=host)
                self.assertEqual(str(raised.exception), str(other.exception))
            with self.assertRaises(TypeError):
                call(*self.given, 0, self.at, host=7)
        for purpose in ("", b"", "tls", "1", "anyExtendedKeyUsage"):
            for call in (certpath.path, certpath.why):
                with self.subTest(purpose=purpose), self.assertRaises(ValueError):
                    call(*self.given, 0, self.at, purpose=purpose)
            with self.assertRaises(ValueError):
                certpath.paths(*self.given, self.at, purpose=purpose)


if __name__ == "__main__":
    unittest.main()
