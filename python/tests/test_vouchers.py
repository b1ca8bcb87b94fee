"""Tries vouchers: the one grammar of voucher files, and what is taken for pairs of digests.

    cd python && python3 -m unittest
"""
import os
import pathlib
import pickle
import unittest

import certpath
from tests.common import AT, TOP, Chain, sample

KEY, ITEM = "0a" * 32, "Bc" * 32
LINE = f"{KEY} {ITEM}"
PAIR = bytes.fromhex(KEY + ITEM)


class Texts(unittest.TestCase):
    def test_samples(self):
        text = sample("vouchers.txt").decode()
        for given in (text, text.encode(), bytearray(text.encode())):
            vouchers = certpath.Vouchers.from_text(given)
            self.assertEqual((vouchers.text(), len(vouchers.octets())), (text, 64 * 4))

    def test_lines(self):
        for text in (LINE, LINE + "\n", LINE + "\r\n", "\n" + LINE, "\r\n\r\n" + LINE + "\n\n",
                     LINE.upper(), LINE.lower(), f"{LINE}\n{LINE}"):
            with self.subTest(text=text):
                self.assertEqual(certpath.Vouchers.from_text(text).octets(), PAIR)
        for text in ("", "\n", "\r\n"):
            self.assertEqual(len(certpath.Vouchers.from_text(text)), 0)

    def test_bad_lines(self):
        for line in (f"{KEY}\t{ITEM}", f"{KEY}  {ITEM}", f"{KEY}\xa0{ITEM}", f"{KEY}\f{ITEM}",
                     f"{KEY}\u2028{ITEM}", f" {LINE}", f"{LINE} ", f"{LINE}\t", f"{LINE}\r", "\r",
                     f"{LINE}\r{LINE}", f"{LINE}\v{LINE}", f"{LINE}\x85", KEY, KEY + ITEM,
                     f"{LINE} {KEY}", f"{KEY[1:]} {ITEM}", f"{KEY} {ITEM[:-1]}", f"{KEY} {ITEM[:-1]}g",
                     "#", "x", "\ufeff" + LINE, f"0x{KEY[2:]} {ITEM}", "\0", " ", "\uff11" * 64 + f" {ITEM}"):
            for before, number in (("", 1), (LINE + "\n\r\n", 3)):
                with self.subTest(line=line, before=before):
                    with self.assertRaises(certpath.BadLine) as raised:
                        certpath.Vouchers.from_text(before + line)
                    self.assertEqual(raised.exception.line, number)

    def test_one_grammar(self):
        """Texts are vouchers exactly where the library's reports take them, with one line's number."""
        for text in (LINE, LINE + "\r", LINE + "\r\n", f"{LINE}\n\r", f"{LINE}\r\r\n", f"\n{LINE}\n ",
                     f"{LINE}\f\n", f"{LINE}\n{KEY}"):
            found = []
            for call in (certpath.Vouchers.from_text, lambda it: certpath.why(b"", b"", it, 0, AT),
                         lambda it: certpath.find(b"", b"", it, 0, AT)):
                try:
                    call(text)
                    found.append(0)
                except certpath.BadLine as error:
                    found.append(error.line)
            with self.subTest(text=text):
                self.assertEqual(len({*found}), 1)

    def test_wrong_types(self):
        for given in (None, 3, ["a"], object()):
            with self.assertRaises(TypeError):
                certpath.Vouchers.from_text(given)
        for given in (LINE, LINE.encode(), bytearray(PAIR), memoryview(PAIR)):
            with self.assertRaisesRegex(TypeError, r"from_text\(\).*from_octets\(\)"):
                certpath.Vouchers(given)
        for pairs in ([b"a"], [()], [(bytes(32),)], [7], [(bytes(32), bytes(32), b"")]):
            with self.assertRaisesRegex(TypeError, "each is a pair of digests"):
                certpath.Vouchers(pairs)
        with self.assertRaisesRegex(TypeError, r"bytes.fromhex\(\)"):
            certpath.Vouchers([(KEY, ITEM)])
        for digest in (b"short", bytes(31), bytes(33), b"a" * 64):
            for given in ((digest, bytes(32)), (bytes(32), digest)):
                with self.assertRaisesRegex(ValueError, "has 32 octets"):
                    certpath.Vouchers().add_digests(*given)

    def test_messages(self):
        with self.assertRaises(certpath.BadLine) as raised:
            certpath.Vouchers.from_text("\n\n00 00\n")
        error = raised.exception
        for it in (error, pickle.loads(pickle.dumps(error))):
            self.assertEqual((it.line, str(it)), (
                3, "vouchers line 3: it is neither empty nor two digests of 64 hex digits with one "
                   "space between them"))


class Collections(unittest.TestCase):
    def test_equal(self):
        one, other = certpath.Vouchers.from_text(LINE), certpath.Vouchers.from_octets(PAIR)
        self.assertEqual((one, repr(one)), (other, "<Vouchers(1 pairs)>"))
        self.assertNotEqual(one, certpath.Vouchers())
        self.assertNotEqual(one, PAIR)
        self.assertEqual(pickle.loads(pickle.dumps(one)), one)
        with self.assertRaises(TypeError):
            hash(one)

    def test_pairs(self):
        vouchers = certpath.Vouchers.from_text(sample("vouchers.txt").decode())
        self.assertEqual([*vouchers], [(it[:32], it[32:]) for it in map(bytes.fromhex,
                                       sample("vouchers.txt").decode().splitlines())])
        self.assertEqual(certpath.Vouchers(vouchers), vouchers)
        self.assertIn((PAIR[:32], PAIR[32:]), certpath.Vouchers.from_octets(PAIR))


class Pairs(Chain):
    def test_text_for_pairs(self):
        """A voucher file of 32 lines is 65 times 64 octets, and yet no pairs."""
        text = (LINE + "\n").encode() * 32
        self.assertEqual(len(text) % 64, 0)
        calls = [certpath.Vouchers.from_octets]
        for call in (certpath.find, certpath.path, certpath.why):
            calls.append(lambda it, call=call: call(*self.given[:2], it, 0, AT))
        for call in calls:
            for given in (text, text[:64], b"# my vouchers\n" + text[:-14], b"-----BEGIN" + text[:-10]):
                with self.assertRaisesRegex(ValueError, r"are text.*Vouchers.from_text\(\)"):
                    call(given)
            with self.assertRaisesRegex(ValueError, "12 are left over"):
                call(bytes(64 + 12))

    def test_each_form(self):
        vouchers = self.given[2]
        for it in (vouchers, vouchers.octets(), bytearray(vouchers.octets()), vouchers.text()):
            with self.subTest(given=type(it)):
                self.assertEqual(certpath.find(*self.given[:2], it, 0, AT), self.answer)
                self.assertTrue(certpath.check(*self.given[:2], it, 0, AT, self.answer))

    def test_wrong_types(self):
        for given in (64, None, 0, ["a"], [bytes(64)], {}, (bytes(32), bytes(32)), object()):
            for call in (certpath.find, certpath.path, certpath.why):
                with self.subTest(given=given), self.assertRaisesRegex(TypeError, "Vouchers are needed"):
                    call(*self.given[:2], given, 0, AT)

    def test_paths(self):
        """The path of a voucher file is no voucher file."""
        path = os.path.join(TOP, "samples", "vouchers.txt")
        calls = [certpath.Vouchers.from_text]
        for call in (certpath.find, certpath.path, certpath.why):
            calls.append(lambda it, call=call: call(*self.given[:2], it, 0, AT))
        for call in calls:
            with self.assertRaisesRegex(ValueError, r"the path of a file; Path.read_text\(\)"):
                call(path)
            with self.assertRaisesRegex(TypeError, r"Path.read_text\(\)"):
                call(pathlib.Path(path))

    def test_digests_that_begin_like_text(self):
        pair = b"a" * 63 + b"\0"
        self.assertEqual(certpath.Vouchers.from_octets(pair).octets(), pair)

    def test_pickled(self):
        vouchers = pickle.loads(pickle.dumps(self.given[2]))
        self.assertEqual(vouchers.octets(), self.given[2].octets())


if __name__ == "__main__":
    unittest.main()
