"""Tries every call with arguments of wrong types and with numbers of any size: TypeError or
ValueError that says what is needed, and never an answer.

    cd python && python3 -m unittest
"""
import array
import io
import mmap
import os
import pathlib
import tempfile
import unittest
from base64 import encodebytes
from datetime import date, datetime, timedelta, timezone, tzinfo

import certpath
import certpath.openssl
from certpath import arguments, library
from tests.common import AT, VERSION_1, Chain, certificate, sample

# What is no octets, though `bytes()` takes some of it.
NO_OCTETS = (None, 3, 64, 2 ** 100, 1.5, True, "text", [48, 0], (48, 0), {}, object(),
             pathlib.Path("leaf.der"), io.BytesIO(b"\x30\x00"), range(4), array.array("I", [48]))
# What is no number of a position, a limit or a field.
NO_NUMBERS = (None, 1.0, "0", b"0", True, False, [0], object())
OUT_OF_RANGE = (-1, -2 ** 32, -2 ** 64, 2 ** 64, 2 ** 64 + 1, 2 ** 100, -2 ** 100, 10 ** 5000)
NO_FLAGS = (None, 0, 1, "no", "", [], object())
NO_MOMENTS = (None, "2027-01-01", "2027-01-01T00:00:00Z", date(2027, 1, 1), 0, 1.5, 2 ** 100, b"",
              (2027, 1, 1), object(), timedelta(1), AT.time())


def pem(octets):
    body = encodebytes(octets)
    return b"-----BEGIN CERTIFICATE-----\n" + body + b"-----END CERTIFICATE-----\n"


class Refusing(Chain):
    def refuses(self, errors, call, *given, **further):
        """The call is refused with one of the errors, whose message is a short line."""
        with self.assertRaises(errors) as raised:
            call(*given, **further)
        said = str(raised.exception)
        self.assertTrue(0 < len(said) < 300 and said.isprintable(), said[:400])
        return said


class Octets(Refusing):
    def test_whatever_is_no_octets(self):
        bundle, anchors, vouchers = self.given
        key = certpath.Certificate(anchors).public_key_bytes
        calls = [certpath.frame, certpath.Items, certpath.class_of, certpath.Name, certpath.Item,
                 certpath.Certificate, certpath.RevocationList, certpath.Other,
                 certpath.Vouchers.from_octets,
                 lambda it: certpath.Vouchers().add(it, bundle),
                 lambda it: certpath.Vouchers().add(key, it),
                 lambda it: certpath.Vouchers().add_digests(it, bytes(32)),
                 lambda it: certpath.Vouchers().add_digests(bytes(32), it)]
        for call in (certpath.questions, certpath.holders_by_issuer, certpath.openssl.vouch):
            calls += [lambda it, call=call: call(it, anchors), lambda it, call=call: call(bundle, it)]
        for call in (certpath.find, certpath.path, certpath.why):
            calls += [lambda it, call=call: call(it, anchors, vouchers, 0, AT),
                      lambda it, call=call: call(bundle, it, vouchers, 0, AT)]
        for call in calls:
            for it in NO_OCTETS:
                with self.subTest(call=call, given=it):
                    self.refuses(TypeError, call, it)

    def test_remedies(self):
        for given, remedy in (("a", "mode 'rb'"), (pathlib.Path("a"), r"Path.read_bytes\(\)"),
                              (io.BytesIO(), r"read\(\)"), (io.StringIO(), "mode 'rb'"),
                              ([VERSION_1], r"b''.join\(\)"), (certpath.load(VERSION_1), "its `items`"),
                              (3, "bytes, bytearray or memoryview"),
                              (certpath.Item(VERSION_1), r"public_bytes\(\)"),
                              (array.array("I", [1]), r"tobytes\(\)")):
            with self.subTest(given=given), self.assertRaisesRegex(TypeError, remedy):
                certpath.frame(given)

    def test_what_is_octets(self):
        leaf = sample("leaf.der")
        with tempfile.TemporaryFile() as file:
            file.write(leaf)
            file.flush()
            with mmap.mmap(file.fileno(), 0, access=mmap.ACCESS_READ) as mapped:
                for it in (leaf, bytearray(leaf), memoryview(leaf), array.array("B", leaf), mapped,
                           memoryview(leaf + leaf)[:len(leaf)], memoryview(leaf[::-1])[::-1],
                           type("Octets", (bytes,), {})(leaf)):
                    with self.subTest(given=type(it)):
                        self.assertEqual(certpath.frame(it).data, leaf)
                        self.assertIs(type(certpath.frame(it).data), bytes)

    def test_changed_after_framing(self):
        octets = bytearray(VERSION_1)
        items = certpath.frame(octets)
        octets[:] = bytes(len(octets))
        self.assertIs(items.kind(0), certpath.Kind.CERTIFICATE)


class Constructors(Refusing):
    """An object of a class is what its name says."""

    def test_octets_of_another_kind(self):
        given = {certpath.Certificate: sample("leaf.der"), certpath.RevocationList: sample("list.der"),
                 certpath.Other: b"\x30\x00"}
        for made, octets in given.items():
            self.assertIs(made(octets).kind, certpath.Item(octets).kind)
            for other in ({*given.values()} - {octets}) | {pem(octets), b"garbage", octets + b"\x00"}:
                if made is not certpath.Other or certpath.class_of(other) is not certpath.Kind.OTHER:
                    said, found = self.refuses(certpath.BadItem, made, other), certpath.item_of(other)
                    remedy = (f"certpath.{type(found).__name__} or" if found.kind.value
                              else "this is PEM, which certpath.load" if other.startswith(b"---")
                              else r"certpath.load\(\) says")
                    self.assertRegex(said, remedy)
        self.assertTrue(issubclass(certpath.BadItem, ValueError))

    def test_no_certificate(self):
        """Of octets that are no certificate the message names the form."""
        leaf, root = sample("leaf.der"), sample("root.der")
        for call in (lambda it: certpath.serves(it, "a.test"), certpath.tbs,
                     lambda it: certpath.allows(it, "serverAuth")):
            for octets, remedy in ((pem(leaf), "this is PEM"), (leaf + root, r"load\(\) says"),
                                   (b"garbage", r"load\(\) says")):
                self.assertRegex(self.refuses(certpath.BadItem, call, octets), remedy)

    def test_texts_and_octets(self):
        """What is named by a text, or given as octets: the message says so."""
        leaf = certpath.Certificate(sample("leaf.der"))
        for call, said in ((lambda it: certpath.allows(leaf, it), "a name as 'serverAuth'"),
                           (lambda it: certpath.serves(leaf, it), "a text is needed"),
                           (leaf.extension, "numbers as '2.5.29.15'"), (leaf.tbs, "numbers as")):
            self.assertRegex(self.refuses(TypeError, call, 7), said)
        self.assertRegex(self.refuses(ValueError, leaf.extension, "keyUsage"), "as 2.5.29.15 has")

    def test_items_have_their_kind(self):
        for name, kind in (("leaf.der", "CERTIFICATE"), ("list.der", "LIST")):
            self.assertEqual(certpath.Item(sample(name)).kind.name, kind)
        self.assertIs(certpath.Item(b"garbage").kind, certpath.Kind.OTHER)

    def test_fields(self):
        leaf = certpath.Certificate(sample("leaf.der"))
        for it in OUT_OF_RANGE:
            self.refuses(ValueError, leaf.field, it)
        self.refuses(ValueError, leaf.field, 2 ** 32)
        for it in (5, 99, 2 ** 32 - 1):
            self.refuses(certpath.NoField, leaf.field, it)
        for it in NO_NUMBERS:
            self.refuses(TypeError, leaf.field, it)

    def test_years(self):
        for begin, year in (("500101000000Z", 1950), ("491231235959Z", 2049),
                            ("20500101000000Z", 2050), ("99991231235959Z", 9999)):
            made = certpath.Certificate(certificate(begin=begin, end="99991231235959Z"))
            self.assertEqual(made.not_valid_before_utc.year, year)
        for begin in ("00000101000000Z", "00010101000000Z", "19500101000000Z"):
            self.refuses(certpath.BadItem, certpath.Certificate, certificate(begin=begin))


class Files(Refusing):
    """What is no file of items gives no answer about items."""

    def calls(self):
        vouchers = self.given[2]
        for call in (certpath.find, certpath.path, certpath.why):
            yield lambda one, other, call=call: call(one, other, vouchers, 0, AT)
        yield lambda one, other: certpath.paths(one, other, vouchers, AT)
        yield lambda one, other: certpath.check(one, other, vouchers, 0, AT, self.answer)
        yield from (certpath.questions, certpath.holders_by_issuer, certpath.openssl.vouch)
        yield lambda one, other: [*certpath.openssl.answers(one, other)]

    def test_pem(self):
        chain, root, _ = self.given
        for call in self.calls():
            for one, other, what in ((chain, pem(root), "the anchors"), (pem(chain), root, "the bundle")):
                self.assertRegex(self.refuses(certpath.BadItem, call, one, other), f"^{what}: .*this is PEM, which")
                framed = certpath.frame(one), certpath.frame(other)
                if call is not certpath.holders_by_issuer:
                    self.assertRegex(self.refuses(certpath.BadItem, call, *framed), f"^{what}: .*this is PEM, which")

    def test_octets_after_items(self):
        chain, root, _ = self.given
        for call in self.calls():
            said = self.refuses(certpath.BadItem, call, chain, root + b"\n")
            self.assertRegex(said, f"^the anchors: .* begins at octet {len(root)} of {len(root) + 1};")
            said = self.refuses(certpath.BadItem, call, chain[:-1], root)
            self.assertRegex(said, "^the bundle: the item at octet [0-9]+ of [0-9]+ is cut off;")

    def test_items_before_others(self):
        """Whoever frames octets takes the items in front of what is none."""
        chain, root, vouchers = self.given
        given = certpath.frame(chain[:-1]), certpath.frame(root + b"\n")
        self.assertEqual([it.end.word for it in given], ["cut", "fault"])
        self.assertEqual(certpath.find(*given, vouchers, 0, AT).positions, self.answer.positions)

    def test_two_limits(self):
        chain, root, _ = self.given
        for call in self.calls():
            said = self.refuses(ValueError, call, certpath.frame(chain), certpath.frame(root, 1000))
            self.assertRegex(said, "16777216, and the anchors 1000; frame both with one")
            call(certpath.frame(chain, 1000), certpath.frame(root, 1000))

    def test_limit_of_either(self):
        chain, root, vouchers = self.given
        for one, other in ((certpath.frame(chain, 1000), root), (chain, certpath.frame(root, 1000))):
            self.assertEqual(certpath.find(one, other, vouchers, 0, AT), self.answer)
        said = self.refuses(certpath.BadItem, certpath.find, chain, certpath.frame(root[:0], 100),
                            vouchers, 0, AT)
        self.assertRegex(said, "^the bundle: no item of at most 100 content octets begins at octet 0")


class Numbers(Refusing):
    def test_limits(self):
        for it in (*OUT_OF_RANGE, 2 ** 32):
            self.refuses(ValueError, certpath.frame, VERSION_1, it)
        for it in NO_NUMBERS:
            self.refuses(TypeError, certpath.frame, VERSION_1, it)

    def test_targets(self):
        for call in (certpath.find, certpath.path, certpath.why,
                     lambda *given: certpath.check(*given, self.answer)):
            for it in OUT_OF_RANGE:
                self.assertRegex(self.refuses(ValueError, call, *self.given, it, AT), "the target")
            for it in NO_NUMBERS:
                self.assertRegex(self.refuses(TypeError, call, *self.given, it, AT), "the target")

    def test_flags(self):
        for it in NO_FLAGS:
            for call in (certpath.find, certpath.path, certpath.why):
                self.refuses(TypeError, call, *self.given, 0, AT, it)
            self.refuses(TypeError, certpath.paths, *self.given, AT, it)
            self.refuses(TypeError, certpath.check, *self.given, 0, AT, self.answer, it)
            self.refuses(TypeError, certpath.openssl.vouch, *self.given[:2], it)

    def test_tries(self):
        for it in OUT_OF_RANGE:
            if it < 0:
                self.refuses(ValueError, certpath.openssl.vouch, *self.given[:2], tries=it)
            else:
                found = certpath.openssl.vouch(*self.given[:2], tries=it)
                self.assertTrue(certpath.find(*self.given[:2], found.vouchers, 0, AT))
        for it in NO_NUMBERS:
            self.refuses(TypeError, certpath.openssl.vouch, *self.given[:2], tries=it)

    def test_positions_of_questions(self):
        bundle, anchors = map(certpath.frame, self.given[:2])
        for it in (*OUT_OF_RANGE, 3):
            for is_anchor in (False, True):
                self.refuses(IndexError, certpath.Question(0, it, is_anchor).key_holder, bundle, anchors)
            asked = [certpath.Question(it, 0, False)]
            with self.assertRaises(IndexError):
                [*certpath.openssl.answers(bundle, anchors, asked)]

    def test_items_without_keys(self):
        """What is no certificate has no key, and what is neither certificate nor list no signature."""
        bundle, anchors = certpath.frame(sample("list.der") + b"\x30\x00"), certpath.frame(self.given[1])
        for position in (0, 1):
            said = self.refuses(ValueError, certpath.Holder(False, position).certificate, bundle, anchors)
            self.assertRegex(said, "is no certificate, but Kind.")
        asked = [certpath.Question(1, 0, True)]
        with self.assertRaisesRegex(ValueError, "a certificate or a list is needed"):
            [*certpath.openssl.answers(bundle, anchors, asked)]

    def test_no_questions(self):
        for it in (None, 3, (0, 1, False), "question"):
            with self.assertRaisesRegex(TypeError, "a Question is needed"):
                [*certpath.openssl.answers(*self.given[:2], [it])]

    def test_positions_of_items(self):
        items = certpath.frame(self.given[0])
        for call in (items.octets, items.kind, items.__getitem__):
            for it in (3, -4, *OUT_OF_RANGE[1:]):
                with self.assertRaises(IndexError):
                    call(it)
            for it in (None, 1.0, "0", b"0", [0]):
                with self.assertRaises(TypeError):
                    call(it)

    def test_numbers_like_ints(self):
        index = type("Index", (), {"__index__": lambda self: 0})()
        self.assertEqual(certpath.find(*self.given, index, AT), self.answer)


class Moments(Refusing):
    def test_no_datetimes(self):
        for it in NO_MOMENTS:
            for call in (certpath.find, certpath.path, certpath.why,
                         lambda *given: certpath.check(*given, self.answer)):
                said = self.refuses(TypeError, call, *self.given, 0, it)
                self.assertRegex(said, "at: a datetime is needed, not .*; .*datetime")
            self.refuses(TypeError, certpath.paths, *self.given, it)

    def test_remedies(self):
        for given, remedy in ((None, r"now\(timezone.utc\)"), ("2027", r"fromisoformat\(\)"),
                              (date(2027, 1, 1), r"datetime\(2027, 1, 1, "), (0, "fromtimestamp")):
            with self.assertRaisesRegex(TypeError, remedy):
                certpath.find(*self.given, 0, given)

    def test_ends_of_the_calendar(self):
        for it, hours in ((datetime.min, 1), (datetime.max, -1)):
            at = it.replace(tzinfo=timezone(timedelta(hours=hours)))
            with self.assertRaisesRegex(certpath.BadMoment, "year isn't from 1 to 9999"):
                certpath.find(*self.given, 0, at)
            self.assertIs(certpath.find(*self.given, 0, it).outcome, certpath.Outcome.NO_PATH)

    def test_without_a_zone(self):
        """A moment without a time zone is in UTC, whatever the zone of the machine."""
        class NoOffset(tzinfo):
            def utcoffset(self, _):
                return None

        begin = certpath.frame(self.given[0])[0].not_valid_before_utc.replace(tzinfo=None)
        kept = os.environ.get("TZ")
        try:
            for zone in ("UTC", "XXX+5", "XXX-5"):
                os.environ["TZ"] = zone
                for at in (begin, begin.replace(tzinfo=NoOffset())):
                    self.assertTrue(certpath.find(*self.given, 0, at))
                    self.assertFalse(certpath.find(*self.given, 0, at - timedelta(seconds=1)))
        finally:
            os.environ.pop("TZ")
            if kept is not None:
                os.environ["TZ"] = kept

    def test_numbers_of_another_width(self):
        for changed in ({"year": 2 ** 16 + 2027}, {"month": 256 + 1}, {"day": -255}, {"second": 2 ** 64}):
            at = type("Odd", (datetime,), changed)(2027, 1, 1)
            self.refuses(certpath.BadMoment, certpath.find, *self.given, 0, at)


class Messages(unittest.TestCase):
    def test_statuses(self):
        for status, (error, said) in library.ERRORS.items():
            with self.assertRaises(error) as raised:
                library.refuse(status)
            self.assertIn(said, str(raised.exception))
            self.assertNotRegex(said, "status")
        library.refuse(library.DONE)

    def test_numbers(self):
        self.assertEqual(arguments.shown(2 ** 64), "18446744073709551616")
        self.assertEqual(arguments.shown(-10 ** 5000), "a number of 16610 bits")


if __name__ == "__main__":
    unittest.main()
