"""Tries each call of the package, and its errors, on the samples.

    cd python && python3 -m unittest
"""
import os
import subprocess
import sys
import unittest
from datetime import datetime, timedelta, timezone
from unittest import mock

import certpath
import certpath.openssl
from certpath import library
from tests.common import AT, TOP, VERSION_1, Chain, sample


class Framing(unittest.TestCase):
    def test_spans(self):
        items = certpath.frame(sample("bundle.der"))
        self.assertEqual([*map(len, map(items.octets, range(len(items))))], [884, 857, 813, 433])
        self.assertEqual(items.end, ("clean", 2987))

    def test_many(self):
        items = certpath.frame(b"\x30\x00" * 10000)
        self.assertEqual((len(items), items.end.at), (10000, 20000))

    def test_ends(self):
        for octets, count, end in ((b"", 0, ("clean", 0)), (b"\x30\x03\x02", 0, ("cut", 0)),
                                   (b"\x30\x00\x31\x00", 1, ("fault", 2)),
                                   (b"\x30\x80\x00\x00", 0, ("fault", 0))):
            with self.subTest(octets=octets):
                items = certpath.frame(octets)
                self.assertEqual((len(items), items.end), (count, end))

    def test_limits(self):
        self.assertEqual(len(certpath.frame(VERSION_1, limit=67)), 1)
        self.assertEqual(certpath.frame(VERSION_1, limit=66).end, ("fault", 0))
        self.assertEqual(len(certpath.frame(VERSION_1, limit=2 ** 32 - 1)), 1)
        for limit in (-1, 2 ** 32):
            with self.assertRaises(ValueError):
                certpath.frame(VERSION_1, limit=limit)

    def test_windows(self):
        for octets in (sample("bundle.der"), sample("bundle.der")[:-1], b"\x30\x00" * 9 + b"\x31",
                       sample("leaf.der") + b"\x30\x00" * 2000 + sample("root.der"), b""):
            whole = certpath.frame(octets)
            for window in (1, 2, 3, 64, 884, len(octets) or 1):
                with mock.patch("certpath.cutting.WINDOW", window):
                    items = certpath.frame(octets)
                self.assertEqual(items.end, whole.end)
                self.assertEqual([*map(items.octets, range(len(items)))],
                                 [*map(whole.octets, range(len(whole)))])

    def test_kinds_of_octets(self):
        for octets in (b"", bytearray(b"\x30\x00"), memoryview(sample("leaf.der"))):
            self.assertEqual(certpath.frame(octets).data, bytes(octets))


class Items(unittest.TestCase):
    def setUp(self):
        self.items = certpath.frame(sample("bundle.der"))
        self.leaf, self.intermediate, self.root, self.list = self.items

    def test_kinds(self):
        self.assertEqual([it.kind.name for it in self.items], ["CERTIFICATE"] * 3 + ["LIST"])
        self.assertEqual([*self.items.kinds()], [it.kind for it in self.items])
        self.assertEqual([*map(self.items.kind, range(4))], [*self.items.kinds()])
        self.assertIs(certpath.class_of(b"\x30\x00"), certpath.Kind.OTHER)
        self.assertIs(certpath.class_of(b""), certpath.Kind.OTHER)
        self.assertEqual([*certpath.frame(b"").kinds()], [])

    def test_positions(self):
        self.assertEqual(self.items.octets(-1), self.list.public_bytes())
        for position in (4, -5):
            for call in (self.items.octets, self.items.kind, self.items.__getitem__):
                with self.subTest(call=call, position=position), \
                        self.assertRaisesRegex(IndexError, f"4 items, and none at position {position}"):
                    call(position)

    def test_slices(self):
        self.assertEqual(self.items[1:3], [self.intermediate, self.root])
        self.assertEqual(self.items[-1], self.list)
        with self.assertRaises(IndexError):
            self.items[4]

    def test_names(self):
        self.assertEqual(self.leaf.issuer, self.intermediate.subject)
        self.assertEqual(self.list.issuer, self.intermediate.subject)
        self.assertEqual(self.root.issuer, self.root.subject)
        self.assertEqual(str(self.leaf.subject), "C=CZ, O=Example, CN=www.example.test")

    def test_numbers(self):
        self.assertEqual(self.leaf.serial_number, 3)
        begin = datetime(2026, 11, 22, tzinfo=timezone.utc)
        self.assertEqual(self.leaf.not_valid_before_utc, begin)
        self.assertLess(begin, self.leaf.not_valid_after_utc)
        self.assertEqual(self.list.last_update_utc, begin)
        self.assertLess(begin, self.list.next_update_utc)

    def test_keys(self):
        self.assertIn(self.leaf.public_key_bytes, self.leaf.public_bytes())
        self.assertEqual(self.leaf.signature_algorithm.hex(), "2a864886f70d01010b")

    def test_first_version(self):
        item = certpath.frame(VERSION_1)[0]
        self.assertEqual((item.subject.text, item.subject.public_bytes()), ("", b"\x30\x00"))
        self.assertEqual(item.not_valid_before_utc, datetime(2025, 1, 1, tzinfo=timezone.utc))

    def test_others(self):
        other = certpath.frame(b"\x30\x00")[0]
        self.assertIsInstance(other, certpath.Other)
        self.assertEqual((other.kind, other.public_bytes()), (certpath.Kind.OTHER, b"\x30\x00"))
        for call in (lambda: self.list.field(1), lambda: self.list.field(2),
                     lambda: self.leaf.field(99), lambda: other.field(0)):
            with self.assertRaisesRegex(certpath.NoField, "the item has no such field"):
                call()

    def test_like_cryptography(self):
        try:
            from cryptography import x509
        except ImportError:
            self.skipTest("cryptography isn't installed")
        for item in self.items[:3]:
            other = x509.load_der_x509_certificate(item.public_bytes())
            self.assertEqual(item.subject.public_bytes(), other.subject.public_bytes())
            self.assertEqual(item.issuer.public_bytes(), other.issuer.public_bytes())
            self.assertEqual(item.serial_number, other.serial_number)
            if hasattr(other, "not_valid_before_utc"):
                # (since version 42)
                self.assertEqual(item.not_valid_before_utc, other.not_valid_before_utc)
                self.assertEqual(item.not_valid_after_utc, other.not_valid_after_utc)


class LargeItems(unittest.TestCase):
    """Items that are read, and not classed before."""

    def test_kinds(self):
        leaf, crl, other = sample("leaf.der"), sample("list.der"), b"\x30\x00"
        of, classing = [other, leaf, leaf, crl, other, other, leaf, crl, other], certpath.Items._class
        for large in (0, 2, len(crl), len(leaf), 1 << 20):
            items, classed = certpath.frame(b"".join(of)), []

            def noted(items, first, end):
                classed.extend(range(first, end))
                classing(items, first, end)

            with mock.patch("certpath.items.LARGE", large), \
                    mock.patch.object(certpath.Items, "_class", noted):
                items.read_large()
                kinds = [*items.kinds()]
            self.assertEqual(kinds, [*map(certpath.class_of, of)])
            self.assertEqual([it.kind for it in items], kinds)
            self.assertEqual(classed, [at for at, it in enumerate(of) if len(it) <= large])


class Questions(unittest.TestCase):
    def test_samples(self):
        asked = certpath.questions(sample("bundle.der"), sample("root.der"))
        self.assertEqual(asked, [(0, 1, False), (1, 2, False), (2, 2, False), (3, 1, False)])

    def test_anchors(self):
        asked = certpath.questions(sample("intermediate.der"), sample("root.der"))
        self.assertEqual(asked, [(0, 0, True)])

    def test_none(self):
        self.assertEqual(certpath.questions(b"", b""), [])

    def test_many(self):
        asked = certpath.questions(VERSION_1 * 100, VERSION_1)
        self.assertEqual(asked, [(k, 0, False) for k in range(100)])

    def test_limits(self):
        for limit, count in ((0, 0), (67, 1), (2 ** 32 - 1, 1)):
            self.assertEqual(len(certpath.questions(certpath.frame(VERSION_1, limit), b"")), count)

    def test_by_issuer(self):
        bundle, anchors = (certpath.frame(sample(it)) for it in ("bundle.der", "root.der"))
        for one, other in ((bundle, anchors), (anchors, bundle), (bundle, bundle)):
            asked = {}
            for it in certpath.questions(one, other):
                holder = certpath.Holder(it.is_anchor, it.holder).certificate(one, other)
                asked.setdefault(one[it.item].issuer, {})[holder.public_key_bytes] = None
            found = certpath.holders_by_issuer(one, other)
            keys = {name: [it.certificate(one, other).public_key_bytes for it in holders]
                    for name, holders in found.items()}
            self.assertEqual(keys, {name: [*them] for name, them in asked.items()}
                             | {it.issuer: [] for it in one if it.issuer not in asked})

    def test_by_issuer_of_many(self):
        found = certpath.holders_by_issuer(VERSION_1 * 2000, VERSION_1 * 2000)
        self.assertEqual([*found.values()], [[certpath.Holder(False, 0)]])
        self.assertEqual(certpath.holders_by_issuer(b"\x30\x00" * 3, sample("root.der")), {})
        alone = certpath.holders_by_issuer(sample("leaf.der"), b"")
        self.assertEqual([*alone.values()], [[]])


class Vouching(unittest.TestCase):
    def test_samples(self):
        found = certpath.openssl.vouch(sample("bundle.der"), sample("root.der"))
        self.assertEqual(found.vouchers.text(), sample("vouchers.txt").decode())
        self.assertTrue(all(it.is_verified for it in found.verdicts))

    def test_wrong(self):
        leaf = bytearray(sample("leaf.der"))
        leaf[-1] ^= 1
        found = certpath.openssl.vouch(bytes(leaf), sample("intermediate.der"))
        self.assertEqual((len(found.vouchers), found.verdicts[0].is_verified), (0, False))

    def test_unknown(self):
        found = certpath.openssl.vouch(VERSION_1, VERSION_1)
        self.assertEqual(found.verdicts[0].why, "algorithm 1.2.3 not known")

    def test_two_algorithms(self):
        other = VERSION_1[:-9] + bytes.fromhex("300406022a04") + VERSION_1[-3:]
        found = certpath.openssl.vouch(other, VERSION_1)
        self.assertIs(certpath.class_of(other), certpath.Kind.CERTIFICATE)
        self.assertEqual(found.verdicts[0].why, "its two algorithms differ")

    def test_tries(self):
        bundle = sample("leaf.der") + sample("list.der")
        for tries in (1, 2):
            found = certpath.openssl.vouch(bundle, sample("intermediate.der"), tries=tries)
            self.assertEqual(len(found.vouchers), 2)

    def test_order(self):
        leaf, intermediate, root, _ = certpath.frame(sample("bundle.der"))
        for tries, tried in ((0, []), (1, [(1, True)]), (2, [(1, True), (0, False)])):
            judge = certpath.openssl.Judge(tries=tries)
            judged = judge.judged(leaf, judge.holders([root, intermediate]))
            self.assertEqual((judged.why, [(it.holder, it.why is None) for it in judged.tried]),
                             (None, tried), "the key that the leaf names is the first")


class Paths(Chain):
    def says(self, **changed):
        return certpath.check(*self.given, target=0, at=self.at,
                              answer=self.answer._replace(**changed))

    def test_path(self):
        self.assertEqual(self.answer[:3], (certpath.Outcome.PATH, (0, 1), 0))
        self.assertEqual(len(self.answer.table), len(certpath.frame(self.given[0])))

    def test_checks(self):
        self.assertIs(self.says(), True)
        self.assertIs(self.says(positions=(0, 2)), False)
        self.assertIs(self.says(anchor=1), False)
        self.assertIs(self.says(table=(0,) * len(self.answer.table)), False)
        self.assertIs(self.says(outcome=certpath.Outcome.NO_PATH, positions=()), False)

    def test_no_answers(self):
        for changed in ({"table": self.answer.table[1:]}, {"table": (2 ** 32 + 1,) * 3},
                        {"outcome": certpath.Outcome.NO_PATH},
                        {"outcome": certpath.Outcome.NO_TARGET, "positions": ()}):
            with self.subTest(changed=changed), self.assertRaises(certpath.BadAnswer):
                self.says(**changed)

    def test_no_path(self):
        late = datetime(2100, 1, 1)
        for given, at in ((self.given, late), ((*self.given[:2], b""), self.at)):
            answer = certpath.find(*given, target=0, at=at)
            self.assertEqual(answer[:3], (certpath.Outcome.NO_PATH, (), 0))
            self.assertIs(certpath.check(*given, target=0, at=at, answer=answer), True)

    def test_no_target(self):
        for target in (3, 4, 2 ** 64 - 1):
            answer = certpath.find(*self.given, target=target, at=self.at)
            self.assertEqual(answer, (certpath.Outcome.NO_TARGET, (), 0, ()))
            self.assertIs(certpath.check(*self.given, target=target, at=self.at, answer=answer),
                          True)

    def test_lists(self):
        answer = certpath.find(*self.given, target=0, at=datetime(2026, 12, 1), demand_lists=True)
        self.assertIs(answer.outcome, certpath.Outcome.NO_PATH)
        answer = certpath.find(sample("bundle.der"), *self.given[1:], target=0, at=self.at)
        self.assertIs(answer.outcome, certpath.Outcome.NO_PATH, "the list revokes the leaf")

    def test_zones(self):
        leaf = certpath.frame(self.given[0])[0]
        begin = leaf.not_valid_before_utc
        for hours, outcome in ((0, certpath.Outcome.PATH), (1, certpath.Outcome.NO_PATH)):
            at = begin.replace(tzinfo=timezone(timedelta(hours=hours)))
            self.assertIs(certpath.find(*self.given, target=0, at=at).outcome, outcome)

    def test_arguments(self):
        for target in (-1, 2 ** 64):
            with self.assertRaises(ValueError):
                certpath.find(*self.given, target=target, at=self.at)
        for call in (certpath.find, lambda *given, **how: certpath.check(
                *given, **how, answer=self.answer)):
            for pairs in (bytes(1), bytes(63), bytes(65)):
                with self.assertRaises(ValueError):
                    call(*self.given[:2], pairs, target=0, at=self.at)

    def test_positions(self):
        for positions in ((0, 3), (2 ** 64 - 1,), (0, 2 ** 64 - 1)):
            self.assertIs(self.says(positions=positions), False)
        for anchor in (1, 2 ** 64 - 1):
            self.assertIs(self.says(anchor=anchor), False)

    def test_limits(self):
        for limit, outcome in ((0, certpath.Outcome.NO_TARGET), (2 ** 32 - 1, certpath.Outcome.PATH)):
            given = *(certpath.frame(it, limit) for it in self.given[:2]), self.given[2]
            answer = certpath.find(*given, target=0, at=self.at)
            self.assertIs(answer.outcome, outcome)
            self.assertIs(certpath.check(*given, target=0, at=self.at, answer=answer), True)

    def test_nothing(self):
        answer = certpath.find(b"", b"", b"", target=0, at=self.at)
        self.assertEqual(answer, (certpath.Outcome.NO_TARGET, (), 0, ()))
        self.assertIs(certpath.check(b"", b"", b"", target=0, at=self.at, answer=answer), True)

    def test_impossible_moments(self):
        moment = {"year": 2027, "month": 2, "day": 28, "hour": 0, "minute": 0, "second": 0}
        for changed in ({"month": 13}, {"month": 0}, {"day": 29}, {"day": 0}, {"hour": 24},
                        {"minute": 60}, {"second": 60}, {"year": 10000}, {"hour": -1}):
            at = type("Odd", (datetime,), changed)(**moment)
            with self.subTest(changed=changed):
                with self.assertRaises(certpath.BadMoment):
                    certpath.find(*self.given, target=0, at=at)
                with self.assertRaises(certpath.BadMoment):
                    certpath.check(*self.given, target=0, at=at, answer=self.answer)

    def test_long_path(self):
        bundle = sample("leaf.der") + sample("intermediate.der") + sample("root.der")
        answer = certpath.find(bundle * 40, self.given[1], self.given[2], target=117, at=self.at)
        self.assertEqual((answer.positions, len(answer.table)), ((117, 1), 120))


class Reports(unittest.TestCase):
    """The reports are what the program prints."""

    def setUp(self):
        self.given = sample("bundle.der"), sample("root.der"), sample("vouchers.txt").decode()
        self.at = AT
        self.calls = {"path": {"target": 0}, "why": {"target": 0}, "paths": {}}

    def reports(self, *given, **further):
        for name, its in self.calls.items():
            yield name, getattr(certpath, name)(*given, **{"at": self.at, **its, **further})

    def printed(self, name, *further):
        files = [os.path.join(TOP, "samples", it) for it in ("bundle.der", "root.der",
                                                             "vouchers.txt")]
        words = [] if name == "paths" else ["--target", "0"]
        command = [os.path.join(TOP, "dist", "certpath"), name, *files, *words, "--at",
                   "2027-01-01T00:00:00", *further]
        return subprocess.run(command, stdout=subprocess.PIPE, text=True).stdout

    def test_samples(self):
        for demand, words in ((False, ()), (True, ("--demand-lists",))):
            for name, text in self.reports(*self.given, demand_lists=demand):
                self.assertEqual(text, self.printed(name, *words))

    def test_limits(self):
        for limit in (0, 856, 2 ** 32 - 1):
            given = *(certpath.frame(it, limit) for it in self.given[:2]), self.given[2]
            for name, text in self.reports(*given):
                self.assertEqual(text, self.printed(name, "--limit", str(limit)))

    def test_vouchers(self):
        vouchers = certpath.Vouchers.from_text(self.given[2])
        for other in (vouchers, vouchers.octets()):
            self.assertEqual([*self.reports(*self.given[:2], other)],
                             [*self.reports(*self.given)])
        with self.assertRaises(ValueError):
            [*self.reports(*self.given[:2], bytes(65))]

    def test_bad_lines(self):
        for text, line in (("x", 1), ("\n\n00 00\n", 3)):
            with self.subTest(text=text), self.assertRaises(certpath.BadLine) as raised:
                [*self.reports(*self.given[:2], text)]
            self.assertEqual((raised.exception.line, str(raised.exception)[:16]),
                             (line, f"vouchers line {line}:"))

    def test_arguments(self):
        moment = type("Odd", (datetime,), {"day": 29})(2027, 2, 28)
        with self.assertRaises(certpath.BadMoment):
            [*self.reports(*self.given, at=moment)]
        for target in (-1, 2 ** 64):
            with self.assertRaises(ValueError):
                certpath.why(*self.given, target=target, at=self.at)
        far = certpath.why(*self.given, target=2 ** 64 - 1, at=self.at)
        self.assertEqual(far, "no target\ncheck yes\n")

    def test_nothing(self):
        end = "end clean\nanchors 0 of 0, clean\n"
        self.assertEqual([*self.reports(b"", b"", b"")],
                         [("path", end + "no target\ncheck yes\n"),
                          ("why", "no target\ncheck yes\n"), ("paths", end + "check yes\n")])

    def test_long_reports(self):
        with mock.patch("certpath.reports.ROOM", 0), mock.patch("certpath.reports.ROOM_OF_ITEM", 0):
            short = [*self.reports(*self.given)]
        self.assertEqual(short, [*self.reports(*self.given)])


class Library(unittest.TestCase):
    def test_version(self):
        self.assertEqual(certpath.version(), 6)

    def test_missing(self):
        ran = subprocess.run(
            [sys.executable, "-c", "import certpath.library as it; it.FOLDERS = ('/none',)\n"
             "try: it.version()\nexcept it.LibraryMissing as error: print(error)"],
            cwd=os.path.join(TOP, "python"), capture_output=True, text=True, check=True)
        self.assertEqual(ran.stdout, "libcertpath.so is in none of /none\n")

    def test_refused_memory(self):
        items, root = certpath.frame(sample("bundle.der")), sample("root.der")
        at, answer = datetime(2027, 1, 1), certpath.Answer(certpath.Outcome.NO_TARGET, (), 0, ())
        calls = {
            "certpath_frame": [lambda: certpath.frame(root)],
            "certpath_load": [lambda: certpath.load(root)],
            "certpath_shape": [lambda: certpath.shape_of(root)],
            "certpath_shapes": [lambda: certpath.load(root)],
            "certpath_item": [lambda: certpath.item_of(root), lambda: certpath.Item(root).kind],
            "certpath_extensions": [lambda: certpath.Certificate(root).extensions],
            "certpath_tbs": [lambda: certpath.tbs(root)],
            "certpath_class": [lambda: certpath.class_of(root), lambda: items.kind(0)],
            "certpath_allows": [lambda: certpath.allows(root, "serverAuth")],
            "certpath_serves": [lambda: certpath.serves(root, "a.test")],
            "certpath_classes": [items.kinds],
            "certpath_name": [lambda: certpath.Name(b"\x30\x00").text],
            "certpath_questions": [lambda: certpath.questions(items, items)],
            "certpath_find": [lambda: certpath.find(items, items, b"", 0, at)],
            "certpath_check": [lambda: certpath.check(items, items, b"", 0, at, answer)],
            "certpath_path": [lambda: certpath.path(items, items, b"", 0, at)],
            "certpath_why": [lambda: certpath.why(items, items, b"", 0, at)],
            "certpath_paths": [lambda: certpath.paths(items, items, b"", at)],
        }
        self.assertEqual({*calls, "certpath_version"}, {*library.FUNCTIONS})
        for name, its in calls.items():
            for call in its:
                for status, error in ((1, certpath.OutOfMemory), (99, certpath.Error)):
                    with self.subTest(name=name, status=status), mock.patch.object(
                            library.loaded(), name, lambda *_: status), self.assertRaises(error):
                        call()

    def test_another_version(self):
        with mock.patch.object(library, "VERSION", 0):
            library.loaded.cache_clear()
            with self.assertRaises(certpath.LibraryMissing):
                certpath.version()
        library.loaded.cache_clear()


if __name__ == "__main__":
    unittest.main()
