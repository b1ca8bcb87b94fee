"""Tries items and answers in other processes and threads: pickling, spawn, fork, eight threads.

    cd python && python3 -m unittest
"""
import copy
import multiprocessing
import pickle
import threading
import unittest
import warnings
from datetime import datetime
from unittest import mock

import certpath
import certpath.openssl
from certpath.fixed import kept
from tests.common import Chain, sample

# How long a process may take; a worker that died would be waited for without an end.
MOST_SECONDS = 600


def answers():
    """What all calls of the library give on the samples."""
    items = certpath.frame(sample("bundle.der"))
    asked = certpath.questions(items, sample("root.der"))
    vouchers = certpath.Vouchers.from_text(sample("vouchers.txt").decode())
    given = items, sample("root.der"), vouchers, 0, datetime(2027, 1, 1)
    answer = certpath.find(*given)
    shown = [(it.issuer.text, it.kind, it.signature_algorithm) for it in items]
    texts = certpath.path(*given), certpath.why(*given), certpath.paths(*given[:3], given[4])
    leaf = items[0]
    return (shown, leaf.serial_number, leaf.not_valid_after_utc, [*items.kinds()], asked, answer,
            certpath.check(*given, answer), certpath.holders_by_issuer(items, given[1]), texts)


def everything():
    """What all calls give on the samples, those of OpenSSL too."""
    vouched = certpath.openssl.vouch(sample("bundle.der"), sample("root.der"))
    return answers(), vouched.vouchers.text()


def shown(items):
    """What is asked of items in another process."""
    return [*items.kinds()], [items.kind(it) for it in range(len(items))], [*items], items.end


def work(task, given, results):
    results.put(task(given))


def answers_to(_):
    return answers()


def nothing(given):
    return given


def checked(answer):
    return certpath.check(answer), answer.found, answer


class Pickling(unittest.TestCase):
    def setUp(self):
        self.items = certpath.frame(sample("bundle.der"), 1000)

    def test_items(self):
        expected = shown(self.items)
        for items in (self.items, certpath.frame(self.items.data, 1000)):
            for again in (pickle.loads(pickle.dumps(items)), copy.copy(items), copy.deepcopy(items)):
                self.assertEqual((shown(again), again.data, again.limit),
                                 (expected, items.data, items.limit))

    def test_octets_elsewhere(self):
        """Items that are loaded read their own octets, not those at an address of before."""
        pickled = pickle.dumps(self.items)
        del self.items
        others = [certpath.frame(b"\x30\x00" * 1000) for _ in range(50)]
        again = pickle.loads(pickled)
        self.assertEqual([it.name for it in again.kinds()], ["CERTIFICATE"] * 3 + ["LIST"])
        self.assertEqual({it.kind(0).name for it in others}, {"OTHER"})

    def test_size(self):
        [*self.items]
        self.assertLess(len(pickle.dumps(self.items)), len(self.items.data) + 200)

    def test_each_item(self):
        for it in (*self.items, certpath.Item(b"\x30\x00"), certpath.Other(b"\x30\x00")):
            again = pickle.loads(pickle.dumps(it))
            self.assertEqual((again, type(again), again.kind), (it, type(it), it.kind))

    def test_errors(self):
        for error in (certpath.BadLine(7), certpath.BadHost("it is empty"), certpath.NoField("no"),
                      certpath.BadItem("no")):
            again = pickle.loads(pickle.dumps(error))
            self.assertEqual((type(again), str(again)), (type(error), str(error)))


class Unchanged(unittest.TestCase):
    def test_items(self):
        items = certpath.frame(sample("bundle.der"))
        for name in ("data", "limit", "end", "_starts", "_kinds", "further"):
            with self.assertRaisesRegex(AttributeError, "Items is never changed"):
                setattr(items, name, b"\x30\x00")
            with self.assertRaisesRegex(AttributeError, "Items is never changed"):
                delattr(items, name)
        self.assertEqual([it.name for it in items.kinds()], ["CERTIFICATE"] * 3 + ["LIST"])

    def test_certificates(self):
        leaf = certpath.Certificate(sample("leaf.der"))
        for name in ("kind", "subject", "serial_number", "not_valid_after_utc", "_octets"):
            getattr(leaf, name)
            with self.assertRaises(AttributeError):
                setattr(leaf, name, None)
        self.assertEqual(leaf.serial_number, 3)


class Processes(Chain):
    def asked_of(self, context, task, given):
        """What a task gives in a process of its own."""
        results = context.Queue()
        process = context.Process(target=work, args=(task, given, results))
        process.start()
        try:
            return results.get(timeout=MOST_SECONDS)
        finally:
            process.join(MOST_SECONDS)
            self.assertEqual(process.exitcode, 0)

    def test_starts(self):
        items = certpath.frame(sample("bundle.der"))
        expected = shown(items)
        for start in ("fork", "spawn", "forkserver"):
            context = multiprocessing.get_context(start)
            with self.subTest(start=start):
                self.assertEqual(self.asked_of(context, shown, items), expected)
                self.assertEqual(shown(self.asked_of(context, nothing, items)), expected)
                self.assertEqual(self.asked_of(context, checked, self.answer),
                                 (True, True, self.answer))

    def test_pool(self):
        items = [certpath.frame(sample("bundle.der")) for _ in range(8)]
        with multiprocessing.get_context("spawn").Pool(2) as pool:
            found = pool.map_async(shown, items).get(MOST_SECONDS)
        self.assertEqual(found, [shown(items[0])] * 8)

    def test_fork_in_use(self):
        """A process that forks while its threads call the library has a child that calls it."""
        expected, is_done = answers(), threading.Event()

        def call():
            while not is_done.is_set():
                answers()

        threads = [threading.Thread(target=call) for _ in range(4)]
        for it in threads:
            it.start()
        try:
            for _ in range(3):
                with warnings.catch_warnings():
                    # (Python 3.12 and later warn of any fork beside threads)
                    warnings.simplefilter("ignore", DeprecationWarning)
                    found = self.asked_of(multiprocessing.get_context("fork"), answers_to, None)
                self.assertEqual(found, expected)
        finally:
            is_done.set()
            for it in threads:
                it.join()


class Threads(unittest.TestCase):
    def together(self, call, count=8):
        """What so many threads get, which begin at one time."""
        found, begin = [None] * count, threading.Barrier(count)

        def work_of(number):
            begin.wait()
            found[number] = call()

        threads = [threading.Thread(target=work_of, args=(it,)) for it in range(count)]
        for it in threads:
            it.start()
        for it in threads:
            it.join()
        return found

    def test_all_calls(self):
        expected = everything()
        self.assertEqual(self.together(lambda: [everything() for _ in range(20)][-1]), [expected] * 8)

    def test_one_object(self):
        for _ in range(20):
            items = certpath.frame(sample("bundle.der") * 50)
            expected = shown(certpath.frame(items.data))
            self.assertEqual(self.together(lambda: shown(items)), [expected] * 8)
            self.assertEqual({*self.together(lambda: id(items[0].subject))}, {id(items[0].subject)})

    def test_no_lock(self):
        """While one object computes a property, another one isn't kept waiting."""
        begun, may_end = threading.Event(), threading.Event()

        class Slow:
            def __init__(self, waits):
                self.waits = waits

            @kept
            def value(self):
                if self.waits:
                    begun.set()
                    may_end.wait(MOST_SECONDS)
                return 1

        one = threading.Thread(target=lambda: Slow(True).value)
        one.start()
        begun.wait(MOST_SECONDS)
        other = threading.Thread(target=lambda: Slow(False).value)
        other.start()
        other.join(60)
        is_waiting = other.is_alive()
        may_end.set()
        one.join()
        other.join()
        self.assertFalse(is_waiting)

    def test_properties_are_kept(self):
        for held in (certpath.Certificate, certpath.RevocationList, certpath.Name, certpath.Item):
            for name in dir(held):
                self.assertNotEqual(type(held.__dict__.get(name)).__name__, "cached_property")
        leaf = certpath.Certificate(sample("leaf.der"))
        self.assertIs(leaf.subject, leaf.subject)


class Keys(unittest.TestCase):
    """The keys that OpenSSL reads are freed."""

    def counted(self, call):
        """How many keys were made and freed by a call."""
        counts, made = {"d2i_PUBKEY": 0, "EVP_PKEY_free": 0}, certpath.openssl.libcrypto.loaded

        class Counting:
            def __init__(self):
                self.library = made()

            def __getattr__(self, name):
                function = getattr(self.library, name)
                if name not in counts:
                    return function

                def counting(*given):
                    answer = function(*given)
                    counts[name] += name != "d2i_PUBKEY" or answer is not None
                    return answer
                return counting

        with mock.patch("certpath.libcrypto.loaded", Counting):
            call()
        return counts["d2i_PUBKEY"], counts["EVP_PKEY_free"]

    def test_vouch(self):
        given = sample("bundle.der"), sample("root.der")
        for call in (lambda: certpath.openssl.vouch(*given),
                     lambda: [*certpath.openssl.answers(*given)],
                     lambda: next(certpath.openssl.answers(*given)),
                     lambda: self.judged(*given)):
            made, freed = self.counted(call)
            self.assertEqual(made, freed)
            self.assertGreater(made, 0)

    def judged(self, *_):
        bundle = certpath.frame(sample("bundle.der"))
        with certpath.openssl.verifier() as openssl:
            judge = certpath.openssl.Judge(openssl)
            judge.judged(bundle[0], judge.holders([bundle[1]]))
            judge.judged(bundle[1], judge.holders([bundle[2]]))

    def test_dropped(self):
        def call():
            openssl = certpath.openssl.verifier()
            openssl.key(certpath.Certificate(sample("root.der")).public_key_bytes)
            openssl.close()
            openssl.key(certpath.Certificate(sample("root.der")).public_key_bytes)
            del openssl
        self.assertEqual(self.counted(call), (2, 2))

    def test_given(self):
        """One that is given is kept open for whoever gave it."""
        with certpath.openssl.verifier() as openssl:
            given = sample("bundle.der"), sample("root.der")
            [*certpath.openssl.answers(*given, openssl=openssl)]
            self.assertGreater(len(openssl.keys), 0)
        self.assertEqual(len(openssl.keys), 0)


if __name__ == "__main__":
    unittest.main()
