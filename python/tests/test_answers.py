"""Tries answers: what is none, what they hold, and how they are checked again.

    cd python && python3 -m unittest
"""
import copy
import os
import pickle
import subprocess
import sys
import unittest
from unittest import mock

import certpath
from certpath import Answer, Outcome
from tests.common import AT, TOP, Chain, sample


class Numbers(Chain):
    """Numbers that ctypes would cut to those of the right answer."""

    def refuses(self, error, **changed):
        for call in (lambda answer: certpath.check(*self.given, 0, AT, answer), certpath.check):
            with self.subTest(changed=changed), self.assertRaises(error):
                call(self.answer._replace(**changed))

    def test_positions(self):
        self.assertEqual(self.answer.positions, (0, 1))
        for positions in ((2 ** 64, 1), (0, 2 ** 64 + 1), (-2 ** 64, 1), (0, 1 - 2 ** 64), (-1, 1),
                          (0, 10 ** 5000), (2 ** 128, 1)):
            self.refuses(certpath.BadAnswer, positions=positions)

    def test_anchors(self):
        for anchor in (-2 ** 64, 2 ** 64, -1, 2 ** 128, 10 ** 5000):
            self.refuses(certpath.BadAnswer, anchor=anchor)

    def test_tables(self):
        first, *rest = self.answer.table
        for number in (first + 2 ** 64, first - 2 ** 64, first + 7 * 2 ** 64, -1, 10 ** 5000):
            self.refuses(certpath.BadAnswer, table=(number, *rest))

    def test_types(self):
        for wrong in (None, 0, 1.5, "01", b"\0\1", {0: 1}, {0, 1}, iter((0, 1)), object(), (0.0, 1),
                      ("0", "1"), (None, 1), ((0,), 1)):
            self.refuses(TypeError, positions=wrong)
            self.refuses(TypeError, table=wrong)
        for wrong in (None, 0.0, "0", True, (0,), object()):
            self.refuses(TypeError, anchor=wrong)
        for wrong in (None, 0, "PATH", certpath.Kind.OTHER, object()):
            self.refuses(TypeError, outcome=wrong)

    def test_other_sequences(self):
        for kind in (list, tuple):
            again = Answer(self.answer.outcome, kind(self.answer.positions), 0, kind(self.answer.table))
            self.assertIs(certpath.check(*self.given, 0, AT, again), True)

    def test_no_answers(self):
        for wrong in (None, tuple(self.answer), True, "yes", self.answer.table):
            with self.assertRaisesRegex(TypeError, "an Answer is needed"):
                certpath.check(*self.given, 0, AT, wrong)

    def test_messages(self):
        with self.assertRaisesRegex(certpath.BadAnswer, "positions: a number isn't from 0 to 1844"):
            certpath.check(self.answer._replace(positions=(2 ** 64, 1)))
        with self.assertRaisesRegex(certpath.BadAnswer, "anchor: -1 isn't from 0 to 1844"):
            certpath.check(self.answer._replace(anchor=-1))
        with self.assertRaisesRegex(certpath.BadAnswer, "no whole rows"):
            certpath.check(self.answer._replace(table=self.answer.table[1:]))


class Truth(Chain):
    """An answer is true exactly where there is a path."""

    def test_truth(self):
        chain, anchors, vouchers = self.given
        for asked, outcome in (((chain, anchors, vouchers, 0), Outcome.PATH),
                               ((chain, anchors, b"", 0), Outcome.NO_PATH),
                               ((chain, b"", vouchers, 0), Outcome.NO_PATH),
                               ((chain, anchors, vouchers, 9), Outcome.NO_TARGET)):
            answer = certpath.find(*asked, AT)
            self.assertIs(answer.outcome, outcome)
            self.assertIs(answer.found, outcome is Outcome.PATH)
            self.assertIs(bool(answer), outcome is Outcome.PATH)


class Questions(Chain):
    """An answer holds what was asked."""

    def test_each_question(self):
        chain, anchors, vouchers = self.given
        for further in ({}, {"demand_lists": True}, {"demand_lists": False}):
            for target in (0, 1, 2, 3):
                for bundle in (chain, sample("bundle.der"), certpath.frame(chain, 1000)):
                    answer = certpath.find(bundle, anchors, vouchers, target, AT, **further)
                    self.assertIs(certpath.check(answer), True)
                    again = certpath.check(bundle, anchors, vouchers, target, AT, answer, **further)
                    self.assertIs(again, True)

    def test_wrong_answers(self):
        for changed in ({"positions": (0, 2)}, {"anchor": 1}, {"table": (0,) * 3},
                        {"outcome": Outcome.NO_PATH, "positions": ()}):
            self.assertIs(certpath.check(self.answer._replace(**changed)), False)

    def test_what_is_held(self):
        chain, anchors, vouchers = self.given
        asked = self.answer.asked
        self.assertEqual((asked.bundle.data, asked.anchors.data, asked.vouchers, *asked[3:]),
                         (chain, anchors, vouchers.octets(), 0, AT, False, None, None))
        vouchers.add(b"key", b"item")
        self.assertEqual(len(asked.vouchers), 64 * (len(vouchers) - 1))

    def test_answers_without(self):
        without = Answer(*self.answer)
        self.assertEqual((without, without.asked), (self.answer, None))
        with self.assertRaisesRegex(TypeError, "doesn't hold what was asked"):
            certpath.check(without)
        self.assertIs(certpath.check(*self.given, 0, AT, without), True)

    def test_calls(self):
        for given in ((), (self.answer, self.given[1]), self.given, (*self.given, 0), (None,),
                      (*self.given, 0, AT)):
            with self.assertRaises(TypeError):
                certpath.check(*given)
        with self.assertRaises(TypeError):
            certpath.check(self.answer, demand_lists=True)
        named = dict(zip(("bundle", "anchors", "vouchers"), self.given))
        self.assertIs(certpath.check(**named, target=0, at=AT, answer=self.answer), True)
        self.assertIs(certpath.check(*self.given, 0, AT, self.answer, True), False)

    def test_tuples(self):
        """An answer is a tuple of its four numbers, as ever."""
        outcome, positions, anchor, table = self.answer
        self.assertEqual(self.answer, (outcome, positions, anchor, table))
        self.assertEqual(self.answer._fields, ("outcome", "positions", "anchor", "table"))

    def test_copies(self):
        for it in (copy.copy(self.answer), copy.deepcopy(self.answer),
                   pickle.loads(pickle.dumps(self.answer)), self.answer._replace()):
            self.assertEqual(it, self.answer)
            self.assertIs(certpath.check(it), True)


MEMORY = """
import resource, certpath
from datetime import datetime
def most(): return resource.getrusage(resource.RUSAGE_SELF).ru_maxrss >> 10
items, before = certpath.frame(b"\\x30\\x00" * 1000000), most()
certpath.find(items, b"", b"", 0, datetime(2027, 1, 1))
print(most() - before)
"""


class Memory(Chain):
    def test_room_of_the_system(self):
        # (the package's `paths` is a function, and its module of that name stands beside it)
        with mock.patch.object(sys.modules["certpath.paths"], "LARGE", 1):
            self.assertEqual(certpath.find(*self.given, 0, AT), self.answer)
            with mock.patch("mmap.mmap", side_effect=OSError(12, "no memory")):
                with self.assertRaisesRegex(certpath.OutOfMemory, "the system gave no 384 octets"):
                    certpath.find(*self.given, 0, AT)

    def test_many_items(self):
        """Room for a table of 16 rows of 10^6 numbers, 122 MB, isn't taken where none is written."""
        words = [sys.executable, "-c", MEMORY]
        done = subprocess.run(words, cwd=os.path.join(TOP, "python"), capture_output=True, text=True,
                              check=True)
        self.assertLess(int(done.stdout), 440)


if __name__ == "__main__":
    unittest.main()
