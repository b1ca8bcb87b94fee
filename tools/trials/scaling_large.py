#!/usr/bin/env python3
"""Trials of `scaling.py` at full size, by hand.

    python3 tools/trials/scaling_large.py TRIAL [N]

| trial | what is tried |
|---|---|
| `apart` | a log made apart, and one run over everything |
| `ends` | runs that are killed, stopped and gone on with |
| `files` | files of one entry: when the first block is read |
| `names` | certificates of one name, with their reasons |
| `costs` | what an entry costs, beside OpenSSL's own time |

N is 10000, of files 100000 and of names 1000, if it isn't given. The last line says whether all
was as wanted.
"""
import os
import sys
import tempfile
import unittest

sys.dont_write_bytecode = True
sys.path.insert(0, os.path.dirname(os.path.dirname(os.path.abspath(__file__))))
from trials import scaling, scaling_apart, scaling_costs, scaling_ends
from trials.count import Trial
from trials.scaling_runs import Run, octets_of, with_dask


def whole(room, entries):
    return scaling.Whole(os.path.join(room, "log"), entries, 44)


def apart(count, interpreter, room, number):
    print(f"apart: {scaling_apart.trial(count, interpreter, room, number)} rows")


def ends(count, interpreter, room, number):
    """The table of a run that nobody disturbs, and that of one that is ended twice and gone on
    with."""
    held = whole(room, number)
    for name, words in (("vouchers", ["--vouchers", held.log.vouchers]), ("openssl", [])):
        inner, given = os.path.join(room, name), [*words, "--blocksize", scaling.BLOCKSIZE]
        os.mkdir(inner)
        one = Run(interpreter, held, os.path.join(inner, "one"), *given, "--workers", "1").wait()
        scaling.killed(count, interpreter, held, one, given, inner)
        scaling_ends.resumed(count, interpreter, held, one, given, inner)
        print(f"ends, by {name}: {len(octets_of(one.out))} parts, {one.said}", end="", flush=True)


def files(count, interpreter, room, number):
    few = whole(room, scaling.FEW)
    for by_list in (False, True):
        run, said = scaling_ends.many_files(count, interpreter, few, room, number, by_list)
        run.process.terminate()
        run.wait()
        print(f"files: {said}", flush=True)


def names(count, interpreter, room, number):
    few = whole(room, scaling.FEW)
    for words, most in NAMES:
        took = scaling_ends.one_name(count, interpreter, few, room, number, most, words)
        print(f"names: {number} certificates {' '.join(words)} took {took:.1f} s of a processor",
              flush=True)


# So many seconds of a processor certificates of one name may take, in one block and in several.
NAMES = ([], 10), (["--blocksize", "40000"], 20)
# What is tried, and at which size.
TRIALS = {"apart": (apart, 10_000), "ends": (ends, 10_000), "files": (files, 100_000),
          "names": (names, 1_000), "costs": (scaling_costs.trial, 10_000)}


class Large(Trial):
    """One of the trials, with its size."""

    chosen, number = None, 0

    def runTest(self):
        interpreter = with_dask()
        if interpreter is None:
            self.skipTest("Dask isn't installed (python3-distributed)")
        with tempfile.TemporaryDirectory(prefix="scaling-") as room:
            self.chosen(self, interpreter, room, self.number)


def load_tests(_loader, _tests, _pattern):
    """None is run with the other trials: each takes minutes, and is chosen by name above."""
    return unittest.TestSuite()


def main(words):
    is_known = len(words) in (1, 2) and words[0] in TRIALS
    if not is_known or not all(map(str.isdigit, words[1:])):
        sys.exit(__doc__)
    trial, size = TRIALS[words[0]]
    Large.chosen, Large.number = staticmethod(trial), int(words[1]) if words[1:] else size
    return 0 if unittest.TextTestRunner().run(Large()).wasSuccessful() else 1


if __name__ == "__main__":
    sys.exit(main(sys.argv[1:]))
