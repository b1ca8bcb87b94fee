#!/usr/bin/env python3
"""Times `X509Certificate::from_der` over each item of a bundle of 10,000 certificates (a sample, repeated), and a parser that leaves
the values of extensions unparsed, as `read_tree` does, beside `read_tree` over the same items and the yardstick on the same file
(`bench/touch.c`); and over twice and four times as many.

Prints medians of five, of whole processes that read the file. To reach: without the values at most 1.5 times the time of
`read_tree`, and with them from 10,000 to 40,000 items at most 5.76 times the time, which is 2.4 times at each doubling. Exit status 1
if it is missed.
"""
import os
import statistics
import subprocess
import sys
import tempfile

sys.path.insert(0, os.path.join(os.path.dirname(os.path.abspath(__file__)), os.pardir))
import timing

ITEMS = 10_000
MOST_OF_TREE, MOST_GROWTH = 1.5, 5.76


def median(words):
    """The median of the seconds of some runs."""
    return statistics.median(timing.timed(words)[0] for _ in range(timing.RUNS))


def main():
    program = timing.built("bench_item")
    with open(timing.SAMPLE, "rb") as sample:
        item = sample.read()
    with tempfile.TemporaryDirectory() as room:
        loop, times = timing.yardstick(room), []
        for count in (ITEMS, 2 * ITEMS, 4 * ITEMS):
            bundle = os.path.join(room, f"{count}.der")
            with open(bundle, "wb") as out:
                out.write(item * count)
            for reader in ("typed", "plain", "tree"):
                said = subprocess.run([program, reader, bundle], check=True, capture_output=True, text=True).stdout
                if not said.endswith(f": {count} {reader} in {count * len(item)} octets\n"):
                    sys.exit(f"{reader} printed something else: {said[-200:]}")
            typed, plain, tree = (median([program, name, bundle]) for name in ("typed", "plain", "tree"))
            touched = median([loop, bundle])
            times.append(typed)
            print(f"{count} items: X509Certificate::from_der {typed:.3f} s, {count / typed:.0f} items/s; values unparsed {plain:.3f} s; read_tree {tree:.3f} s, ratios {typed / tree:.2f}, {plain / tree:.2f}; yardstick {touched:.3f} s", flush=True)
            if count == ITEMS:
                ratio = plain / tree
    growth = times[-1] / times[0]
    print(f"ratio to read_tree, values unparsed: {ratio:.2f}, at most {MOST_OF_TREE}; 40,000 to 10,000 items: {growth:.2f}, at most {MOST_GROWTH}")
    sys.exit(0 if ratio <= MOST_OF_TREE and growth <= MOST_GROWTH else 1)


if __name__ == "__main__":
    main()
