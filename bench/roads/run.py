#!/usr/bin/env python3
"""Times both roads over each item of a bundle of 10,000 certificates (a sample, repeated), `read_tree` and `read_typed`, beside
`X509Certificate::from_der` over the same items; and `read_typed` of one certificate of 1, 2 and 4 MB, of extensions with different identifiers.

Prints medians of five, of whole processes that read the file. To reach: `read_typed` at most 3 times `X509Certificate::from_der`, and at
most 2.4 times its time at each doubling of the one certificate. Exit status 1 if it is missed.
"""
import os
import statistics
import subprocess
import sys
import tempfile

BENCH = os.path.join(os.path.dirname(os.path.abspath(__file__)), os.pardir)
sys.path.insert(0, BENCH)
import timing
sys.path.insert(0, os.path.join(BENCH, "judge"))
from items import ALGORITHM, FIRST, KEY, LAST, SIGNED, element, write

ITEMS = 10_000
MOST_OF_TYPED, MOST_GROWTH = 3, 2.4
MEGABYTE = 1_000_000


def of_many_extensions(size):
    """A certificate of about so many octets, whose extensions have identifiers of their own."""
    found, left, number = [], size, 0
    while left > 0:
        identifier = bytes([0x2A, 0x81, 0x80 | number >> 14 & 0x7F, 0x80 | number >> 7 & 0x7F, number & 0x7F])
        found.append(element(0x30, element(0x06, identifier), element(0x04)))
        left, number = left - len(found[-1]), number + 1
    tbs = element(
        0x30, bytes.fromhex("a003020102020101"), ALGORITHM, element(0x30), element(0x30, FIRST, LAST), element(0x30), KEY,
        element(0xA3, element(0x30, *found)))
    return element(0x30, tbs, SIGNED)


def seconds(program, reader, path, count, size):
    """The median of the seconds of some runs that read so many items of so many octets."""
    printed = subprocess.run([program, reader, path], check=True, capture_output=True, text=True).stdout
    if not printed.endswith(f": {count} {reader} in {size} octets\n"):
        sys.exit(f"{reader} printed something else: {printed[-200:]}")
    return statistics.median(timing.timed([program, reader, path])[0] for _ in range(timing.RUNS))


def of_bundle(program, room):
    """Prints the times of the bundle; gives that of `read_typed` as a multiple of `X509Certificate::from_der`."""
    with open(timing.SAMPLE, "rb") as sample:
        item = sample.read()
    bundle = write(room, "bundle.der", item * ITEMS)
    typed, tree, road = (seconds(program, name, bundle, ITEMS, ITEMS * len(item)) for name in ("typed", "tree", "road"))
    print(f"{ITEMS} items: X509Certificate::from_der {typed:.4f} s; read_tree {tree:.4f} s, {tree / typed:.2f} times; read_typed {road:.4f} s, "
          f"{road / typed:.2f} times, {1e6 * road / ITEMS:.2f} microseconds an item", flush=True)
    return road / typed


def of_one(program, room):
    """Prints the times of one certificate of each size; gives the greatest growth at a doubling."""
    times = []
    for size in (MEGABYTE, 2 * MEGABYTE, 4 * MEGABYTE):
        item = of_many_extensions(size)
        path = write(room, "item.der", item)
        times.append(seconds(program, "road", path, 1, len(item)))
        print(f"one certificate of {len(item)} octets: read_typed {times[-1]:.4f} s", flush=True)
    return max(after / before for before, after in zip(times, times[1:]))


def main():
    program = timing.built("bench_item")
    with tempfile.TemporaryDirectory() as room:
        ratio, growth = of_bundle(program, room), of_one(program, room)
    print(f"read_typed: {ratio:.2f} times X509Certificate::from_der, at most {MOST_OF_TYPED}; {growth:.2f} times at a doubling, at most {MOST_GROWTH}")
    sys.exit(0 if ratio <= MOST_OF_TYPED and growth <= MOST_GROWTH else 1)


if __name__ == "__main__":
    main()
