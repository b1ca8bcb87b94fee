#!/usr/bin/env python3
"""Times `Any::from_der` over each item of a bundle of 100,000 certificates (a sample, repeated), and over the elements
within by `SequenceIterator` on all levels, against the yardstick on the same file (`bench/touch.c`).

Prints medians of five, of whole processes that read the file: items/s, MB/s, and the time as a ratio to the yardstick.
To reach: a ratio of at most 2. Exit status 1 if it is missed.
"""
import os
import sys

sys.path.insert(0, os.path.join(os.path.dirname(os.path.abspath(__file__)), os.pardir))
import timing


def elements(octets):
    """How many elements the octets are, with those within. Tag numbers below 31, lengths of the definite form."""
    count = at = 0
    while at < len(octets):
        tag, length, at = octets[at], octets[at + 1], at + 2
        if length > 127:
            size = length - 128
            length, at = int.from_bytes(octets[at:at + size], "big"), at + size
        count += 1 + (elements(octets[at:at + length]) if tag & 0x20 else 0)
        at += length
    return count


if __name__ == "__main__":
    with open(timing.SAMPLE, "rb") as sample:
        wanted = timing.COPIES * elements(sample.read())
    timing.run("Any::from_der", [timing.built("bench_item"), "elements"],
               lambda text, size: text.endswith(f": {wanted} elements in {size} octets\n"), times=2)
