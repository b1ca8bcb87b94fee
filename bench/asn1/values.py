#!/usr/bin/env python3
"""Times reading UTCTimes and writing a sequence of 1,000 numbers of 32 bits.

Prints the nanoseconds that one value takes, the least of five runs. With the path of another build of `bench_item`
(`crates/bench_item/out/bench_item` of an earlier commit) both are timed in turn, and the ratio to it is printed.
"""
import os
import random
import sys
import tempfile

sys.path.insert(0, os.path.join(os.path.dirname(os.path.abspath(__file__)), os.pardir))
import timing

VALUES = 1_000
# what the program does with a file, and how often a file is named: its runs then take a second or so
ROUNDS, FILES = 1_000, 20


def utc_times(numbers):
    """So many UTCTimes, one after the other."""
    ranges = ((0, 99), (1, 12), (1, 28), (0, 23), (0, 59), (0, 59))
    texts = ("".join(f"{numbers.randint(*span):02d}" for span in ranges) for _ in range(VALUES))
    return b"".join(b"\x17\x0d" + text.encode() + b"Z" for text in texts)


def sequence(numbers):
    """A SEQUENCE of so many INTEGERs below 2^32."""
    values = (numbers.randrange(1 << 32) for _ in range(VALUES))
    parts = (value.to_bytes(value.bit_length() // 8 + 1, "big") for value in values)
    content = b"".join(bytes((2, len(part))) + part for part in parts)
    return b"\x30\x82" + len(content).to_bytes(2, "big") + content


def nanoseconds(programs, name, path):
    """The nanoseconds a value by each of the programs, which take turns."""
    runs = [[timing.timed([program] + FILES * [name, path])[0] for program in programs] for _ in range(timing.RUNS)]
    return [min(times) * 1e9 / (FILES * ROUNDS * VALUES) for times in zip(*runs)]


if __name__ == "__main__":
    programs = [timing.built("bench_item")] + sys.argv[1:2]
    with tempfile.TemporaryDirectory() as room:
        for name, make in (("times", utc_times), ("numbers", sequence)):
            path = os.path.join(room, name)
            with open(path, "wb") as file:
                file.write(make(random.Random(1)))
            here, *other = nanoseconds(programs, name, path)
            beside = f", {here / other[0]:.2f} times the other's {other[0]:.1f}" if other else ""
            print(f"{'reading a UTCTime' if name == 'times' else 'writing a number'}: {here:.1f} ns{beside}")
