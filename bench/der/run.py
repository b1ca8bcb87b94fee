#!/usr/bin/env python3
"""Times `parse_der` over each item of a bundle of 100,000 certificates (a sample, repeated) against the yardstick on the
same file (`bench/touch.c`).

Prints medians of five, of whole processes that read the file: items/s, MB/s, and the time as a ratio to the yardstick.
To reach: a ratio of at most 3. Exit status 1 if it is missed.
"""
import os
import sys

sys.path.insert(0, os.path.join(os.path.dirname(os.path.abspath(__file__)), os.pardir))
import timing

if __name__ == "__main__":
    timing.run("parse_der", [timing.built("bench_item"), "objects"],
               lambda text, size: text.endswith(f"{timing.COPIES} objects in {size} octets\n"), times=3)
