#!/usr/bin/env python3
"""Times `certpath frame` on a bundle of 100,000 certificates (a sample, repeated) against the yardstick on the same file
(`bench/touch.c`).

Prints medians of five, of whole processes: items/s, MB/s, peak resident memory as a multiple of the file's size, and the
time as a ratio to the yardstick. To reach: a ratio of at most 1, and at most 2.5 times the file's size in memory. Exit
status 1 if either is missed.
"""
import os
import sys

sys.path.insert(0, os.path.join(os.path.dirname(os.path.abspath(__file__)), os.pardir))
import timing

if __name__ == "__main__":
    timing.run("frame", [timing.built("certpath_cli"), "frame"],
               lambda text, size: text.count("\n") == timing.COPIES + 1, times=1, memory_times=2.5)
