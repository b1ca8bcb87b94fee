#!/usr/bin/env python3
"""Times `find` and `check` of what it answers on 1,000, 10,000 and 100,000 items: webs of ten levels in which each issuer of a
level is certified by each of the next, chains of ten among certificates that lead nowhere, dead ends of width 8 and depth 6 among
such, and equal self-issued certificates. Every key vouches for everything, at no cost.

Prints medians of five: milliseconds of the answer, of its check and of `parse_der` over the same items, and peak resident memory of
the whole process beside the octets. To reach: at most 2.4 times the time at each doubling (18.3 times at each tenfold), and of the web of
10,000 at most 15 times the time of `parse_der` for the answer, and 12 times the octets in memory. Exit status 1 if that is missed.
"""
import os
import statistics
import sys
import tempfile

BENCH = os.path.join(os.path.dirname(os.path.abspath(__file__)), os.pardir)
sys.path.insert(0, BENCH)
import timing
sys.path.insert(0, os.path.join(BENCH, "judge"))
from items import certificate, measured, write

COUNTS = (1_000, 10_000, 100_000)
LEVELS, WIDTH, DEPTH = 10, 8, 6
MOST_GROWTH, MOST_OF_PARSE, MOST_MEMORY = 18.3, 15, 12


def levels(width, depth, top):
    """Each name of a level certified by each of the next; the last by one name."""
    for level in range(depth):
        issuers = [top] if level == depth - 1 else [f"{level + 1}.{number}" for number in range(width)]
        for subject in range(width):
            for issuer in issuers:
                yield certificate(f"{level}.{subject}", issuer)


def alone(count):
    """Certificates whose issuers aren't there."""
    return (certificate(f"n{number}", f"m{number}") for number in range(count))


def items_of(kind, count):
    """The items of a kind, the target first."""
    if kind == "web":
        width = round((count / LEVELS) ** 0.5)
        found = list(levels(width, LEVELS, "root"))
    elif kind == "chain":
        found = [certificate(f"c{number}", "root" if number == LEVELS - 1 else f"c{number + 1}") for number in range(LEVELS)]
    elif kind == "dead end":
        found = list(levels(WIDTH, DEPTH, "nowhere"))
    else:
        found = [certificate("n", "n")] * count
    return found + list(alone(count - len(found)))


def line(program, room, kind, count):
    """Prints one row; gives milliseconds of the answer and the trees, and peak octets for each octet of the items."""
    found = items_of(kind, count)
    octets = b"".join(found)
    bundle = write(room, "items.der", octets)
    root = write(room, "root.der", certificate("root", "root"))
    runs = [measured(program, ["anchors", root, "find", bundle]) for _ in range(timing.RUNS)]
    check, parse, memory, answer = (statistics.median(run[i] for run in runs) for i in range(4))
    times = memory / len(octets)
    print(f"{kind}, {len(found)} items: answer {answer:.1f} ms, {answer / parse:.1f} times parse_der's {parse:.1f} ms; check {check:.1f} ms; "
          f"peak {times:.1f} times {len(octets) / 1e6:.1f} MB", flush=True)
    return answer, parse, times


def main():
    program, missed = timing.built("bench_item"), False
    with tempfile.TemporaryDirectory() as room:
        for kind in ("web", "chain", "dead end", "self-issued"):
            rows = [line(program, room, kind, count) for count in COUNTS]
            growth = max(after[0] / max(before[0], 1) for before, after in zip(rows, rows[1:]))
            print(f"{kind}: at most {growth:.1f} times at a tenfold", flush=True)
            answer, parse, times = rows[1]
            missed |= growth > MOST_GROWTH or kind == "web" and (answer > MOST_OF_PARSE * parse or times > MOST_MEMORY)
    sys.exit(1 if missed else 0)


if __name__ == "__main__":
    main()
