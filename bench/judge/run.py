#!/usr/bin/env python3
"""Times the search for a path and the check of its answer on four kinds of graphs, each at n, 2n and 4n.

`layered`: certificates in groups of a hundred, each linked to three groups, with a path of ten; n is 100,000.
`equal`: a target and equal self-issued certificates, each linked to all of them; n is 20,000.
`chain`: a chain whose path and table name every certificate; n is 5,000. Its table alone grows with the square of n.
`apart`: a chain that its target doesn't reach; n is 5,000. The search goes over as many rows as in `chain`, and keeps one.

Prints medians of five: milliseconds of each call, and peak resident memory of the whole run with the making of the
graph, at least that of this script (some 15 MB).
To reach: from n to 4n at most 8 times the time and the memory in `layered` and `equal`, if less than a millisecond
counts as one, in `chain` at most 24 times the time and the memory (its rows are as many as its certificates, so 16 times
is what there is to do), and in `apart` at most 5.76 times the memory, which is 2.4 times at each doubling. Exit status 1
if that is missed.
"""
import os
import re
import statistics
import sys
import tempfile

sys.path.insert(0, os.path.join(os.path.dirname(os.path.abspath(__file__)), os.pardir))
import timing

KINDS = [("layered", 100_000), ("equal", 20_000), ("chain", 5_000), ("apart", 5_000)]
MOST = {"layered": 8, "equal": 8, "chain": 24}


def measured(program, kind, count):
    """Runs one graph; gives what was found, milliseconds of the search and of the check, and peak resident octets."""
    with tempfile.TemporaryFile("w+") as out:
        _, memory = timing.timed([program, "timed", kind, str(count)], out)
        out.seek(0)
        said, times = out.read().splitlines()
    if not said.endswith("check true"):
        sys.exit(f"the check says no: {said}")
    found, check = (int(match) / 1000 for match in re.findall(r"(\d+) us", times))
    return said, found, check, memory


def main():
    program = timing.built("bench_graph")
    missed = False
    for kind, start in KINDS:
        first = None
        for count in (start, 2 * start, 4 * start):
            runs = [measured(program, kind, count) for _ in range(timing.RUNS)]
            found, check, memory = (statistics.median(run[i] for run in runs) for i in (1, 2, 3))
            print(f"{runs[0][0]}; find {found:.1f} ms, check {check:.1f} ms, peak {memory / 1e6:.0f} MB", flush=True)
            now = (max(found, 1), max(check, 1), memory)
            first = first or now
        growth = [b / a for a, b in zip(first, now)]
        print(f"{kind}, 4n to n: find {growth[0]:.1f}, check {growth[1]:.1f}, memory {growth[2]:.1f}", flush=True)
        missed = missed or (kind in MOST and max(growth) > MOST[kind]) or (kind == "apart" and growth[2] > 5.76)
    sys.exit(1 if missed else 0)


if __name__ == "__main__":
    main()
