#!/usr/bin/env python3
"""Measures `certpath paths`, the paths of all items at once, at sizes that double from 12,500 to 100,000 items, beside `certpath path`
on the same files.

    bench/paths/run.py [--only NAME].. [--program PATH] [--sizes N,N,..] [--runs N]

Prints a row for each family: processor seconds of `paths` at each size, the greatest growth at a doubling, the time of `paths` over
that of `path` for item 0 at the greatest size, the greatest peak memory for each octet read, and the octets that are printed. To reach:
at most 2.4 times at each doubling; at most 1.5 times the time of `path` if one issuer or equal certificates are asked about; at
most 12 times the octets in memory, if that is above 40 MB. Exit status 1 if that is missed, or an answer isn't the right one.
"""
import argparse
import os
import sys
import tempfile
from typing import Callable, NamedTuple

HERE = os.path.dirname(os.path.abspath(__file__))
TOP = os.path.dirname(os.path.dirname(HERE))
sys.dont_write_bytecode = True
sys.path[:0] = [os.path.join(TOP, "bench", "hostile"), os.path.join(TOP, "tools")]
from program import programs
from family import ITEMS, Files
from graphs import ANCHOR, COMMON_KEY, LEAF, ROOT, ROOT_KEY, X
from measure import MEGABYTE, in_child, measured, write_pieces
from parts import MOMENT, certificate, key, name, voucher

MOST_GROWTH, MOST_OF_PATH, MOST_TIMES = 2.4, 1.5, 12
LEAST_SECONDS, LEAST_MEMORY, SECONDS = 0.02, 40 * MEGABYTE, 600
NAMES = ("bundle", "anchors", "vouchers")
HEAD = ("family", "seconds", "growth", "over path", "peak MB", "times the octets", "printed MB", "verdict")
# The length of the chains, and how many issuers a web has for each hundred items.
LENGTH, ISSUERS = 10, 10
# Kinds of what is missed: a wrong answer ends a family's row.
WRONG = "wrong answer"


class Family(NamedTuple):
    """Files of one kind, with how many of their certificates have a path; and whether the time is bounded by that of `path`."""
    name: str
    make: Callable
    is_beside_path: bool = False


def one_issuer(count):
    """Leaves of one authority, a key each."""
    leaves = [certificate(LEAF, X, key(number), number) for number in range(count - 1)]
    issuer = certificate(X, ROOT, COMMON_KEY)
    return Files([*leaves, issuer], [ANCHOR], [voucher(COMMON_KEY, leave) for leave in leaves] + [voucher(ROOT_KEY, issuer)]), count


def equal(count):
    """Copies of one certificate that an anchor issued."""
    item = certificate(X, ROOT, COMMON_KEY)
    return Files([item] * count, [ANCHOR], [voucher(ROOT_KEY, item)]), count


def chains(count):
    """Chains of ten, each with names of its own."""
    items, lines = [], []
    for chain in range(count // LENGTH):
        names = [name(f"c{chain}.{number}") for number in range(LENGTH)] + [ROOT]
        for place in range(LENGTH):
            items.append(certificate(names[place], names[place + 1], COMMON_KEY))
            lines.append(voucher(ROOT_KEY if place == LENGTH - 1 else COMMON_KEY, items[-1]))
    name.cache_clear()
    return Files(items, [ANCHOR], lines), len(items)


def web(count):
    """Authorities that certify each other, five certificates each, the first of every ten by the root; and leaves below them."""
    tops = count * ISSUERS // 100 // 5
    names = [name(f"w{number}") for number in range(tops)]
    items, lines = [], []
    for top in range(tops):
        for step in range(5):
            issuer = (top * 7 + step * step * 13 + 1) % tops
            by_root = step == 0 and top % 10 == 0
            items.append(certificate(names[top], ROOT if by_root else names[issuer], key(top), step))
            lines.append(voucher(ROOT_KEY if by_root else key(issuer), items[-1]))
    for leaf in range(count - len(items)):
        items.append(certificate(LEAF, names[leaf % tops], COMMON_KEY, leaf))
        lines.append(voucher(key(leaf % tops), items[-1]))
    name.cache_clear()
    return Files(items, [ANCHOR], lines), None


def limits(count):
    """Fives of a leaf, its issuer, and three certificates of that one's issuer, of which the path lengths 0 and 0 are too small."""
    items, lines = [], []
    for number in range(count // 5):
        low, high = name(f"l{number}"), name(f"h{number}")
        five = [certificate(LEAF, low, COMMON_KEY, number), certificate(low, high, COMMON_KEY), *(certificate(high, ROOT, COMMON_KEY, index, limit=index // 2) for index in range(3))]
        items += five
        lines += [voucher(COMMON_KEY, entry) for entry in five[:2]] + [voucher(ROOT_KEY, entry) for entry in five[2:]]
    name.cache_clear()
    return Files(items, [ANCHOR], lines), len(items)


FAMILIES = (Family("one issuer", one_issuer, True), Family("web", web), Family("equal", equal, True), Family("chains of 10", chains), Family("path lengths", limits))


class Point(NamedTuple):
    """What `paths` took at one size, and what `path` took there."""
    octets: int
    seconds: float
    memory: int
    printed: int
    of_path: float
    fault: str


def write_files(family, size, room):
    """Writes the files of a size into a folder, and beside them how many paths are wanted; gives how many octets they have."""
    files, wanted = family.make(size)
    octets = write_pieces(room, NAMES, files)
    with open(os.path.join(room, "wanted"), "w", encoding="ascii") as out:
        out.write("" if wanted is None else str(wanted))
    return octets


def best(words, room, runs):
    """The quickest of some runs."""
    return min((measured(words, room, SECONDS) for _ in range(runs)), key=lambda run: run.seconds)


def fault_of(run, room):
    """Why a run isn't right; none if it is."""
    if run.status not in (0, 1):
        return f"{WRONG}: status {run.status}"
    with open(run.output, "rb") as file:
        text = file.read()
    with open(os.path.join(room, "wanted"), encoding="ascii") as file:
        wanted = file.read()
    found = text.count(b" anchor ")
    if not text.endswith(b"\ncheck yes\n") or found != int(wanted or found) or not found:
        return f"{WRONG}: {found} paths"
    return None


def point(family, size, program, runs, room):
    octets = in_child(write_files, family, size, room)
    single = best([program, "path", *NAMES, "--target", "0", "--at", MOMENT], room, runs)
    run = best([program, "paths", *NAMES, "--at", MOMENT], room, runs)
    return Point(octets, run.seconds, run.memory, os.path.getsize(run.output), single.seconds, fault_of(run, room))


def growths(points):
    return [max(after.seconds, LEAST_SECONDS) / max(before.seconds, LEAST_SECONDS) for before, after in zip(points, points[1:])]


def missed(family, points):
    """What a family doesn't reach."""
    found = [mark.fault for mark in points if mark.fault]
    last = points[-1]
    if max(growths(points), default=0) > MOST_GROWTH:
        found.append("growth")
    if family.is_beside_path and last.seconds > MOST_OF_PATH * max(last.of_path, LEAST_SECONDS):
        found.append("over path")
    if any(mark.memory > max(MOST_TIMES * mark.octets, LEAST_MEMORY) for mark in points):
        found.append("memory")
    return found


def row(family, points, found):
    """The cells of a family's row."""
    last = points[-1]
    large = [mark.memory / mark.octets for mark in points if mark.memory > LEAST_MEMORY]
    return (family.name, ", ".join(f"{mark.seconds:.2f}" for mark in points), f"{max(growths(points), default=0):.1f}", f"{last.seconds / max(last.of_path, LEAST_SECONDS):.2f}",
            f"{last.memory / MEGABYTE:.0f}", f"{max(large):.1f}" if large else "", f"{last.printed / MEGABYTE:.1f}", f"FAIL: {', '.join(found)}" if found else "pass")


def read_words():
    words = argparse.ArgumentParser(description="Measures certpath paths.")
    words.add_argument("--only", action="append", default=[], metavar="NAME", help="a family whose name begins so")
    words.add_argument("--program", help="the program; that of the checkout where it isn't given")
    words.add_argument("--sizes", default=",".join(map(str, ITEMS)), metavar="N,N,..", help="how many items, each twice as many as before")
    words.add_argument("--runs", type=int, default=3, metavar="N", help="of so many runs the quickest counts")
    return words.parse_args()


def main():
    words = read_words()
    program = words.program or programs.ready(programs.CERTPATH)
    is_missed = False
    print("| " + " | ".join(HEAD) + " |\n|" + "---|" * len(HEAD), flush=True)
    for family in FAMILIES:
        if words.only and not any(family.name.startswith(text) for text in words.only):
            continue
        with tempfile.TemporaryDirectory(prefix="paths-") as room:
            points = [point(family, int(part), os.path.abspath(program), words.runs, room) for part in words.sizes.split(",")]
        found = missed(family, points)
        is_missed |= bool(found)
        print("| " + " | ".join(row(family, points, found)) + " |", flush=True)
    return 1 if is_missed else 0


if __name__ == "__main__":
    sys.exit(main())
