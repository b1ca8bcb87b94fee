#!/usr/bin/env python3
"""Measures what hostile files cost: families of files that are made to be slow, each at sizes that double.

    bench/hostile/run.py [--small] [--brief] [--only NAME].. [--every N] [--program PATH] [--seconds N] [--list] [--write FOLDER]

Prints a row for each family: processor seconds at each size, the greatest growth at a doubling, the seconds of a file of 1 MB, the
greatest peak memory for each octet read, and a verdict. `pass` wants three things:

- at most 2.4 times the time at each doubling of the octets read, if less than 0.02 seconds count as 0.02; of paths and questions,
  which may print more than they read, of the octets read and written;
- at most 16 times the octets read in memory, 30 times if Python or OpenSSL hold them, as for ./vouch and ./verify; or 40 MB if that
  is more (Python and OpenSSL alone take 25);
- at most 2 seconds for a file of 1 MB, 10 for ./verify, which verifies signatures.

`known` is a miss of a kind that docs/COST.md bounds, by its name there, and that isn't larger than what is stated with the family.
Exit status 1 if a family fails, or an answer isn't the one that is right. After the rows each known family has a line that says how
much of its mark it takes, or that nothing is missed, so that marks can be set; and the last line says how long the run took.
What misses its growth alone is measured up to three times more, and the best of each size counts: a machine's pace changes.
`--small` takes two sizes, the second four times the first, at which a square would show, and is for a machine that does other
work: a growth of up to 2.8 passes. `--brief` prints the rows of
families that fail. `--every` takes one family of each N. `--write` keeps the files of the least size.
`--seconds` is after how many a run is ended. `--program` is the
program for all but the scripts; ./bundle, ./vouch and ./verify are those of the checkout.
"""
import argparse
import os
import re
import signal
import sys
import tempfile
import time
from math import log2
from typing import NamedTuple

HERE = os.path.dirname(os.path.abspath(__file__))
TOP = os.path.dirname(os.path.dirname(HERE))
sys.dont_write_bytecode = True
sys.path[:0] = [HERE, os.path.join(TOP, "tools")]
from program import programs
import faults
import graphs
import judged
import links
import one_item
import reports
import signed
import texts
import unlinked
from family import FAMILIES, LEAST_MEMORY, Files, Known
from measure import MEGABYTE, MOST_SECONDS, in_child, measured, write_pieces
from parts import MOMENT

MOST_GROWTH, MOST_TIMES, MOST_OF_MEGABYTE = 2.4, 16, 2.0
# Commands of which Python or OpenSSL hold what is read, and one that verifies signatures.
MOST_TIMES_OF, MOST_OF_MEGABYTE_OF = {"vouch": 30, "verify": 30}, {"verify": 10.0}
LEAST_SECONDS = 0.02
# Commands whose growth is counted by what they write, too: their answers may be longer than what they read.
MAY_PRINT_MORE = ("paths", "questions")
# If sizes are small other work on the machine counts for more: four times the octets may take 2.8 * 2.8 times the time. Twice the
# time at a doubling makes four, the logarithm somewhat more, and a square sixteen.
MOST_SMALL_GROWTH = 2.8
# How often a family is measured anew that misses its growth alone.
MORE_TIMES = 3
# If sizes aren't small a run is repeated up to so often, while all of its runs together took less than so many seconds.
MOST_RUNS, ENOUGH_SECONDS = 3, 3.0
# A family whose runs take longer isn't measured anew.
ENOUGH_TO_KNOW = 60
PIECE = 1 << 20
END = re.compile(rb"(?:\A|\n)end .*\n\Z")
# How a run ends that the kernel ends, and the exit status of `certpath` if memory is refused.
OUT_OF_TIME, OUT_OF_MEMORY = (-signal.SIGXCPU, -signal.SIGKILL), 6
# How ./verify ends once its seconds are over, and what it says then.
OUT_OF_SECONDS, MORE_SECONDS = 9, b"; --seconds N allows more\n"
FILES, EVIDENCE = ("bundle", "anchors", "vouchers"), "evidence"
# The commands that say which path item 0 has.
ANSWERS = ("path", "why", "paths")
HEAD = ("family", "command", "sizes", "MB", "seconds", "growth", "s for 1 MB", "peak MB", "times the octets", "verdict")


class Point(NamedTuple):
    """What a family took at one size: the octets that were read, the seconds and the memory."""
    size: int
    octets: int
    # The octets by which growth is counted.
    counted: int
    seconds: float
    memory: int
    # Why the run isn't right, none if it is; and whether it ended for want of time or memory.
    fault: str
    is_spent: bool


class Misses(NamedTuple):
    """What a family doesn't reach, a text each: wrong answers, too much time or memory, and too much growth."""
    wrong: list
    costs: list
    growths: list

    def all(self):
        return [*self.wrong, *self.costs, *self.growths]


def write_files(family, size, room):
    """Writes the files of a size into a folder; gives how many octets they have. The answer that is wanted goes to a file beside them."""
    made = family.make(size)
    files = made if isinstance(made, Files) else Files(made, answer=None)
    octets = write_pieces(room, (*FILES, EVIDENCE), (*files[:len(FILES)], files.evidence))
    with open(os.path.join(room, "answer"), "w", encoding="ascii") as out:
        out.write(files.answer or "")
    return octets


def words_of(family, program):
    """The command line of a family, in the folder of its files."""
    script = [sys.executable, "-IS", os.path.join(TOP, family.command)]
    words = {
        "path": [program, "path", *FILES, "--target", "0", "--at", MOMENT],
        "why": [program, "why", *FILES, "--target", "0", "--at", MOMENT],
        "paths": [program, "paths", *FILES, "--at", MOMENT],
        "recheck": [program, "recheck", *FILES, EVIDENCE, "--at", MOMENT],
        "questions": [program, "questions", *FILES[:2]],
        "frame": [program, "frame", FILES[0]],
        "bundle": [*script, FILES[0]],
        "vouch": [*script, *FILES[:2]],
        "verify": [*script, FILES[0], "--anchors", FILES[1], "--at", MOMENT, *(() if family.words else ("--json",))],
    }
    return [*words[family.command], *family.words]


def others_in(output):
    """How many items of a report are of class `other`."""
    found, end = 0, b""
    with open(output, "rb") as file:
        while piece := file.read(PIECE):
            found += (end + piece).count(b" other\n")
            # (what is at the border of two pieces is counted once: seven octets don't hold it twice)
            end = piece[-6:]
    return found


def head_of(output, size=4 * PIECE):
    with open(output, "rb") as file:
        return file.read(size)


def tail_of(output, size=4 * PIECE):
    with open(output, "rb") as file:
        file.seek(max(0, os.path.getsize(output) - size))
        return file.read()


def is_whole(family, run):
    """Whether a command that isn't asked for an answer has written its last line."""
    if family.command == "frame":
        return bool(END.search(tail_of(run.output, 100)))
    if family.command == "recheck":
        return tail_of(run.output, 20) in (b"check yes\n", b"check no\n")
    if family.command == "questions":
        return tail_of(run.output, 1) in (b"\n", b"")
    if family.command == "verify" and run.status == OUT_OF_SECONDS:
        return tail_of(run.errors, 100).endswith(MORE_SECONDS)
    if family.command == "verify":
        return tail_of(run.output, 10).endswith((b"}\n", b"</html>\n", b" lists\n"))
    return tail_of(run.errors, len(b" unverified\n")).endswith((b" unverified\n", b" left out\n"))


def has_answer(family, run, wanted):
    """Whether a report has the answer that is wanted, and its check says yes."""
    if family.command == "why":
        return head_of(run.output).startswith(wanted + b"\ncheck yes\n")
    if family.command == "paths":
        return head_of(run.output).startswith(b"0 " + wanted + b"\n") and tail_of(run.output, 20).endswith(b"\ncheck yes\n")
    return tail_of(run.output).endswith(b"\n" + wanted + b"\ncheck yes\n")


def fault_of(family, run, room):
    """Why a run isn't right; none if it is."""
    if run.status in OUT_OF_TIME:
        return "out of time"
    if run.status not in family.statuses:
        return f"status {run.status}: {tail_of(run.errors, 200).decode(errors='replace').strip()}"
    if family.command not in ANSWERS:
        return None if is_whole(family, run) else "its last line is missing"
    if run.status > 3:
        return None
    with open(os.path.join(room, "answer"), "rb") as file:
        wanted = file.read()
    if not has_answer(family, run, wanted):
        return f"not the answer {wanted[:40].decode()}"
    if family.command != "why" and family.other is not None and others_in(run.output) != family.other:
        return f"{others_in(run.output)} items are other"
    return None


class Bench(NamedTuple):
    """How families are measured: by which program, for how long at most, and whether at small sizes."""
    program: str
    seconds: int
    is_small: bool


def point(family, size, bench, room):
    """Measures a family at a size, the best of some runs."""
    octets = in_child(write_files, family, size, room)
    words = words_of(family, bench.program)
    runs = [measured(words, room, bench.seconds)]
    while not bench.is_small and len(runs) < MOST_RUNS and sum(it.seconds for it in runs) < ENOUGH_SECONDS:
        runs.append(measured(words, room, bench.seconds))
    last = runs[-1].status
    is_spent = last in OUT_OF_TIME or last == OUT_OF_MEMORY and OUT_OF_MEMORY not in family.statuses
    written = os.path.getsize(runs[-1].output) if family.command in MAY_PRINT_MORE else 0
    fault = fault_of(family, runs[-1], room)
    return Point(size, octets, octets + written, min(it.seconds for it in runs), min(it.memory for it in runs), fault, is_spent)


def growth(before, after):
    """How many times the time is at a doubling of the octets that count, from one point to the next."""
    doublings = log2(after.counted / before.counted) or 1
    return (max(after.seconds, LEAST_SECONDS) / max(before.seconds, LEAST_SECONDS)) ** (1 / doublings)


def times(it):
    return it.memory / it.octets


def wanted(family, is_small):
    """What is wanted of a family."""
    return Known(None, MOST_SMALL_GROWTH if is_small else MOST_GROWTH, MOST_TIMES_OF.get(family.command, MOST_TIMES),
                 MOST_OF_MEGABYTE_OF.get(family.command, MOST_OF_MEGABYTE))


def missed(points, of_megabyte, most):
    """What isn't reached of what is wanted, or of what is known."""
    measured_ones = [it for it in (*points, of_megabyte) if it]
    wrong, spent = ([it.fault for it in measured_ones if it.fault and it.is_spent == is_spent] for is_spent in (False, True))
    found = Misses(wrong, spent, [])
    for it in points:
        if it.memory > max(most.times * it.octets, most.least):
            found.costs.append(f"{times(it):.0f} times the octets in memory at {it.size:,}")
    if of_megabyte and of_megabyte.seconds > most.seconds:
        found.costs.append(f"{of_megabyte.seconds:.1f} s for 1 MB")
    for before, after in zip(points, points[1:]):
        if growth(before, after) > most.growth:
            found.growths.append(f"{growth(before, after):.1f} times the time at a doubling to {after.size:,}")
    return found


def measure(family, bench, room):
    """The points of a family, up to one that takes too long, and that of 1 MB."""
    points = []
    for size in family.small if bench.is_small else family.sizes:
        points.append(point(family, size, bench, room))
        if points[-1].fault:
            break
    if bench.is_small or points[0].fault:
        return points, None
    return points, point(family, max(1, round(points[0].size * MEGABYTE / points[0].octets)), bench, room)


def allowed(family, is_small):
    """What a family has to reach: what is known of it, if that is less than what is wanted."""
    most = wanted(family, is_small)
    return Known(family.known.name, *map(max, family.known[1:], most[1:])) if family.known else most


def confirmed(family, bench, room):
    """The points, what they miss, and what of that is more than is known; a family that has only too much growth is measured again, since
    a machine's pace changes."""
    points, of_megabyte = measure(family, bench, room)
    most = allowed(family, bench.is_small)
    for _ in range(MORE_TIMES):
        beyond = missed(points, of_megabyte, most)
        is_slow = sum(it.seconds for it in points) > ENOUGH_TO_KNOW
        if not beyond.growths or beyond.wrong or beyond.costs or is_slow:
            break
        again, of_megabyte = measure(family, bench, room)
        points = [min(pair, key=lambda it: it.seconds) for pair in zip(points, again)]
    found, beyond = missed(points, of_megabyte, wanted(family, bench.is_small)), missed(points, of_megabyte, most)
    return points, of_megabyte, found, beyond.all()


def most_growth(points):
    return max((growth(*it) for it in zip(points, points[1:])), default=0)


def mark(family, points, of_megabyte, found, _):
    """What a family takes of what is known of it."""
    known = family.known
    if not found.all():
        return f"mark of {family.name}: not needed, nothing is missed"
    above = max((times(it) for it in points if it.memory > known.least), default=0)
    peak = max(it.memory for it in points) / MEGABYTE
    parts = [f"growth {most_growth(points):.1f} of {known.growth}", f"{peak:.0f} MB of {known.least / MEGABYTE:.0f}",
             f"above these {above:.1f} of {known.times} times the octets"]
    if of_megabyte:
        parts.append(f"1 MB {of_megabyte.seconds:.1f} of {known.seconds} s")
    return f"mark of {family.name}: {known.name}: {', '.join(parts)}; missed: {'; '.join(found.all())}"


def row(family, points, of_megabyte, found, beyond):
    """The cells of a family's row."""
    verdict = f"FAIL: {'; '.join(beyond)}" if beyond else f"known: {family.known.name}" if found.all() else "pass"
    most = most_growth(points)
    least = [it for it in points if it.memory > LEAST_MEMORY]
    return (
        family.name,
        family.command,
        f"{points[0].size:,} to {points[-1].size:,} {family.unit}",
        f"{points[-1].octets / MEGABYTE:.1f}",
        ", ".join(f"{it.seconds:.2f}" for it in points),
        f"{most:.1f}" if most else "",
        f"{of_megabyte.seconds:.2f}" if of_megabyte else "",
        f"{points[-1].memory / MEGABYTE:.0f}",
        f"{max(map(times, least)):.1f}" if least else "",
        verdict)


def read_words():
    words = argparse.ArgumentParser(description="Measures what hostile files cost.")
    words.add_argument("--small", action="store_true", help="two small sizes, in seconds")
    words.add_argument("--brief", action="store_true", help="print the rows of families that fail")
    words.add_argument("--only", action="append", default=[], metavar="NAME", help="a family, or all whose names begin so")
    words.add_argument("--every", type=int, default=1, metavar="N", help="one family of each N")
    words.add_argument("--program", help="the program for frame and path")
    words.add_argument("--seconds", type=int, default=MOST_SECONDS, metavar="N", help="end a run after so many seconds of one processor")
    words.add_argument("--list", action="store_true", help="print the families")
    words.add_argument("--write", metavar="FOLDER", help="write the files of the least size into folders there, and measure nothing")
    return words.parse_args()


def chosen(only):
    found = [it for it in FAMILIES.values() if not only or any(it.name.startswith(name) for name in only)]
    return found or sys.exit(f"no family {', '.join(only)}")


def write_all(families, folder, is_small):
    for family in families:
        room = os.path.join(folder, family.name)
        os.makedirs(room, exist_ok=True)
        octets = in_child(write_files, family, (family.small if is_small else family.sizes)[0], room)
        print(f"{family.name}: {octets:,} octets", flush=True)


def main():
    words = read_words()
    families = chosen(words.only)[::max(1, words.every)]
    if words.list:
        print("\n".join(f"{it.name} ({it.command}{f', known: {it.known.name}' if it.known else ''}): {it.title}" for it in families))
        return 0
    if words.write:
        write_all(families, words.write, words.small)
        return 0
    program = words.program and os.path.abspath(words.program) or programs.ready(programs.CERTPATH)
    bench, failed, marks, begun = Bench(program, words.seconds, words.small), 0, [], time.monotonic()
    if not words.brief:
        print(f"| {' | '.join(HEAD)} |\n{'|---' * len(HEAD)}|", flush=True)
    for family in families:
        with tempfile.TemporaryDirectory(prefix="hostile-") as room:
            measurement = confirmed(family, bench, room)
        has_failed = bool(measurement[-1])
        failed += has_failed
        if family.known:
            marks.append(mark(family, *measurement))
        if has_failed or not words.brief:
            print(f"| {' | '.join(row(family, *measurement))} |", flush=True)
    if not words.brief:
        print("\n".join(marks))
    print(f"hostile: {len(families) - failed} passed, {failed} failed, in {time.monotonic() - begun:,.0f} s")
    return 1 if failed else 0


if __name__ == "__main__":
    sys.exit(main())
