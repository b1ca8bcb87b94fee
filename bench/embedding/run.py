#!/usr/bin/env python3
"""Times what the Python package adds to the proved calls: `frame`, the class of each item, and `find`, on 10,000 certificates of
samples/, beside a C program that makes the same calls of dist/libcertpath.a.

    bench/embedding/run.py

Each program runs by turns, five times, and takes the least of five rounds in processor seconds; the medians of these are printed.
What is measured are the calls: neither the start of Python, 0.05 s, nor the reading of the files. `certpath frame` and
`certpath path` over the same files, from start to end, are beside them. To reach: at most 1.1 times the seconds of C. Exit status 1
if that is missed.
"""
import os
import shutil
import statistics
import subprocess
import sys
import tempfile

HERE = os.path.dirname(os.path.abspath(__file__))
sys.dont_write_bytecode = True
sys.path.insert(0, os.path.dirname(HERE))
import timing

COUNT, LENGTH, ROUNDS, MOST = 10_000, 2, 5, 1.1
CALLS = ("frame", "class", "find")
AT = "2026-12-01T00:00:00"
PROGRAM, SAMPLES = os.path.join(timing.TOP, "dist", "certpath"), os.path.join(timing.TOP, "samples")


def sample(name):
    with open(os.path.join(SAMPLES, name), "rb") as file:
        return file.read()


def write(room, name, octets):
    """Writes a file; gives its path."""
    path = os.path.join(room, name)
    with open(path, "wb") as file:
        file.write(octets)
    return path


def files_of(room):
    """Writes the bundle and the vouchers as pairs; gives their paths, and that of the anchors. Of the bundle the first two lead to the
    anchor."""
    leaf, intermediate = sample("leaf.der"), sample("intermediate.der")
    bundle = write(room, "bundle", leaf + intermediate + leaf * (COUNT - 2))
    return [bundle, os.path.join(SAMPLES, "root.der"), write(room, "pairs", bytes.fromhex(sample("vouchers.txt").decode()))]


def compiled(room):
    """The path of the C program."""
    compiler = next((name for name in ("cc", "gcc", "clang") if shutil.which(name)), None)
    if not compiler:
        sys.exit("the calls are timed beside C: put cc, gcc or clang on the path")
    program, top = os.path.join(room, "calls"), timing.TOP
    subprocess.run([compiler, "-O2", "-I", os.path.join(top, "include"), os.path.join(HERE, "calls.c"), "-o", program,
                    os.path.join(top, "dist", "libcertpath.a")], check=True)
    return program


def said_by(words):
    """What a program prints: seconds by name, and what was found."""
    lines = subprocess.run(words, stdin=subprocess.DEVNULL, capture_output=True, text=True, check=True).stdout.splitlines()
    rows = dict(line.split(" ", 1) for line in lines)
    if rows.pop("found") != f"{COUNT} {LENGTH}":
        sys.exit(f"{words[0]} found something else: {lines[-1]}")
    return {name: float(seconds) for name, seconds in rows.items()}


def seconds_of(words):
    """Processor seconds of a program from start to end."""
    child = subprocess.Popen(words, stdin=subprocess.DEVNULL, stdout=subprocess.DEVNULL)
    _, status, usage = os.wait4(child.pid, 0)
    if status:
        sys.exit(f"{words[0]} failed, with wait status {status}")
    return usage.ru_utime + usage.ru_stime


def main():
    with tempfile.TemporaryDirectory(prefix="embedding-") as room:
        files, program = files_of(room), compiled(room)
        words = {"C": [program], "Python": [sys.executable, "-IS", os.path.join(HERE, "calls.py")]}
        runs = {name: [] for name in words}
        for _ in range(timing.RUNS):
            for name, its in words.items():
                runs[name].append(said_by([*its, *files, str(ROUNDS)]))
        vouchers = os.path.join(SAMPLES, "vouchers.txt")
        whole = {"frame": [PROGRAM, "frame", files[0]], "find": [PROGRAM, "path", *files[:2], vouchers, "--target", "0", "--at", AT]}
        programs = {name: statistics.median(seconds_of(its) for _ in range(timing.RUNS)) for name, its in whole.items()}
    missed = False
    for call in CALLS:
        of_c, of_python = (statistics.median(run[call] for run in runs[name]) for name in words)
        missed |= of_python > MOST * of_c
        beside = f"; the program {1000 * programs[call]:.1f} ms" if call in programs else ""
        print(f"{call}: C {1000 * of_c:.1f} ms, Python {1000 * of_python:.1f} ms, {of_python / of_c:.2f} times{beside}")
    sys.exit(1 if missed else 0)


if __name__ == "__main__":
    main()
