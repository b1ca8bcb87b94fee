"""What the benches share: programs built by `rt`, a bundle, and medians of a program's time beside a loop that touches each octet once."""
import os
import shutil
import statistics
import subprocess
import sys
import tempfile
import time

TOP = os.path.dirname(os.path.dirname(os.path.abspath(__file__)))
sys.path.insert(0, os.path.join(TOP, "tools"))
from program import programs

SAMPLE = os.path.join(TOP, "samples", "leaf.der")
COPIES = 100_000
RUNS = 5


def timed(words, out=subprocess.DEVNULL):
    """Runs the words with their output to a file; gives seconds, and peak resident octets."""
    start = time.perf_counter()
    child = subprocess.Popen(words, stdin=subprocess.DEVNULL, stdout=out)
    _, status, usage = os.wait4(child.pid, 0)
    seconds = time.perf_counter() - start
    if status != 0:
        sys.exit(f"{words[0]} failed, with wait status {status}")
    return seconds, usage.ru_maxrss * 1024


def built(crate):
    """The path of a crate's program, built from its sources and all below it as they are now; ends the bench if there is none."""
    return programs.ready(crate)


def yardstick(room):
    """The path of the loop's program."""
    compiler = next((name for name in ("cc", "gcc", "clang") if shutil.which(name)), None)
    if not compiler:
        sys.exit("the yardstick is a loop in C: put cc, gcc or clang on the path")
    program = os.path.join(room, "touch")
    subprocess.run([compiler, "-O2", "-o", program, os.path.join(TOP, "bench", "touch.c")], check=True)
    return program


def write_bundle(room):
    """A file of `COPIES` copies of a sample certificate; gives its path."""
    with open(SAMPLE, "rb") as sample:
        item = sample.read()
    bundle = os.path.join(room, "bundle.der")
    with open(bundle, "wb") as out:
        for _ in range(COPIES // 1000):
            out.write(item * 1000)
    return bundle


def run(name, words, expect, times, memory_times=None):
    """Times the words and a bundle's path after them, and prints medians.

    `expect` judges what they print. Ends with status 1 past `times` times the yardstick, or `memory_times` times the file's size.
    """
    with tempfile.TemporaryDirectory() as room:
        bundle, loop = write_bundle(room), yardstick(room)
        size = os.path.getsize(bundle)
        printed = subprocess.run(words + [bundle], check=True, capture_output=True, text=True).stdout
        if not expect(printed, size):
            sys.exit(f"{name} printed something else: {printed[-200:]}")
        runs, loops = [], []
        for _ in range(RUNS):
            loops.append(timed([loop, bundle])[0])
            runs.append(timed(words + [bundle]))
    seconds, touched = statistics.median(entry[0] for entry in runs), statistics.median(loops)
    memory = statistics.median(entry[1] for entry in runs)
    print(f"bundle: {COPIES} items, {size / 1e6:.1f} MB")
    print(f"{name}: {seconds:.3f} s, {COPIES / seconds:.0f} items/s, {size / 1e6 / seconds:.0f} MB/s, peak {memory / 1e6:.0f} MB, {memory / size:.2f} times the file")
    print(f"yardstick: {touched:.3f} s, {size / 1e6 / touched:.0f} MB/s")
    print(f"ratio to the yardstick: {seconds / touched:.2f}, at most {times}")
    sys.exit(0 if seconds <= times * touched and (memory_times is None or memory <= memory_times * size) else 1)
