#!/usr/bin/env python3
"""Proves the named crates with all that they depend on, lowest first, and runs their tests and programs.

Kept work is used: what hasn't changed isn't proved again. Each crate, its tests and its program count as passed or failed.
"""
import os
import re
import shutil
import subprocess
import sys
import tempfile

sys.path.insert(0, os.path.dirname(os.path.dirname(os.path.abspath(__file__))))
from program import repo

SECONDS = 120


def step(what, words, crate):
    """Runs a command of `rt` in the crate's folder, and reports whether it passed."""
    print(f"== {crate}: {what}", flush=True)
    folder = os.path.join(repo.TOP, "crates", crate)
    status = subprocess.run(words, cwd=folder, stdin=subprocess.DEVNULL, stderr=subprocess.STDOUT).returncode
    print(f"== {crate}: {what} {'passed' if status == 0 else 'FAILED'}", flush=True)
    return status == 0


def has_tests(crate):
    """Whether a source of the crate has a test."""
    sources = [os.path.join(at, name) for at, _, names in os.walk(os.path.join(repo.TOP, "crates", crate, "src")) for name in names]
    return any(re.search(r"#\s*\[[^]]*\btest\b", repo.read(source)) for source in sources)


def beside(crate, name):
    """The octets of a file beside src/, none if it isn't there."""
    path = os.path.join(repo.TOP, "crates", crate, name)
    if not os.path.isfile(path):
        return b""
    with open(path, "rb") as one_file:
        return one_file.read()


def built(crate, words):
    """Has `rt` prove a crate over kept work, build its program and run it on the words. Gives the program's path, none if it
    wasn't built, and what was printed."""
    folder = os.path.join(repo.TOP, "crates", crate)
    ran = subprocess.run(["rt", "run", "--", *words], cwd=folder, text=True, errors="replace", stdin=subprocess.DEVNULL,
                         stdout=subprocess.DEVNULL, stderr=subprocess.PIPE)
    # (the status is the program's own once it runs)
    is_built = f"\nrt: running out/{crate};" in f"\n{ran.stderr}"
    return os.path.join(folder, "out", crate) if is_built else None, ran.stderr


def runs(crate):
    """Builds a program and runs it on its files args, stdin and data/, and reports whether it wrote its file stdout and ended with its status."""
    folder = os.path.join(repo.TOP, "crates", crate)
    words, wanted = beside(crate, "args").decode().splitlines(), int(beside(crate, "status") or 0)
    print(f"== {crate}: its program", flush=True)
    program, said = built(crate, words)
    if not program:
        print(f"{said}== {crate}: its program FAILED: it wasn't built", flush=True)
        return False
    with tempfile.TemporaryDirectory(prefix="single-") as room:
        data = os.path.join(room, "data")
        if os.path.isdir(os.path.join(folder, "data")):
            shutil.copytree(os.path.join(folder, "data"), data)
        else:
            os.mkdir(data)
        try:
            ran = subprocess.run([program, *words], cwd=data, input=beside(crate, "stdin"), stdout=subprocess.PIPE, timeout=SECONDS)
        except subprocess.TimeoutExpired:
            print(f"== {crate}: its program FAILED: it hadn't ended after {SECONDS} seconds", flush=True)
            return False
    well = ran.returncode == wanted and ran.stdout == beside(crate, "stdout")
    ended = "passed" if well else f"FAILED: status {ran.returncode}, {wanted} is wanted; what it wrote is {'' if ran.stdout == beside(crate, 'stdout') else 'not '}its file stdout"
    print(f"== {crate}: its program {ended}", flush=True)
    return well


def main(names):
    listed = repo.crates()
    unknown = [name for name in names if name not in listed]
    if unknown:
        print(f"crates.txt has no crate {' '.join(unknown)}\n0 passed, {len(unknown)} failed")
        return 1
    passed = failed = 0

    def count(is_well):
        nonlocal passed, failed
        passed, failed = passed + is_well, failed + (not is_well)
        return is_well

    for crate in repo.below(names, listed):
        if crate not in names:
            is_well = count(step("proved, as a library", ["rt", "lib"], crate))
        else:
            is_well = count(step("proved", ["rt", "check"], crate))
        if not is_well:
            break
        if crate in names and has_tests(crate):
            count(step("its tests", ["rt", "test"], crate))
        if crate in names and os.path.isfile(os.path.join(repo.TOP, "crates", crate, "src", "main.rt")):
            count(runs(crate))
    print(f"{passed} passed, {failed} failed")
    return 1 if failed else 0


if __name__ == "__main__":
    sys.exit(main(sys.argv[1:]))
