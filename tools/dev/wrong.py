#!/usr/bin/env python3
"""Tries the edits of crates/NAME/wrong, of the named crates or of all: the prover must refuse each.

    ./test wrong [NAME..]

Each crate is tried on a copy of the sources, with what `rt` kept in this checkout. There `rt check` proves what is left first, the crates
below too. Edits of different functions are tried together, by one `rt check --jobs 1`, and what isn't refused there alone, by
`rt must-fail`. Change no source until it ends. Each edit counts as passed or failed; one that is bad, or wasn't tried, has failed.
"""
import collections
import os
import re
import shutil
import signal
import subprocess
import sys
import tempfile
import threading
import time
from concurrent.futures import ThreadPoolExecutor

sys.path.insert(0, os.path.dirname(os.path.dirname(os.path.abspath(__file__))))
from dev import together
from gate import edits
from gate.lanes import OVER_KEPT, lanes, weights
from program import repo

# What isn't copied of a crate with its sources: what `rt` made, and the edits.
KEPT = "out"
LEFT_OUT = (KEPT, *edits.FOLDERS)
TRIED = re.compile(r"^rt: must-fail \w+/(\S+\.edit): (.*)$", re.M)
REFUSED = "refused, as it must be"
BY_NAME = "only because a proof file names"
# How each edit ends, by what `rt` says of it.
ENDS = ("refused", "not refused", "bad", "not tried")
SHOWN = 1500
BEGAN = time.monotonic()
PRINTING = threading.Lock()
# `rt must-fail` decides itself how many checks go side by side: one of them runs at a time.
ALONE = threading.Lock()
RUNNING = set()
STOPPED = threading.Event()


def say(text):
    """Prints lines whole, whichever thread prints them."""
    with PRINTING:
        minutes, seconds = divmod(round(time.monotonic() - BEGAN), 60)
        print(f"wrong: {minutes}:{seconds:02} {text}", flush=True)


def stop(number, _):
    """Ends what runs, so that the copies are removed."""
    STOPPED.set()
    for child in [*RUNNING]:
        child.terminate()
    sys.exit(128 + number)


def ran(words, folder, shown=None):
    """A command's status and what it printed; `shown` is called with each line as it comes."""
    if STOPPED.is_set():
        return 130, ""
    child = subprocess.Popen(words, cwd=folder, stdin=subprocess.DEVNULL, stdout=subprocess.PIPE, stderr=subprocess.STDOUT, text=True, errors="replace")
    RUNNING.add(child)
    printed = []
    for line in child.stdout:
        printed.append(line)
        if shown:
            shown(line)
    status = child.wait()
    RUNNING.discard(child)
    return status, "".join(printed)


def linked(source, target):
    """Has a file at a second path, as a copy if it can't be a link."""
    try:
        os.link(source, target)
    except OSError:
        shutil.copy2(source, target)


def copied(room, crate):
    """Copies what a check of the crate reads, with the crates below it, and what `rt` kept of them; gives the crate's folder."""
    lines, taken = repo.lines(), repo.below([crate], repo.crates())
    # (the search for a repository's top ends at a .git)
    os.makedirs(os.path.join(room, ".git"))
    shutil.copyfile(os.path.join(repo.TOP, "HANDLES"), os.path.join(room, "HANDLES"))
    with open(os.path.join(room, "crates.txt"), "w", encoding="utf-8") as to:
        to.write("".join(f"{lines[one]}\n" for one in taken))
    for entry in taken:
        source, target = (os.path.join(top, "crates", entry) for top in (repo.TOP, room))
        shutil.copytree(source, target, ignore=shutil.ignore_patterns(*LEFT_OUT))
        # (what is kept of crates below isn't written)
        if os.path.isdir(os.path.join(source, KEPT)):
            shutil.copytree(os.path.join(source, KEPT), os.path.join(target, KEPT), copy_function=shutil.copy2 if entry == crate else linked)
    return os.path.join(room, "crates", crate)


def check(folder):
    return ran(["rt", "check", "--jobs", "1"], folder)


class Tried:
    """A crate whose edits are tried: how many ended in which way."""

    def __init__(self, crate):
        self.crate, self.left = crate, edits.names(crate, "wrong")
        self.ends, self.together = collections.Counter(), 0

    def say(self, text):
        say(f"{self.crate}: {text}")

    def run(self, above):
        """Tries the edits on a copy below the folder `above`."""
        with tempfile.TemporaryDirectory(prefix=f"{self.crate}-", dir=above) as room:
            folder = copied(os.path.join(room, "copy"), self.crate)
            status, said = check(folder)
            if status and not STOPPED.is_set():
                self.say(f"it isn't proved as it is, so no edit was tried: {said.strip()[-SHOWN:]}")
            if not status:
                self.try_together(folder)
                self.try_alone(folder)
        self.ends["not tried"] += len(self.left)
        told = ", ".join(f"{self.ends[end]} {end}" for end in ENDS if self.ends[end])
        self.say(f"{told}; {self.together} of them together with others")
        return self

    def take(self, edit, end):
        self.left.remove(edit)
        self.ends[end] += 1

    def try_together(self, folder):
        """Tries edits of different functions by one check, while any is refused so. (What one hides of another shows where those that were refused are left out.)"""
        while True:
            groups = [one for one in together.groups(self.crate, "wrong", self.left)[0] if len(one) > 1]
            found = [edit for group in groups for edit in self.at_once(folder, group)]
            for entry in found:
                self.take(entry, "refused")
            self.together += len(found)
            if not found or STOPPED.is_set():
                return

    def at_once(self, folder, group):
        """The edits of a group that a check of all of them refuses; if they can't be checked together, of its halves."""
        if len(group) < 2 or STOPPED.is_set():
            return []
        changed = together.texts(self.crate, "wrong", group)
        for path, text in changed.items():
            with open(os.path.join(folder, path), "w", encoding="utf-8") as to:
                to.write(text)
        status, said = check(folder)
        for path in changed:
            shutil.copy(os.path.join(repo.TOP, "crates", self.crate, path), os.path.join(folder, path))
        if status == 1 and re.search(r"(?m)^logic=not-proved", said):
            found = together.refused(said, group)
            self.say(f"{len(found)} of {len(group)} refused by one check")
            return found
        if not STOPPED.is_set():
            why = [line for line in said.splitlines() if "error" in line] or said.strip().splitlines()[-1:]
            self.say(f"{len(group)} edits can't be checked together: {' | '.join(why[:2])[:SHOWN]}")
        edits = [*group]
        halves = edits[:len(edits) // 2], edits[len(edits) // 2:]
        return [entry for half in halves for entry in self.at_once(folder, {edit: group[edit] for edit in half})]

    def try_alone(self, folder):
        """Tries each edit that is left alone, by `rt must-fail`."""
        if not self.left or STOPPED.is_set():
            return
        os.makedirs(os.path.join(folder, "must-fail"))
        for entry in self.left:
            shutil.copy(os.path.join(repo.TOP, "crates", self.crate, "wrong", entry), os.path.join(folder, "must-fail", entry))
        top = os.path.dirname(os.path.dirname(folder))
        with ALONE:
            self.say(f"{len(self.left)} edits are tried alone")
            status, said = ran(["rt", "must-fail", self.crate], top, Teller(self))
        for edit, why in TRIED.findall(said):
            self.take(edit, end_of(why))
        if self.left and not STOPPED.is_set():
            self.say(f"rt must-fail ended with status {status}: {said.strip()[-SHOWN:]}")


def end_of(said):
    """How an edit ended, by what `rt` says of it."""
    if said.startswith(REFUSED):
        return "refused"
    return next((case for case, word in (("bad", "BAD EDIT"), ("not refused", "NOT REFUSED")) if word in said), "not tried")


class Teller:
    """Reports the edits that are tried alone, line by line: of one that isn't refused all that `rt` says."""

    def __init__(self, tried):
        self.tried, self.is_told = tried, False

    def __call__(self, line):
        found = TRIED.match(line)
        if not found:
            # (why an edit isn't refused may take more lines, up to what is said of the next)
            self.is_told = self.is_told and not line.startswith("rt: ")
            if self.is_told:
                self.tried.say(f"    {line.rstrip()[:SHOWN]}")
            return
        edit, said = found.groups()
        self.is_told = end_of(said) != "refused"
        if self.is_told:
            self.tried.say(f"{edit}: {said}")
        elif BY_NAME in said:
            self.tried.say(f"{edit}: refused only since a proof names what it takes away, which says little")


def main(names):
    listed = repo.crates()
    unknown = [name for name in names if name not in listed]
    if unknown:
        say(f"crates.txt has no crate {' '.join(unknown)}")
        print(f"0 passed, {len(unknown)} failed")
        return 1
    crates = [name for name in dict.fromkeys(names or listed) if edits.names(name, "wrong")]
    costs, side_by_side = weights(repo.TOP, crates), lanes(OVER_KEPT)
    say(f"{sum(len(edits.names(crate, 'wrong')) for crate in crates)} edits of {len(crates)} crates, {side_by_side} crates at a time")
    # (the dearest first, so that the lanes end together)
    crates.sort(key=lambda crate: -costs[crate] * len(edits.names(crate, "wrong")))
    with tempfile.TemporaryDirectory(prefix="wrong-") as above, ThreadPoolExecutor(side_by_side) as pool:
        total = sum((value.ends for value in pool.map(lambda crate: Tried(crate).run(above), crates)), collections.Counter())
    say("all: " + ", ".join(f"{total[end]} {end}" for end in ENDS))
    failed = sum(total.values()) - total["refused"]
    print(f"{total['refused']} passed, {failed} failed")
    return 1 if failed else 0


if __name__ == "__main__":
    signal.signal(signal.SIGTERM, stop)
    signal.signal(signal.SIGINT, stop)
    sys.exit(main(sys.argv[1:]))
