#!/usr/bin/env python3
"""Makes dist/certpath, the program that a clone runs at once, and the libraries beside it, and
checks them against the sources.

    python3 tools/gate/dist.py make             builds dist/certpath, as ./certpath --build does, and
                                                the libraries
    python3 tools/gate/dist.py make library     the libraries alone
    python3 tools/gate/dist.py check [PROGRAM]  compares dist/certpath with PROGRAM, just built from
                                                the sources: what the gate left, where none is named

One toolchain builds the same octets each time, and octets are compared. Where `rt version` isn't
the line in dist/BUILT, both programs are run on all command lines of tools/trials/commands.py, and
have to print the same and end with the same status.
"""
import os
import subprocess
import sys
import tempfile

sys.dont_write_bytecode = True
sys.path.insert(0, os.path.dirname(os.path.dirname(os.path.abspath(__file__))))
from gate import library
from program import programs, repo, sources

BY_THE_GATE = os.path.join("crates", programs.CERTPATH, "out", programs.CERTPATH)
MAKE = "run python3 tools/gate/dist.py make"


def faults():
    """What is wrong with dist/ by the sources, a line each. No program is run."""
    _, why, _ = programs.found(programs.CERTPATH)
    if why:
        yield why


def make():
    """Builds the program into dist/, and then the libraries; gives the status."""
    from program import building
    building.build(programs.CERTPATH)
    amiss = [*faults()]
    for line in amiss:
        print(f"dist: {line}")
    if amiss:
        return 1
    size = os.path.getsize(os.path.join(repo.TOP, programs.SHIPPED))
    record = programs.read_record(programs.SHIPPED_RECORD)
    print(f"dist: {programs.SHIPPED} has {size} octets, SHA-256 {record['program']}; by {record['kit']}")
    return library.make() if library.is_there() else 0


def compared(program):
    """Compares dist/certpath with a program that was just built; prints and gives what is amiss."""
    from program import building
    amiss = [*faults()]
    if not os.access(program, os.X_OK):
        amiss.append(f"there is no program {os.path.relpath(program)} to compare with")
    if not amiss:
        record, kit = programs.read_record(programs.SHIPPED_RECORD), building.kit()
        of_record = record["kit"]
        amiss = [*(unequal(program) if kit == of_record else unlike(program, of_record, kit))]
    amiss += library.check() if library.is_there() else []
    for line in amiss:
        print(f"dist: {line}", flush=True)
    return amiss


def check(program):
    """Says how dist/certpath compares with a program that was just built; gives the status."""
    amiss = compared(program)
    print(f"dist: {0 if amiss else 1} passed, {len(amiss)} failed")
    return 1 if amiss else 0


def unequal(program):
    """Where the octets of dist/certpath differ from the program's, if they do."""
    one = sources.octets_of(os.path.join(repo.TOP, programs.SHIPPED))
    other = sources.octets_of(program)
    if one == other:
        print(f"dist: {programs.SHIPPED} is the program that was built, {len(one)} equal octets")
        return
    pairs = enumerate(zip(one, other))
    at = next((k for k, (a, b) in pairs if a != b), min(len(one), len(other)))
    yield (f"{programs.SHIPPED}, {len(one)} octets, and the program that was built, {len(other)}, "
           f"differ first at octet {at}: {MAKE}")


def unlike(program, of_record, kit):
    """Command lines on which dist/certpath and the program print or end differently."""
    from trials import commands
    both, count = (os.path.join(repo.TOP, programs.SHIPPED), os.path.abspath(program)), 0
    print(f"dist: {programs.SHIPPED} was built by {of_record}, and this is {kit}: both are run")
    with tempfile.TemporaryDirectory(prefix="dist-") as room:
        for words, octets, *_ in commands.table(room):
            one, other = (commands.ran(entry, words, room, octets, subprocess.PIPE) for entry in both)
            count += 1
            if one != other:
                yield f"certpath {words}: {one} by {programs.SHIPPED}, {other} by the other program"
    print(f"dist: both were run on {count} command lines")


def main(words):
    if words == ["make"]:
        return make()
    if words == ["make", "library"]:
        return library.make()
    if words[:1] == ["check"] and len(words) <= 2:
        return check(words[1] if len(words) == 2 else os.path.join(repo.TOP, BY_THE_GATE))
    sys.exit(__doc__)


if __name__ == "__main__":
    sys.exit(main(sys.argv[1:]))
