"""Programs that are there, and what each was built from: dist/certpath, and those of other crates
below out/programs/, which `./certpath --build NAME` and the gate put there.

Beside a program is its record, lines of a word and what it says. `kit`: the line of the
toolchain. `sources`: the digest of what it was built from. `program`: the SHA-256 of its octets.
`needs`: the machine that it runs on.
"""
import _signal
import os
import sys

from program import installed, repo, sources, streams

CERTPATH, LIBRARY = "certpath_cli", "certpath_c"
SHIPPED, SHIPPED_RECORD = os.path.join("dist", "certpath"), os.path.join("dist", "BUILT")
LIBRARY_RECORD = os.path.join("dist", "BUILT-library")
WORDS = ("kit", "sources", "program", "needs")
BUILD = "./certpath --build"
OLDER = f"dist/ is older than the sources: {BUILD} builds it"
# The statuses where dist/ is older than the sources, and where there is no program to run.
OUTDATED, NO_PROGRAM = 69, 70


def remedy(crate):
    """What to do if a crate's program can't be run."""
    named = "" if crate == CERTPATH else f" {crate}"
    return "install it anew" if installed.IS_INSTALLED else f"{BUILD}{named} builds it"


def paths(crate):
    """The paths of a crate's program and of its record."""
    if installed.IS_INSTALLED:
        return tuple(os.path.join(installed.FOLDER, "certpath", name) for name in ("certpath", "BUILT"))
    own = os.path.join("out", "programs", crate)
    return (SHIPPED, SHIPPED_RECORD) if crate == CERTPATH else (own, f"{own}.built")


def read_record(path):
    """What the lines of a record say, by their words; nothing if it can't be read."""
    text = sources.octets_if_any(os.path.join(repo.TOP, path)).decode(errors="replace")
    return dict(line.split(" ", 1) for line in text.splitlines() if " " in line)


def sum_of(path):
    """The SHA-256 of a file in hex digits, that of no octets if it can't be read."""
    return sources.sum_of_octets(sources.octets_if_any(os.path.join(repo.TOP, path)))


def end(crate, why, status=NO_PROGRAM):
    """Says in a line why a crate's program isn't run or built, and ends this process."""
    streams.report(f"{'certpath' if crate == CERTPATH else crate}: {why}")
    sys.exit(status)


def found(crate):
    """The path of a crate's program as its sources are now, none and 0; or else none, why there is
    none with what to do, and the status to end with. An installation has one program."""
    path, record_path = paths(crate)
    record, status = read_record(record_path), NO_PROGRAM
    if installed.IS_INSTALLED:
        if os.access(path, os.X_OK):
            return path, None, 0
        amiss = f"{path} isn't there, or may not be executed"
    elif not record and crate != CERTPATH:
        amiss = "it isn't built yet"
    elif sorted(record) != sorted(WORDS):
        amiss = f"{record_path} is missing, or is no record"
    elif record["sources"] != sources.digest(crate):
        older = "dist/ is older than the" if crate == CERTPATH else "it is older than its"
        amiss, status = f"{older} sources", OUTDATED
    elif sum_of(path) != record["program"]:
        amiss = f"{path} is missing, or was changed: its SHA-256 isn't that of its record"
    else:
        return os.path.join(repo.TOP, path), None, 0
    return None, f"{amiss}: {remedy(crate)}", status


def ready(crate):
    """The path of a crate's program as its sources are now. If it isn't there, standard error says
    why and what to do, and this process ends with a status of its own: nothing is built."""
    path, why, status = found(crate)
    if why:
        end(crate, why, status)
    return path


def is_library_old():
    """Whether the libraries of dist/ were built from other sources than those that are here."""
    return not installed.IS_INSTALLED and read_record(LIBRARY_RECORD).get("sources") != sources.digest(LIBRARY)


def is_outdated():
    """Whether dist/ is older than the sources: its program, or its libraries."""
    return found(CERTPATH)[2] == OUTDATED or is_library_old()


def become(crate, words):
    """Becomes a crate's program on the words; ends with status 70 if it can't be started."""
    path = ready(crate)
    end_by_pipe()
    try:
        os.execv(path, [path, *words])
    except OSError as error:
        needs = read_record(paths(crate)[1]).get("needs")
        end(crate, f"{path} can't be started ({error.strerror}), and needs {needs}: {remedy(crate)}")


def end_by_interrupt():
    """Lets an interrupt end this process at once, unless the caller ignores it."""
    if _signal.getsignal(_signal.SIGINT) is _signal.default_int_handler:
        _signal.signal(_signal.SIGINT, _signal.SIG_DFL)


def end_by_pipe():
    """Lets a pipe that nobody reads end this process and what it becomes, which Python prevents."""
    # (`signal` imports modules that take longer than all that is done before a run)
    _signal.signal(_signal.SIGPIPE, _signal.SIG_DFL)
