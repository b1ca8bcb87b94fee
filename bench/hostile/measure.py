"""Runs a command once and measures it: processor seconds and peak memory, of the process and of those that it waited for."""
import os
import resource
import subprocess
from typing import NamedTuple

MEGABYTE = 1_000_000
# What a run may take before the kernel ends it, if the seconds aren't given.
MOST_SECONDS, MOST_MEMORY = 120, 12_000 * MEGABYTE


class Run(NamedTuple):
    """What a run took, how it ended, and where its standard output is. `status` is negative if a signal ended it."""
    seconds: float
    memory: int
    status: int
    output: str
    errors: str


def write_pieces(room, names, files):
    """Writes files, each given as its pieces, into a folder under these names; gives how many octets they have."""
    octets = 0
    for name, pieces in zip(names, files):
        with open(os.path.join(room, name), "wb") as out:
            out.writelines(pieces)
            octets += out.tell()
    return octets


def limited(seconds):
    """Bounds the process that calls it, and what it becomes."""
    resource.setrlimit(resource.RLIMIT_CPU, (seconds, seconds + 1))
    resource.setrlimit(resource.RLIMIT_AS, (MOST_MEMORY, MOST_MEMORY))
    resource.setrlimit(resource.RLIMIT_CORE, (0, 0))


def measured(words, room, seconds):
    """Runs the words in a folder."""
    output, errors = os.path.join(room, "output"), os.path.join(room, "errors")
    with open(output, "wb") as out, open(errors, "wb") as err:
        child = subprocess.Popen(words, cwd=room, stdin=subprocess.DEVNULL, stdout=out, stderr=err, preexec_fn=lambda: limited(seconds))
        _, status, usage = os.wait4(child.pid, 0)
        child.returncode = os.waitstatus_to_exitcode(status)
    return Run(usage.ru_utime + usage.ru_stime, usage.ru_maxrss * 1024, child.returncode, output, errors)


def in_child(work, *words):
    """Does the work in a process of its own, so that its memory isn't counted as that of the commands; gives what it returns, a number."""
    read, write = os.pipe()
    child = os.fork()
    if child == 0:
        try:
            os.write(write, str(work(*words)).encode())
            os._exit(0)
        except BaseException as error:  # (the child must not go on with what its parent was doing)
            os.write(2, f"{type(error).__name__}: {error}\n".encode())
            os._exit(1)
    os.close(write)
    with os.fdopen(read, "rb") as told:
        said = told.read()
    _, status = os.waitpid(child, 0)
    if status:
        raise RuntimeError(f"{work.__name__} failed")
    return int(said)
