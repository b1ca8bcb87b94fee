"""Runs programs over files that are in memory alone. However a run of ./verify ends, its programs
end with it, and no file is left."""
import ctypes
import errno
import os
import resource
import signal
import subprocess
from math import ceil
from typing import NamedTuple

from verify import waiting
from verify.faults import NO_PROGRAM, Fault

# What a process asks of Linux to get a signal if its parent ends (prctl, PR_SET_PDEATHSIG).
ON_DEATH_OF_PARENT = 1
LIBC = ctypes.CDLL(None)


class Run(NamedTuple):
    """What a program ended with, and what it wrote."""
    status: int
    output: bytes
    errors: bytes


def in_memory(octets=b""):
    """A file of octets that is nowhere but in memory."""
    try:
        file = os.fdopen(os.memfd_create("verify"), "w+b")
        file.write(octets)
        file.seek(0)
        return file
    except OSError as error:
        # (the system allows no file so large, as `ulimit -f` does it)
        raise Fault(NO_PROGRAM, f"cannot hand on {len(octets)} octets: {error.strerror}") from error


def path_of(file):
    """The path by which a program that is given the file opens it."""
    return f"/dev/fd/{file.fileno()}"


def octets_of(file):
    file.seek(0)
    return file.read()


def end_with(parent, seconds):
    """Called in a new process: it ends with its parent, and after so many seconds."""
    LIBC.prctl(ON_DEATH_OF_PARENT, signal.SIGKILL)
    if os.getppid() != parent:
        os._exit(NO_PROGRAM)
    _, most = resource.getrlimit(resource.RLIMIT_CPU)
    if most == resource.RLIM_INFINITY or seconds < most:
        resource.setrlimit(resource.RLIMIT_CPU, (seconds, most))


def ran(words, title, octets=b"", files=()):
    """Runs a program on octets as its standard input, and on files; OSError if it can't be started.
    The run of ./verify ends if the program takes more than the seconds that are left."""
    waiting.BUDGET.check(title)
    parent, seconds = os.getpid(), ceil(waiting.BUDGET.left())
    with in_memory(octets) as given, in_memory() as out, in_memory() as errors:
        try:
            child = subprocess.Popen(words, stdin=given, stdout=out, stderr=errors,
                                     pass_fds=[file.fileno() for file in files],
                                     preexec_fn=lambda: end_with(parent, seconds))
        except subprocess.SubprocessError as error:
            # (what is called in the new process has failed there, since there is no memory)
            raise MemoryError from error
        except OSError as error:
            if error.errno in (errno.ENOMEM, errno.EAGAIN):
                raise MemoryError from error
            raise
        try:
            waiting.wait(child, title)
        finally:
            if child.poll() is None:
                child.kill()
                child.wait()
        if child.returncode == -signal.SIGXCPU:
            # (its seconds were all that were left, as the system counts them)
            waiting.BUDGET.end(title)
        waiting.BUDGET.check(title)
        return Run(child.returncode, octets_of(out), octets_of(errors))
