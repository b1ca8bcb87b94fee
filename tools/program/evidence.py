"""Runs `certpath paths` with a file of evidence, which gets its name once it is whole."""
import os
import signal
import sys

from pki.writing import SIGNALS, begun_for, take
from program import programs, streams

OPTION, UNWRITTEN, SIGNALLED = "--evidence", 7, 128


def place_of(words):
    """Which word ends with the file of --evidence, and what is before it there; the first, if none does."""
    for at, word in enumerate(words[:words.index("--")] if "--" in words else words):
        if word.startswith(f"{OPTION}="):
            return at, f"{OPTION}="
        if word == OPTION and at + 1 < len(words):
            return at + 1, ""
    return 0, words[0]


def run(words):
    """Runs certpath on the words; gives the status. It becomes certpath if they name no file of
    evidence, or one that is written in its place."""
    at, front = place_of(words)
    file = words[at][len(front):]
    begun = begun_for(file)
    if begun == file:
        programs.become(programs.CERTPATH, words)
    signal.signal(signal.SIGCHLD, signal.SIG_DFL)
    watched = {signal.SIGCHLD, *(entry for entry in SIGNALS if signal.getsignal(entry) != signal.SIG_IGN)}
    read, written = os.pipe()
    # (signals are waited for, so that none is missed, however early it comes)
    signal.pthread_sigmask(signal.SIG_BLOCK, watched)
    child = os.fork()
    if not child:
        signal.pthread_sigmask(signal.SIG_UNBLOCK, watched)
        os.dup2(written, sys.stderr.fileno())
        programs.become(programs.CERTPATH, [*words[:at], front + begun, *words[at + 1:]])
    status = ended(child, watched)
    os.close(written)
    with open(read, encoding="utf-8", errors="surrogateescape") as errors:
        streams.write_lines(errors.read().replace(begun, file).splitlines())
    try:
        if status in (0, 1):
            take(begun, file)
    except OSError:
        streams.report(f"cannot write {file}")
        status = UNWRITTEN
    if os.path.lexists(begun):
        os.remove(begun)
    return status


def ended(child, watched):
    """Waits for the program's end, or ends it by a signal that comes; gives the status."""
    process = 0
    while not process:
        number = signal.sigwait(watched)
        if number != signal.SIGCHLD:
            os.kill(child, signal.SIGKILL)
            os.waitpid(child, 0)
            return SIGNALLED + number
        # (a child that is stopped sends it, too)
        process, status = os.waitpid(child, os.WNOHANG)
    status = os.waitstatus_to_exitcode(status)
    return SIGNALLED - status if status < 0 else status
