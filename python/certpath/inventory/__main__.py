"""The command line: `python3 -m certpath.inventory --help`."""
import argparse
import logging
import os
import signal
import sys
import traceback
import warnings
from contextlib import contextmanager
from types import FrameType
from typing import Callable, List, NamedTuple, Optional, Set

from ..library import LibraryMissing, loaded
from . import databases, memory, parquet, tables
from . import words as taken
from .anchors import BadAnchors
from .jobs import Different, planned
from .program import Missing
from .progress import Progress
from .records import status_of
from .running import Done, Lost, passes
from .signatures import BadLine
from .trees import BadTreeHead
from .work import Settings
from .writing import CannotWrite, tested

(BAD_WORDS, BAD_ANCHORS, CANNOT_READ, BAD_VOUCHERS, NO_MEMORY, CANNOT_WRITE, UNREACHABLE,
 BAD_TREE_HEAD, NOT_THERE, UNEXPECTED) = 2, 3, 4, 5, 6, 7, 9, 10, 70, 71
# What a shell says of a process that a signal ended.
SIGNALLED = 128
ENDING = (signal.SIGINT, signal.SIGTERM)
# After so many seconds a run is ended that can't be ended at once.
SOON = 0.01
NO_DASK = ("it comes with `apt-get install python3-distributed python3-cryptography`, or "
           "`pip install 'dask[distributed]' cryptography`")


def shown(line: str) -> str:
    """A line for standard error, where control characters do no harm."""
    return "".join(it if it.isprintable()
                   else it.encode("unicode_escape", "backslashreplace").decode() for it in line)


def show(line: str):
    print(shown(line), file=sys.stderr, flush=True)


def summary(done: Done) -> str:
    outcomes = ", ".join(f"{count} {word}" for word, count in sorted(done.outcomes.items()))
    more = "".join(f", {count} {what}" for count, what in (
        (done.changed, "changed files"), (len(done.missing), "gaps"),
        (len(done.twice), "ranges in several files")) if count)
    again = (f"\ninventory: {done.unanswered} blocks weren't answered; --resume tries them again"
             if done.unanswered else "")
    return (f"inventory: {done.issuers} issuers and lists, {done.blocks} blocks, "
            f"{done.faults} faults{more}\n"
            f"inventory: {done.entries} entries, {done.rows} rows ({outcomes}){again}")


def say(text: str):
    """Prints a text; CannotWrite where standard output fails."""
    try:
        print(text, flush=True)
    except OSError as error:
        # (what is left in the buffer would be tried again when the process ends)
        os.dup2(os.open(os.devnull, os.O_WRONLY), sys.stdout.fileno())
        raise CannotWrite(f"cannot write: {error.strerror}") from error


class Ended(BaseException):
    """A signal ends the process."""

    def __init__(self, number: int):
        super().__init__(number)
        self.number = number


def end_at_once(number: int, _):
    os._exit(SIGNALLED + number)


def is_dropping(frame: Optional[FrameType]) -> bool:
    """Whether a value is being dropped: an exception that leaves its __del__ is ignored."""
    while frame is not None and frame.f_code.co_name != "__del__":
        frame = frame.f_back
    return frame is not None


def end(number: int, frame: Optional[FrameType]):
    """Ends the run; a second signal ends the process wherever it is."""
    if is_dropping(frame):
        signal.signal(signal.SIGALRM, lambda _, later: end(number, later))
        signal.setitimer(signal.ITIMER_REAL, SOON)
        return
    for it in ENDING:
        signal.signal(it, end_at_once)
    raise Ended(number)


@contextmanager
def client_of(words: argparse.Namespace):
    """The client that the words ask for."""
    from . import clusters
    keys = clusters.Keys(words.tls_ca_file, words.tls_cert, words.tls_key)
    opened = (clusters.of_scheduler(words.scheduler, keys, words.insecure, show) if words.scheduler
              else clusters.own_processes(words.workers))
    with opened as client:
        yield client


class Refusal(NamedTuple):
    """Which errors end a run, and the status that each gives."""
    error: type
    status: int


def refusals() -> List[Refusal]:
    from . import clusters
    return [Refusal(clusters.Refused, BAD_WORDS), Refusal(Different, BAD_WORDS),
            Refusal(BadAnchors, BAD_ANCHORS), Refusal(BadTreeHead, BAD_TREE_HEAD),
            Refusal(BadLine, BAD_VOUCHERS), Refusal(CannotWrite, CANNOT_WRITE),
            Refusal(clusters.Unreachable, UNREACHABLE),
            Refusal(Lost, UNREACHABLE), Refusal(Missing, NOT_THERE),
            Refusal(LibraryMissing, NOT_THERE), Refusal(tables.NoParquet, NOT_THERE),
            Refusal(OSError, CANNOT_READ)]


def made(words: argparse.Namespace) -> int:
    """Makes the table, and gives the status."""
    loaded()
    settings = Settings(**{it: getattr(words, it) for it in Settings._fields})
    if words.parquet:
        tables.parquet_module()
    for path in (words.sqlite, words.parquet):
        if path and not words.resume:
            tested(path)
    with planned(words.files, words.out, settings, words.resume, words.lists) as plan:
        if plan.finished is None:
            with client_of(words) as client, Progress(workers_of(client)) as progress:
                done = passes(plan, client, lambda line: progress.show(shown(line)), progress)
        else:
            show(f"inventory: {words.out} is finished")
            done = passes(plan, None)
    if words.sqlite:
        databases.write(words.out, words.sqlite)
    if words.parquet:
        parquet.write(words.out, words.parquet)
    say(summary(done))
    return status_of(done)


def workers_of(client) -> Callable[[], Set[str]]:
    """What gives the addresses of the workers that are there."""
    return lambda: {*client.nthreads()}


def said_of(error: BaseException) -> str:
    """What an error that ends a run says."""
    if isinstance(error, OSError) and error.filename:
        return f"cannot read {error.filename}" + (f": {error.strerror}" if error.strerror else "")
    return str(error)


def without_memory() -> int:
    """Says that there is no memory, and gives the status."""
    show("inventory: out of memory")
    return NO_MEMORY


def ended(error: BaseException) -> int:
    """Says why a run has ended, and gives the status."""
    if memory.is_lacking(error):
        return without_memory()
    for refusal in refusals():
        if isinstance(error, refusal.error):
            show(f"inventory: {said_of(error)}")
            # (of Dask are errors of connections, which name no file)
            is_lost = isinstance(error, OSError) and not error.filename
            return UNREACHABLE if is_lost else refusal.status
    traceback.print_exception(type(error), error, error.__traceback__)
    show("inventory: an error of this command; please report it (SECURITY.md)")
    return UNEXPECTED


def main(given: List[str]) -> int:
    words = taken.parser().parse_intermixed_args(given)
    try:
        import dask.distributed  # noqa: F401
        if not words.scheduler:
            # (it makes the key of the run)
            import cryptography  # noqa: F401
    except Exception as error:  # (without memory Python says otherwise at times why it loads nothing)
        if memory.is_lacking(error) or memory.is_limited() and not isinstance(error, ImportError):
            return without_memory()
        if not isinstance(error, ImportError):
            raise
        show(f"inventory: {error}; {NO_DASK}")
        return NOT_THERE
    # (Dask writes tracebacks of connections that end, and warns of versions that it couldn't ask
    # for; what matters of these is said here)
    logging.disable(logging.CRITICAL)
    warnings.simplefilter("ignore")
    os.environ.setdefault("PYTHONWARNINGS", "ignore")
    for number in ENDING:
        signal.signal(number, end)
    try:
        return made(words)
    except Ended as signalled:
        name = signal.Signals(signalled.number).name
        show(f"inventory: ended by {name}; --resume goes on with what is done")
        return SIGNALLED + signalled.number
    except Exception as error:  # whatever it is, it gets a status
        return ended(error)


if __name__ == "__main__":
    found = main(sys.argv[1:])
    if found == NO_MEMORY:
        # (threads of Dask and OpenSSL that lack memory fail while Python ends)
        os._exit(found)
    sys.exit(found)
