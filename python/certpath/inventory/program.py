"""The proved program: `certpath paths` on files that are made for the run."""
import os
import shutil
import subprocess
from contextlib import contextmanager
from typing import Iterator, List, NamedTuple

from ..library import FOLDERS

NAME = "certpath"
PATHS = "paths"
# With these exit statuses a report was printed.
ANSWERED = (0, 1)
YES = "check yes"


class Missing(Exception):
    """The program isn't there."""


class Failed(Exception):
    """The program gave no report, or its check doesn't accept it."""


class Question(NamedTuple):
    """What a run is asked about: the octets of a bundle, a file of anchors, vouchers, and words."""
    bundle: bytes
    anchors: str
    vouchers: str
    words: List[str]


def found(given: str = "") -> str:
    """The path of the program: the one that is given, or the one beside the library, or one on the
    path."""
    if given:
        places = [given]
    else:
        places = [os.path.join(it, NAME) for it in FOLDERS] + [shutil.which(NAME) or ""]
    for place in places:
        if os.path.isfile(place) and os.access(place, os.X_OK):
            return os.path.abspath(place)
    raise Missing(f"the program {NAME} isn't there: {', '.join(filter(None, places))}")


@contextmanager
def in_memory(octets: bytes) -> Iterator[int]:
    """The number of a file that is nowhere but in memory."""
    number = os.memfd_create(NAME)
    try:
        with open(number, "wb", closefd=False) as file:
            file.write(octets)
        yield number
    finally:
        os.close(number)


def report(program: str, command: str, question: Question) -> List[str]:
    """The lines of a run's report, after its check said yes."""
    with in_memory(question.bundle) as bundle, in_memory(question.vouchers.encode()) as vouchers:
        files = [f"/dev/fd/{bundle}", question.anchors, f"/dev/fd/{vouchers}"]
        ran = subprocess.run([program, command, *files, *question.words], stdin=subprocess.DEVNULL,
                             stdout=subprocess.PIPE, stderr=subprocess.PIPE, check=False,
                             pass_fds=(bundle, vouchers))
    lines = ran.stdout.decode(errors="replace").splitlines()
    if ran.returncode not in ANSWERED:
        said = ran.stderr.decode(errors="replace").strip()
        raise Failed(f"certpath {command} ended with status {ran.returncode}: {said}")
    if YES not in lines:
        raise Failed(f"certpath {command}: its check doesn't say yes")
    return lines
