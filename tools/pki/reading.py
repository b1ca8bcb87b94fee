"""The caller's files, read whole, and why one can't be read."""
import errno
import os
import sys

STANDARD_INPUT = "-"
# So many characters of a word are in a message.
MOST_SHOWN = 200


class Unreadable(Exception):
    """A file can't be read; says why, and what to do."""


def octets_of(word, most=-1):
    """What a file holds, or the first octets of it, so many at most; - is standard input."""
    try:
        if word == STANDARD_INPUT:
            if sys.stdin is None:
                raise Unreadable("cannot read -: standard input is closed")
            return octets_in(sys.stdin.buffer, most)
        with open(word, "rb") as file:
            return octets_in(file, most)
    except (OSError, ValueError) as error:
        raise Unreadable(f"cannot read {shortened(word)}: {why(error)}") from error


def octets_in(file, most):
    """What an open file holds, so many octets at most; no more room is taken than it needs if the
    system says how many there are."""
    size = os.fstat(file.fileno()).st_size
    if most < 0 or not size:
        return file.read(most)
    octets = file.read(min(most, size + 1))
    return octets if len(octets) <= size else octets + file.read(most - len(octets))


def shortened(word):
    """A word as messages show it."""
    return repr(word) if not word else word if len(word) <= MOST_SHOWN else f"{word[:MOST_SHOWN]}.."


def why(error):
    """Why a file can't be read, and what to do."""
    number = getattr(error, "errno", None)
    if number == errno.EISDIR:
        return "it is a folder; name its files"
    if number == errno.ENOENT:
        return "no such file; is the name right?"
    return getattr(error, "strerror", None) or "that is no file name"
