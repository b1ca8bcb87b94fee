"""Files that are written beside their place, and get their name once they are whole."""
import os
import signal
from contextlib import suppress

SIGNALS = (signal.SIGINT, signal.SIGTERM, signal.SIGHUP)


def begun_for(file):
    """Where a file is written until it is whole: beside its place if it is an ordinary one or isn't
    there, and others can be made there; else in its place."""
    is_ordinary = os.path.isfile(file) and not os.path.islink(file) and os.access(file, os.W_OK)
    has_place = file and os.access(os.path.dirname(file) or ".", os.W_OK | os.X_OK)
    is_replaced = has_place and (is_ordinary or not os.path.lexists(file))
    return f"{file}.{os.getpid()}.begun" if is_replaced else file


def take(begun, file):
    """Gives what was written for a file its name, and the permissions of the one that had it."""
    if os.path.exists(file):
        os.chmod(begun, os.stat(file).st_mode & 0o7777)
    os.replace(begun, file)


def put(file, octets):
    """Writes a file whole, or leaves it as it was: an ordinary one. Signals wait until then."""
    begun = begun_for(file)
    before = signal.pthread_sigmask(signal.SIG_BLOCK, SIGNALS)
    try:
        with open(begun, "wb") as out:
            out.write(octets)
        if begun != file:
            take(begun, file)
    except OSError:
        if begun != file:
            with suppress(OSError):
                os.unlink(begun)
        raise
    finally:
        signal.pthread_sigmask(signal.SIG_SETMASK, before)
