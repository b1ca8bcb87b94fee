"""Writing: a file gets its name when it is whole, and what can't be written is said as such."""
import os
import uuid
from contextlib import contextmanager
from typing import Iterator

BEGUN = "begun"


class CannotWrite(Exception):
    """A file or folder of the table can't be made or written."""


@contextmanager
def reporting(path: str) -> Iterator[None]:
    """CannotWrite of a path, whatever error says so."""
    try:
        yield
    except OSError as error:
        raise CannotWrite(f"cannot write {path}: {error.strerror}") from error


def tested(path: str):
    """CannotWrite where a file that is to be new is there, or its folder isn't."""
    if os.path.exists(path):
        raise CannotWrite(f"cannot write {path}: it is there already")
    with reporting(path):
        os.listdir(os.path.dirname(os.path.abspath(path)))


@contextmanager
def whole(path: str, work: str) -> Iterator[str]:
    """The name of a new file in the folder `work`, which gets the name `path` in the end: who
    writes it again, here or on another machine, replaces it by an equal one."""
    begun = os.path.join(work, f"{os.path.basename(path)}.{uuid.uuid4().hex}.{BEGUN}")
    with reporting(path):
        try:
            yield begun
            os.replace(begun, path)
        except BaseException:
            if os.path.exists(begun):
                os.remove(begun)
            raise
