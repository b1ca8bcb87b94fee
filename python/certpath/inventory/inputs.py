"""Which files are read: those that are named, those of folders, and those of lists."""
import os
import sys
from typing import Iterable, Iterator, List

STANDARD_INPUT = "-"


class NoFile(OSError):
    """There is no file to be read."""


def in_folder(folder: str) -> Iterator[str]:
    """All files in a folder and below it, in the order of their names."""
    def refuse(error: OSError):
        raise error

    for at, folders, names in os.walk(folder, onerror=refuse):
        folders.sort()
        yield from (os.path.join(at, it) for it in sorted(names))


def in_list(path: str) -> Iterator[str]:
    """The names that stand in a file, one a line; empty lines are passed over."""
    if path == STANDARD_INPUT:
        yield from filter(None, (it.rstrip("\r\n") for it in sys.stdin))
        return
    with open(path, encoding="utf-8", errors="surrogateescape") as file:
        yield from filter(None, (it.rstrip("\r\n") for it in file))


def listed(names: Iterable[str], lists: Iterable[str] = ()) -> List[str]:
    """The whole paths of all files, in their order. NoFile where there is none, or a folder has
    none; OSError where a list or a folder can't be read."""
    found = []
    for name in (*names, *(it for path in lists for it in in_list(path))):
        path = os.path.abspath(name)
        added = [*in_folder(path)] if os.path.isdir(path) else [path]
        if not added:
            raise NoFile(0, "no file in it", name)
        found += added
    if not found:
        raise NoFile(0, "no file is named", "FILE")
    return found
