"""What the scripts share: the crates as crates.txt lists them, and their programs.

`./certpath` imports this before each run: what takes time to import is imported where it is used.
"""
import os

TOP = os.path.dirname(os.path.dirname(os.path.dirname(os.path.abspath(__file__))))


def read(path, top=TOP):
    """The text of a file, by its path from the top of the repository."""
    with open(os.path.join(top, path), encoding="utf-8") as file:
        return file.read()


def lines(top=TOP):
    """The lines of crates.txt by the crate that each is of, without comments and further blanks."""
    listed = [" ".join(line.partition("#")[0].split()) for line in read("crates.txt", top).splitlines()]
    return {entry.partition(":")[0].split()[0]: entry for entry in listed if entry}


def crates(top=TOP):
    """The crates of crates.txt, each with the crates of the repository that its line lists."""
    listed = {name: line.partition(":")[2].split() for name, line in lines(top).items()}
    return {name: [use for use in uses if use in listed] for name, uses in listed.items()}


def below(names, listed, found=()):
    """The named crates and all that they depend on, lowest first, after those that were found."""
    for name in names:
        if name not in found:
            found = [*below(listed[name], listed, found), name]
    return found
