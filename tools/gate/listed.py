"""Whether crates.txt has one line for each folder of crates/, and no other line: merges have left out
lines, doubled them, or joined two, without a conflict."""
import collections
import os
import re

from program import repo

# A crate, what it is built as, a colon, and the libraries that it uses.
LINE = re.compile(r"(\w+)(?: \w+(?:=\w+)?)*:(?: \w+)*")


def faults(top=repo.TOP):
    """A line for each crate that has no line or several, and for each line that is of no crate."""
    counts = collections.Counter()
    for number, line in enumerate(repo.read("crates.txt", top).splitlines(), 1):
        words = " ".join(line.partition("#")[0].split())
        form = LINE.fullmatch(words)
        if form:
            counts[form[1]] += 1
        elif words:
            yield f"crates.txt:{number}: it isn't the line of one crate, as `NAME: USED..`: {words[:80]}"
    folders = {name for name in os.listdir(os.path.join(top, "crates")) if os.path.isdir(os.path.join(top, "crates", name))}
    yield from (f"crates.txt: there are {count} lines for {name}" for name, count in sorted(counts.items()) if count > 1)
    yield from (f"crates.txt: there is no folder crates/{folder}" for folder in sorted({*counts} - folders))
    yield from (f"crates/{folder}: crates.txt has no line for it" for folder in sorted(folders - {*counts}))
