"""What pages name and the tree hasn't: names, calls, numbers of crates, options, statuses. page_checks.py runs these looks.

They read pages line by line and see no code span that goes over two lines. Nor do they see whether what is there does what
the page says."""
import functools
import os
import re

from gate import syntax
from install import completions
from program import repo, usage

# Pages that speak of what was.
PAST = ("CHANGELOG.md", "docs/PERF.md")
# The page of what the ported crates have and these haven't.
OTHERS = "docs/DIFFERENCES.md"
SPAN = re.compile(r"`([^`\n]+)`")
# A name with an underscore, or with a capital within.
NAME = re.compile(r"\b(?=\w*[a-z]_[a-z]|\w*[a-z][A-Z])[A-Za-z]\w{3,}\b")
# A call after its crate: one name, or several in braces.
CALL = re.compile(r"\b([a-z]\w+)::(\{[^{}]*\}|\w+)(?:::(\{[^{}]*\}|\w+))?")
COUNT = re.compile(r"\b(\d[\d,]*) crates\b(?! (?:in|of|are) (?:`must-fail|edits))")
OPTION = re.compile(r"(?<![\w-])--[a-z][a-z-]*")
COMMAND = re.compile(r"^(?:    )?(?:\$ )?(?:time )?\./(certpath|verify|vouch|bundle|rows)\b([^|;>]*)")
STATUS = re.compile(r"\bstatus(?:es)? (\d+)\b", re.I)
# Where the options and statuses of each command are.
GRAMMARS = {"certpath": "tools/program/usage.py", "verify": "tools/verify/words.py", "vouch": "tools/pki/run.py", "bundle": "tools/program/usage.py", "rows": "rows"}
# `timeout`, when the time is over.
FOREIGN_STATUSES = {"124"}
NUMBERED = re.compile(r"(?i)\bstatus:? ((?:[^.]|\.(?=\S))*)\.")
WORD = re.compile(rb"[A-Za-z_]\w{3,}")
# Files without names of ours.
NO_SOURCE = (".md", ".der", ".png", ".svg", ".so", ".a", "stdin", "stdout")
PRUNED = (".git", "out", "__pycache__", "samples")


def walked():
    """Each file of the tree, but for what checks and runs leave."""
    for at, folders, names in os.walk(repo.TOP):
        folders[:] = sorted(folder for folder in folders if folder not in PRUNED)
        yield from (os.path.join(at, name) for name in sorted(names))


@functools.cache
def lines():
    """Each line of the pages with its place, but of those of the past."""
    found = []
    for path in (os.path.relpath(entry, repo.TOP) for entry in walked() if entry.endswith(".md")):
        if path not in PAST:
            found += [(path, f"{path}:{number}", line) for number, line in enumerate(repo.read(path).splitlines(), 1)]
    return found


def spans(left_out=()):
    """Each code span of the pages, with its place."""
    return [(place, text) for path, place, line in lines() if path not in left_out for text in SPAN.findall(line)]


@functools.cache
def words():
    """The words of all files but pages, and the files' own names."""
    found = set()
    for path in walked():
        found.add(os.path.splitext(os.path.basename(path))[0])
        if not path.endswith(NO_SOURCE):
            found |= {*WORD.findall(octets(path))}
    return {entry.decode() if isinstance(entry, bytes) else entry for entry in found}


def octets(path):
    with open(path, "rb") as file:
        return file.read()


def is_part(name):
    """Whether a name is a part of a word of the tree, between underscores."""
    begin, end = f"{name.rstrip('_')}_", f"_{name.lstrip('_')}"
    return any(word.startswith(begin) or word.endswith(end) for word in words())


def names_there():
    """A name that a page has as code is somewhere in the tree."""
    for place, text in spans((OTHERS,)):
        for name in NAME.findall(text):
            if name not in words() and not is_part(name):
                yield f"{place}: nothing in the tree is named {name}"


@functools.cache
def words_of(crate):
    """The words of a crate's sources, and of those that it names, which it may hand on."""
    return {match for name in (crate, *syntax.CRATES[crate]) for source in syntax.files(name) for match in re.findall(r"\w+", source.text)}


def calls_there():
    """What a page names after a crate, as `crate::name`, is in that crate, or in one that it hands on."""
    for place, text in spans():
        for crate, *parts in CALL.findall(text):
            if crate in syntax.CRATES:
                for name in {match for part in parts for match in re.findall(r"\w+", part)} - words_of(crate):
                    yield f"{place}: the crate {crate} has no {name}"


def crates_counted():
    """How many crates there are is a number that crates.txt gives: of all, or of those below a program or the library."""
    listed = syntax.CRATES
    right = {len(listed), *(len(repo.below([entry], listed)) for entry in listed)}
    for path, place, line in lines():
        for number in COUNT.findall(line):
            if int(number.replace(",", "")) not in right:
                yield f"{place}: {number} crates, and crates.txt has {len(listed)}"


def options_there():
    """A command line of a page has options that its command knows, and an option named elsewhere is in some script or source."""
    known = {name: {*OPTION.findall(repo.read(path))} for name, path in GRAMMARS.items()}
    known["certpath"] |= {option.name for entry in usage.COMMANDS for option in completions.of_subcommand(entry)}
    found = [(place, option) for place, text in spans() for option in OPTION.findall(text)]
    for path, place, line in lines():
        command = COMMAND.match(line)
        for name in OPTION.findall(command[2]) if command else ():
            if name not in known[command[1]]:
                yield f"{place}: ./{command[1]} has no option {name}"
    scripts = b"\n".join(octets(entry) for entry in walked() if is_script(entry))
    there = {entry for entry in {one for _, one in found} if entry.encode() in scripts or f'"{entry[2:]}"'.encode() in scripts}
    for place, name in found:
        if name not in there:
            yield f"{place}: nothing has the option {name}"


def is_script(path):
    return path.endswith((".py", ".sh", ".rt")) or "." not in os.path.basename(path) and octets(path)[:2] == b"#!"


def statuses_there():
    """An exit status that a page names is one that a command names in its help."""
    helps = [usage.GENERAL, *map(repo.read, GRAMMARS.values())]
    named = {match for one in helps for text in NUMBERED.findall(one) for match in re.findall(r"(?:^|[;,] )\s*(\d+)\b", " ".join(text.split()))}
    for path, place, line in lines():
        for number in STATUS.findall(line):
            if number not in named | FOREIGN_STATUSES:
                yield f"{place}: no command ends with status {number}"


CHECKS = (names_there, calls_there, crates_counted, options_there, statuses_there)
