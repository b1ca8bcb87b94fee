"""Edits of one crate that are tried together, by one check of all of them.

A function is proved over the contracts of the functions that it calls, never over their bodies. So if the bodies of several functions
are changed at once, each that its own goals refuse would be refused alone. Nothing is concluded of an edit whose function isn't told to
fail by itself, or whose proof only misses a name: it is tried alone.
"""
import re

from program import repo

# The most edits that one check tries.
MOST = 24
FUNCTION = re.compile(r"( *)(?:pub(?:\([^)]*\))? |final |const |unsafe )*fn (\w+)")
TOLD = re.compile(r"^fn (\S+): (not proved|no proof)(.*)$", re.M)
# What is reported of a function that fails, or waits, for another's sake alone.
OF_OTHERS = re.compile(r"it calls|it passes|a call of|it waits")
# An error in the answers that a function's own goals have: its goals are made of its own body and of contracts.
OWN_PROOF = re.compile(r"^\./proofs/(\S+)/(?:Answers|Proof|Invariants)\.antt:\d+:\d+: error: (.*)$", re.M)
# What such an error says where the answers name what an edit took away. That says nothing of the contract.
OF_NAMES = re.compile(r"in scope|no field|no such|unknown")


def bodies(lines):
    """The functions of a source that is laid out: the first and the last line of the body, from 0, and the name; inner ones after outer ones."""
    found = []
    for number, line in enumerate(lines):
        head = FUNCTION.match(line)
        if not head:
            continue
        end = next((one_number for one_number in range(number, len(lines)) if lines[one_number] == f"{head[1]}}}"), None)
        opening = f"{head[1]}{{"
        begin = next((one_number for one_number in range(number, end or number) if lines[one_number] == opening), None)
        if begin is None:
            begin = next((one_number for one_number in range(number, end or number) if lines[one_number].endswith("{")), None)
        if begin is not None:
            found.append((begin + 1, end, head[2]))
    return found


def touched(crate, edit):
    """The functions whose bodies an edit changes, as pairs of module and name, none if it changes anything else."""
    found, path, old = set(), None, None
    for line in repo.read(f"crates/{crate}/{edit}").split("\n"):
        if line.startswith("file: "):
            path = line[len("file: "):].strip()
        elif line.startswith("old: "):
            old = line[len("old: "):]
        elif line.startswith("new:") and old is not None:
            if not path.startswith("src/"):
                return None
            lines = repo.read(f"crates/{crate}/{path}").splitlines()
            at = next((number for number, line in enumerate(lines) if old in line), None)
            inside = [name for begin, end, name in bodies(lines) if at is not None and begin <= at < end]
            if not inside:
                return None
            module = re.sub(r"(^|/)(lib|main|mod)$", "", path[len("src/"):-len(".rt")]).replace("/", "::")
            found.add((module, inside[-1]))
            old = None
    return found or None


def groups(crate, folder, edits):
    """Edits in groups of such as change different functions, and those that have to be tried alone."""
    found, alone = [], []
    for edit in edits:
        places = touched(crate, f"{folder}/{edit}")
        if not places:
            alone.append(edit)
            continue
        for group, taken in found:
            if len(group) < MOST and not places & taken:
                group[edit] = places
                taken |= places
                break
        else:
            found.append(({edit: places}, set(places)))
    return [group for group, _ in found], alone


def failing(said):
    """The functions that a check said to fail by themselves, as pairs of module and name."""
    paths = [path.split("::")[1:] for path, _, why in TOLD.findall(said) if "did not prove" in why or not OF_OTHERS.search(why)]
    broken = [(folder.replace("+", "").split("/"), why) for folder, why in OWN_PROOF.findall(said)]
    named = [path for path, why in broken if OF_NAMES.search(why)]
    # a method is under its type or impl, a function in its module
    found = {("::".join(one_path[:-depth]), one_path[-1]) for one_path in [*paths, *(path for path, _ in broken)] for depth in (1, 2)}
    return found - {("::".join(entry[:-depth]), entry[-1]) for entry in named for depth in (1, 2)}


def refused(said, group):
    """The edits of a group whose functions a check said to fail by themselves."""
    found = failing(said)
    return [edit for edit, places in group.items() if places & found]


def texts(crate, folder, group):
    """The sources as the edits of a group leave them, by their paths within the crate."""
    made = {}
    for edit in group:
        path = old = None
        for line in repo.read(f"crates/{crate}/{folder}/{edit}").split("\n"):
            if line.startswith("file: "):
                path = line[len("file: "):].strip()
            elif line.startswith("old: "):
                old = line[len("old: "):]
            elif line.startswith("new:"):
                text = made.get(path) or repo.read(f"crates/{crate}/{path}")
                made[path] = text.replace(old, re.sub(r"\A ", "", line[len("new:"):]), 1)
    return made
