"""What changed within a day, by git, committed or not, and isn't laid out as `rt fmt` lays it out: a copy of its crate is laid out, and
compared.

If git or `rt` isn't there, nothing is looked at. `rt ci` refuses each file that is out of layout.
"""
import os
import re
import shutil
import subprocess
import tempfile

from program import repo, sources

# The last commit of the day before, and what `git` prints of sources that it doesn't know.
BEFORE, UNKNOWN = ["rev-list", "-1", "--before=1 day ago", "HEAD"], ["ls-files", "--others", "--exclude-standard"]
SOURCE = re.compile(r"crates/(\w+)/(?:src|specs|proofs)/.*\.(?:rt|antt)")


def lines_of(*words):
    """The lines that `git` prints, none if it fails."""
    ran = subprocess.run(["git", *words], cwd=repo.TOP, stdin=subprocess.DEVNULL, capture_output=True, text=True, errors="replace")
    return ran.stdout.splitlines()


def changed():
    """The crates with sources that changed since the last commit of the day before; since the last commit if there is none."""
    base = "".join(lines_of(*BEFORE)) or "HEAD"
    found = lines_of("diff", "--name-only", "--diff-filter=d", base, "--", "crates") + lines_of(*UNKNOWN, "--", "crates")
    return sorted({entry[1] for entry in map(SOURCE.fullmatch, found) if entry} & {*repo.crates()})


def copied(room, crate):
    """A copy of the crate, alone in a repository; gives its folder."""
    with open(os.path.join(room, "crates.txt"), "w", encoding="utf-8") as to:
        to.write(f"{crate}:\n")
    folder = os.path.join(room, "crates", crate)
    for part in sources.PARTS:
        if os.path.isdir(os.path.join(repo.TOP, "crates", crate, part)):
            shutil.copytree(os.path.join(repo.TOP, "crates", crate, part), os.path.join(folder, part))
    return folder


def faults():
    """A line for each such file."""
    for crate in changed() if shutil.which("git") and shutil.which("rt") else ():
        with tempfile.TemporaryDirectory(prefix="layout-") as room:
            folder = copied(room, crate)
            before = {path: sources.octets_of(path) for path, _ in sources.scanned(folder)}
            ran = subprocess.run(["rt", "fmt"], cwd=folder, stdin=subprocess.DEVNULL, stdout=subprocess.PIPE, stderr=subprocess.STDOUT, text=True, errors="replace")
            if ran.returncode:
                yield f"crates/{crate}: rt fmt ended with status {ran.returncode}: {ran.stdout.strip()[:300]}"
            yield from (f"crates/{crate}/{os.path.relpath(path, folder)} is not in the layout: run rt fmt in the crate's folder" for path, octets in sorted(before.items()) if sources.octets_of(path) != octets)
