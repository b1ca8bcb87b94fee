"""One digest of all that a crate's program is built from: HANDLES, and of the crate and of each
below it the line of crates.txt and the files of src/, specs/ and proofs/, by their paths."""
import hashlib
import os
import time

from program import repo

PARTS = ("src", "specs", "proofs")
# The digest of each crate that was asked for, with what its files looked like then.
KEPT = os.path.join("out", "sources")
# Nanoseconds: a file that changed so short a time ago may change again and keep its time, so that
# no digest is kept.
YOUNG = 2_000_000_000


def scanned(folder):
    """The files below a folder with their `os.stat_result`; none if there is no folder."""
    found = []
    try:
        with os.scandir(folder) as entries:
            for entry in entries:
                if is_source(entry.name):
                    found += scanned(entry.path) if entry.is_dir(follow_symlinks=False) else [(entry.path, entry.stat())]
    except (FileNotFoundError, NotADirectoryError):
        pass
    return found


def is_source(name):
    """Whether a file or folder of that name counts, and isn't a lock, copy or swap file that an
    editor puts beside a source."""
    return not name.startswith((".", "#")) and not name.endswith("~")


def octets_of(path):
    with open(path, "rb") as file:
        return file.read()


def octets_if_any(path):
    """The octets of a file, none if it can't be read."""
    try:
        return octets_of(path)
    except OSError:
        return b""


def sum_of_octets(octets):
    return hashlib.sha256(octets).hexdigest()


def digest(crate, top=repo.TOP):
    """The digest in hex digits, made anew only if a file changed since it was made last."""
    crates, lines = repo.below([crate], repo.crates(top)), repo.lines(top)
    head = "\n".join([repo.read("HANDLES", top), *(lines[entry] for entry in sorted(crates))])
    folders = (os.path.join(top, "crates", name, part) for name in crates for part in PARTS)
    files = sorted((entry for part in folders for entry in scanned(part)), key=lambda file: file[0])
    rows = (f"{path} {entry.st_size} {entry.st_mtime_ns} {entry.st_ctime_ns} {entry.st_ino}" for path, entry in files)
    looks = sum_of_octets("\n".join([head, *rows]).encode(errors="surrogateescape"))
    kept = os.path.join(top, KEPT, crate)
    words = octets_if_any(kept).decode("ascii", "replace").split()
    if len(words) == 2 and words[0] == looks:
        return words[1]
    summed = hashlib.sha256(head.encode())
    for path, _ in files:
        octets, name = octets_of(path), os.path.relpath(path, top)
        summed.update(f"\n{name} {len(octets)}\n".encode(errors="surrogateescape"))
        summed.update(octets)
    youngest = max((max(entry.st_mtime_ns, entry.st_ctime_ns) for _, entry in files), default=0)
    if time.time_ns() - youngest > YOUNG:
        try:
            put(kept, f"{looks} {summed.hexdigest()}\n".encode())
        except OSError:
            pass  # in a folder that can't be written the digest is made at each call
    return summed.hexdigest()


def put(path, octets, mode=0o644):
    """Writes a file whole, in the place of one that may be running."""
    os.makedirs(os.path.dirname(path), exist_ok=True)
    new = f"{path}.{os.getpid()}"
    with open(new, "wb") as file:
        file.write(octets)
    os.chmod(new, mode)
    os.replace(new, path)
