"""Builds a crate's program from its sources: `rt ci` proves it with all below it, on a
copy. With toolchains that keep what they proved, a build that was stopped goes on where it was."""
import os
import re
import shutil
import signal
import subprocess
import sys
import tempfile

from pki.writing import SIGNALS
from program import programs, repo, sources, streams

# What a crate's program doesn't need of its folder.
LEFT_OUT = ("out", "wrong", "must-fail")
VERSION_OF_LIBC = re.compile(rb"GLIBC_(\d+(?:\.\d+)*)\0")


def copied(crate, to):
    """Copies what the crate's program is made of: its crates, their lines of crates.txt, and
    HANDLES; gives how many crates these are."""
    crates, lines = repo.below([crate], repo.crates()), repo.lines()
    # (`rt ci` runs at the top of a repository)
    os.makedirs(os.path.join(to, ".git"))
    shutil.copyfile(os.path.join(repo.TOP, "HANDLES"), os.path.join(to, "HANDLES"))
    sources.put(os.path.join(to, "crates.txt"), "".join(f"{lines[entry]}\n" for entry in crates).encode())
    for name in crates:
        shutil.copytree(*(os.path.join(top, "crates", name) for top in (repo.TOP, to)), ignore=lambda _,
                        names: {word for word in names if word in LEFT_OUT or not sources.is_source(word)})
    return len(crates)


def kit():
    """The line of the toolchain on the path, none if there is none."""
    try:
        return subprocess.check_output(["rt", "version"], stdin=subprocess.DEVNULL,
                                       stderr=subprocess.DEVNULL, text=True).strip()
    except (OSError, subprocess.CalledProcessError):
        return None


def needs_of(octets):
    """The machine that a program needs, by the versions of the C library that it names."""
    versions = [[*map(int, match.decode().split("."))] for match in VERSION_OF_LIBC.findall(octets)]
    return f"Linux x86_64 glibc {'.'.join(map(str, max(versions, default=[2, 0])))}"


def keep(crate, program, digest):
    """Puts a program that was built from sources of the digest in its place, with its record."""
    octets = sources.octets_of(program)
    record = (kit(), digest, sources.sum_of_octets(octets), needs_of(octets))
    text = "".join(f"{word} {entry}\n" for word, entry in zip(programs.WORDS, record))
    path, record_path = (os.path.join(repo.TOP, entry) for entry in programs.paths(crate))
    sources.put(path, octets, 0o755)
    sources.put(record_path, text.encode())


def stop(number, _):
    """Ends this process once a signal came; what it began it ends and removes first."""
    signal.pthread_sigmask(signal.SIG_BLOCK, SIGNALS)
    streams.report(f"stopped by {signal.Signals(number).name}")
    sys.exit(128 + number)


def proved(copy):
    """Whether `rt ci` proves the copy, beside which it keeps its files. It ends before this does, and
    asked to end it ends all that it started."""
    with subprocess.Popen(["rt", "ci"], cwd=copy, env={**os.environ, "TMPDIR": os.path.dirname(copy)},
                          stdin=subprocess.DEVNULL, stdout=sys.stderr, stderr=subprocess.STDOUT,
                          start_new_session=True) as child:
        try:
            return child.wait() == 0
        finally:
            child.terminate()


def build(crate):
    """Proves a crate with all below it and puts its program and the record in place; else this
    process ends with a line that says why not."""
    if not shutil.which("rt"):
        programs.end(crate, "rt, the toolchain that builds it, isn't on the path")
    for entry in SIGNALS:
        if signal.getsignal(entry) != signal.SIG_IGN:
            signal.signal(entry, stop)
    try:
        with tempfile.TemporaryDirectory(prefix="certpath-build-") as top:
            copy = os.path.join(top, "copy")
            # (as root, `rt` runs programs as nobody, who has to reach them)
            os.chmod(top, 0o711)
            count, digest = copied(crate, copy), sources.digest(crate, copy)
            streams.report(f"rt ci proves {crate} and what is below it, {count} crates, which takes "
                           "up to an hour")
            if not proved(copy):
                programs.end(crate, "it wasn't built, since rt ci failed")
            keep(crate, os.path.join(copy, "crates", crate, "out", crate), digest)
    except OSError as error:
        programs.end(crate, f"it can't be built: {error.strerror}: {error.filename}")
