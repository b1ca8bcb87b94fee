"""Runs of `python3 -m certpath.inventory`, which may be disturbed, and the tables that they write.
Part of `scaling.py`."""
import csv
import glob
import hashlib
import os
import re
import signal
import subprocess
import sys
import time

from program import repo
from trials import synthetic

INTERPRETERS = [sys.executable, "/usr/bin/python3"]
PROGRAM = os.path.join(repo.TOP, "dist", "certpath")
SECONDS, SHORT = 600, 0.01


def with_dask():
    """An interpreter that has Dask; none where there is none."""
    for interpreter in INTERPRETERS:
        words = [interpreter, "-c", "import distributed"]
        try:
            if subprocess.run(words, stdin=subprocess.DEVNULL, stderr=subprocess.DEVNULL).returncode == 0:
                return interpreter
        except OSError:
            continue
    return None


def digest(octets):
    return hashlib.sha256(octets).hexdigest()


class Run:
    """A run of the command line, which may be disturbed."""

    def __init__(self, interpreter, whole_or_log, out, *words, **more):
        log = getattr(whole_or_log, "log", whole_or_log)
        self.out = out
        paths = {**os.environ, "PYTHONPATH": os.path.join(repo.TOP, "python"),
                 "PYTHONDONTWRITEBYTECODE": "1"}
        self.process = subprocess.Popen(
            [interpreter, "-m", "certpath.inventory", *log.files, "--anchors", log.anchors, "--out",
             out, "--at", synthetic.MOMENT, "--program", PROGRAM, "--format", "csv", *words],
            env=paths, stdin=subprocess.DEVNULL, stdout=subprocess.PIPE, stderr=subprocess.PIPE,
            text=True, **more)
        self.said = self.errors = ""

    def wait_to_say(self, words):
        """Reads what it says on standard error until it has said these words, or has ended."""
        while words not in self.errors:
            piece = os.read(self.process.stderr.fileno(), 1 << 16)
            if not piece:
                return
            self.errors += piece.decode(errors="replace")

    def wait(self):
        try:
            self.said, errors = self.process.communicate(timeout=SECONDS)
        except subprocess.TimeoutExpired:
            self.process.kill()
            self.said, errors = self.process.communicate()
            errors += f"\nended after {SECONDS} s"
        self.errors += errors
        return self

    def workers(self):
        """The numbers of the processes that this run's Dask has started to work."""
        children = []
        for path in glob.glob(f"/proc/{self.process.pid}/task/*/children"):
            children += map(int, octets_at(path).split())
        # (a worker of Dask has threads; the process of Python that frees what children leave has one)
        return [it for it in children if threads_of(it) > 1]

    def wait_for(self, pattern, least=1):
        """Waits until so many files of this kind are there; whether they were before it ended."""
        until = time.monotonic() + SECONDS
        while self.process.poll() is None and time.monotonic() < until:
            if len(glob.glob(os.path.join(self.out, *pattern))) >= least:
                return True
            time.sleep(SHORT)
        return False

    def kill_a_worker(self, pattern):
        """Kills a worker when a file of this kind is there; whether there was one to kill."""
        until = time.monotonic() + SECONDS
        while self.process.poll() is None and time.monotonic() < until:
            workers = self.workers()
            if workers and glob.glob(os.path.join(self.out, *pattern)):
                os.kill(workers[0], signal.SIGKILL)
                return True
            time.sleep(SHORT)
        return False


def processes(pid):
    """A process and all below it."""
    found = [pid]
    for path in glob.glob(f"/proc/{pid}/task/*/children"):
        for child in map(int, octets_at(path).split()):
            found += processes(child)
    return found


def seconds_of(pid):
    """How many seconds of a core a process and all below it have taken so far."""
    ticks = 0
    for it in processes(pid):
        # (after the name in parentheses: of 50 fields the 12th and 13th are its own time)
        fields = octets_at(f"/proc/{it}/stat").rpartition(b")")[2].split()
        ticks += sum(map(int, fields[11:13]))
    return ticks / os.sysconf("SC_CLK_TCK")


def threads_of(process):
    """How many threads a process has; none where it has ended."""
    found = re.search(rb"Threads:\s+(\d+)", octets_at(f"/proc/{process}/status"))
    return int(found[1]) if found else 0


def octets_at(path):
    """The octets of a file of /proc; none where the process has ended."""
    try:
        with open(path, "rb") as file:
            return file.read()
    except OSError:
        return b""


def parts(out, table):
    return sorted(glob.glob(os.path.join(out, table, "*.csv")))


def octets_of(out):
    """All that a run has written, by the names of the files."""
    found = {}
    for path in parts(out, "entries") + parts(out, "issuers"):
        with open(path, "rb") as file:
            found[os.path.relpath(path, out)] = file.read()
    return found


def rows_of(out, table="entries"):
    rows = []
    for path in parts(out, table):
        with open(path, encoding="utf-8", newline="") as file:
            rows += csv.DictReader(file)
    return rows
