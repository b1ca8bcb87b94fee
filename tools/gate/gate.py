"""What `./test` runs: the gate where `rt` is on the path, and else all that needs no toolchain.

The gate is the quick look; `rt ci`, timed whole; the comparison of dist/ with what that built; and
the trials. The last line counts all of it: `N passed, M failed`.
"""
import os
import re
import shutil
import subprocess
import sys
import tempfile
import threading
import time
from concurrent.futures import ThreadPoolExecutor

from program import building, programs, repo, sources
from trials import running

# Where the system's own programs are.
OF_THE_SYSTEM = "/usr/bin"
# Proofs yield to the trials that run beside them, so that a trial's bounds on seconds hold. A file of trials begins where the
# load of the last minute leaves a processor free, so that it delays no proof; after so many seconds that is asked again.
YIELDING = ("nice", "-n", "5")
BESIDE_PROOFS = 2
BETWEEN_FILES = 30
NOT_COPIED = (".git", "out", "__pycache__")
COUNTED = re.compile(r"(\d+) passed, (\d+) failed")
NO_PROOF = ("./test: no proof was run: rt, the Rattle toolchain, isn't on the path (docs/FAQ.md says where it can be had).\n"
            "./test: with rt on the path, ./test proves every crate, and runs all trials at their full size.")


def keeps_work():
    """Whether `rt ci` takes what earlier runs on this machine proved, unless `--anew` forbids it, by its help."""
    said = subprocess.run(["rt", "help"], stdin=subprocess.DEVNULL, stdout=subprocess.PIPE, stderr=subprocess.STDOUT,
                          text=True, errors="replace").stdout
    return "--anew" in said or "from nothing" not in said


def words_of(is_anew):
    """What `rt ci` is called with. A toolchain that keeps nothing between runs knows no `--anew`, and needs none."""
    if keeps_work():
        return ["--anew"] if is_anew else []
    print("gate: this toolchain keeps nothing between runs: each run proves all from nothing", flush=True)
    return []


def digests():
    """The digests of the sources of all programs but certpath, which dist/ has."""
    is_program = {crate: os.path.isfile(os.path.join(repo.TOP, "crates", crate, "src", "main.rt")) for crate in repo.crates()}
    return {entry: sources.digest(entry) for entry in is_program if is_program[entry] and entry != programs.CERTPATH}


def keep_programs(before):
    """Keeps the programs that `rt ci` left in this checkout, if their sources are as they were before it."""
    for crate, digest in digests().items():
        program = os.path.join(repo.TOP, "crates", crate, "out", crate)
        if before.get(crate) == digest and os.path.isfile(program):
            building.keep(crate, program, digest)


def environment():
    """That of `rt`, a script of Python: the system's own Python comes first, since others on the path may be slower."""
    return {**os.environ, "PATH": os.pathsep.join((OF_THE_SYSTEM, os.environ.get("PATH", os.defpath)))}


def proofs(words):
    """Runs `rt ci` and keeps the programs that it built; gives how many passed and failed, by its last line."""
    began, before = time.monotonic(), digests()
    child = subprocess.Popen([*YIELDING, "rt", "ci", *words], cwd=repo.TOP, env=environment(), stdout=subprocess.PIPE, text=True, errors="replace")
    passed = failed = 0
    for line in child.stdout:
        print(line, end="", flush=True)
        counted = COUNTED.match(line)
        if counted:
            passed, failed = map(int, counted.groups())
    _, status, spent = os.wait4(child.pid, 0)
    child.returncode = os.waitstatus_to_exitcode(status)
    if child.returncode == 0:
        keep_programs(before)
    print(f"gate: {spent.ru_utime + spent.ru_stime:.0f} s of processors, {time.monotonic() - began:.0f} s by the clock", flush=True)
    # (an `rt ci` that ends before it counts has failed)
    return passed, failed or int(child.returncode != 0)


class Beside:
    """The trials that need nothing of `rt ci`: some begin while it runs, the others after it. They run on a copy of the
    checkout, since `rt ci` moves files of its own."""

    def __init__(self, room):
        self.top = os.path.join(room, os.path.basename(repo.TOP))
        shutil.copytree(repo.TOP, self.top, symlinks=True, ignore=shutil.ignore_patterns(*NOT_COPIED))
        self.names = [name for name in running.files() if name not in running.OF_ROWS]
        self.runs, self.pool, self.over = [], ThreadPoolExecutor(), threading.Event()
        self.feeder = threading.Thread(target=self.feed)
        self.feeder.start()

    def begin(self):
        self.runs.append(self.pool.submit(running.run_file, ["trial", running.BY_THE_GATE], self.names.pop(0), self.top))

    def feed(self):
        """Begins files, two at a time at most, where a processor is free, until the proofs are over."""
        while self.names and not self.over.wait(BETWEEN_FILES):
            is_free = os.getloadavg()[0] <= len(os.sched_getaffinity(0)) - 1
            if is_free and sum(not run.done() for run in self.runs) < BESIDE_PROOFS:
                self.begin()

    def proofs_over(self):
        self.over.set()
        self.feeder.join()

    def ended(self):
        """Waits for the files that were begun, and runs the others; gives how many rows passed and failed."""
        counts = [running.ended(self.runs)[:2], running.run_apart(is_gate=True, names=[*self.names, *running.OF_ROWS])[:2]]
        return tuple(map(sum, zip(*counts)))


def compared():
    """Compares dist/ with what `rt ci` built."""
    from gate import dist
    amiss = dist.compared(os.path.join(repo.TOP, dist.BY_THE_GATE))
    return int(not amiss), len(amiss)


def gate(is_anew=False):
    """Runs the gate, of which each step counts; gives the status. If a look or a proof fails, the rest isn't run."""
    from gate import quick
    counts = [quick.looked()]
    if not counts[-1][1]:
        with tempfile.TemporaryDirectory(prefix="gate-") as room:
            beside = Beside(room)
            counts.append(proofs(words_of(is_anew)))
            beside.proofs_over()
            if not counts[-1][1]:
                began = time.monotonic()
                counts += [compared(), beside.ended()]
                print(f"trials: they ended {time.monotonic() - began:.0f} s after the proofs by the clock", flush=True)
            beside.pool.shutdown()
    passed, failed = map(sum, zip(*counts))
    print(f"{passed} passed, {failed} failed")
    return 1 if failed else 0


def without_toolchain():
    """Runs all that needs no toolchain; gives the status."""
    from gate import quick
    looks, trials = quick.looked(), running.run_apart(is_small=True)
    passed, failed, left = looks[0] + trials[0], looks[1] + trials[1], trials[2]
    print(NO_PROOF)
    return counted(passed, failed, left)


def counted(passed, failed, left):
    """Prints the last line; gives the status, a status of its own if dist/ is older than the sources."""
    print(f"{passed} passed, {failed} failed{f', {left} skipped' if left else ''}")
    return programs.OUTDATED if programs.is_outdated() else 1 if failed else 0


def trials(words, is_small=False):
    """Runs single trials, or all, at the sizes of the gate or at small ones; gives the status."""
    is_gate = words[:1] == [running.BY_THE_GATE]
    names = words[is_gate:]
    return counted(*(running.run(names, is_gate, is_small) if names else running.run_apart(is_gate, is_small)))


def main(words):
    first, rest = (words[0], words[1:]) if words else ("", [])
    if first == "" or first == "anew" and not rest:
        return gate(bool(words)) if shutil.which("rt") else without_toolchain()
    if first == "quick":
        from gate import quick
        return quick.main()
    if first in ("trial", "small"):
        return trials(rest, first == "small")
    if not shutil.which("rt"):
        print("./test: rt, the Rattle toolchain, which proves crates, isn't on the path\n0 passed, 1 failed")
        return 1
    if first == "wrong":
        return subprocess.run([sys.executable, os.path.join(repo.TOP, "tools", "dev", "wrong.py"), *rest]).returncode
    return subprocess.run([sys.executable, os.path.join(repo.TOP, "tools", "dev", "single.py"), *words]).returncode
