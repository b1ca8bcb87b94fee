"""Measures what an entry costs by default, in seconds of a core, beside what OpenSSL takes itself.

    scaling_costs.py FOLDER OUT [--no-why] [--vouchers]     all passes in this process, with
                                                            OpenSSL's functions timed

Part of `scaling.py`, which tries a small log, and of `scaling_large.py`.
"""
import json
import os
import resource
import subprocess
import sys
import time
from datetime import datetime

sys.dont_write_bytecode = True
TOP = os.path.dirname(os.path.dirname(os.path.dirname(os.path.abspath(__file__))))
FEW, MOST_OF_ENTRY = 1500, 0.001
# So many times what OpenSSL takes itself an entry may take on a slow machine.
MOST_BESIDE = 3
LOG = "log.json"
# What is handed to OpenSSL as a pointer, and not called from here.
POINTED = "ASN1_TYPE_free"


class Timed:
    """OpenSSL's library, with the seconds of a core that its functions take."""

    def __init__(self, library):
        self.library, self.seconds = library, 0.0

    def __getattr__(self, name):
        function = getattr(self.library, name)
        if name == POINTED:
            return function

        def timed(*given):
            begun = time.thread_time()
            try:
                return function(*given)
            finally:
                self.seconds += time.thread_time() - begun

        self.__dict__[name] = timed
        return timed


class Task:
    """A task that is done when its result is asked for, in the place of a future of Dask."""

    def __init__(self, task, arguments):
        self.task, self.arguments = task, arguments

    def exception(self):
        return None

    def result(self):
        return self.task(*self.arguments)


class Here:
    """In the place of Dask's client: all tasks are done in this process."""

    def map(self, task, *columns, pure):
        return [Task(task, it) for it in zip(*columns)]


def passes(folder, out, words):
    """Makes a table, and prints how many entries it has, and the seconds of all and of OpenSSL."""
    sys.path.insert(0, os.path.join(TOP, "python"))
    from certpath import libcrypto
    from certpath.inventory import Settings, run
    from trials import synthetic
    timed, libcrypto.loaded = Timed(libcrypto.loaded()), lambda: timed
    with open(os.path.join(folder, LOG), encoding="ascii") as file:
        log = synthetic.Written(*json.load(file))
    given = Settings(log.anchors, datetime.fromisoformat(synthetic.MOMENT), form="csv",
                     why="--no-why" not in words, program=os.path.join(TOP, "dist", "certpath"),
                     vouchers=log.vouchers if "--vouchers" in words else None)
    begun = seconds()
    done = run(log.files, out, given, Here())
    print(json.dumps([done.entries, seconds() - begun, timed.seconds]))


def seconds():
    """How many seconds of a core this process and its children took."""
    taken = [resource.getrusage(it) for it in (resource.RUSAGE_SELF, resource.RUSAGE_CHILDREN)]
    return sum(it.ru_utime + it.ru_stime for it in taken)


def in_one_process(interpreter, folder, out, *words):
    ran = subprocess.run([interpreter, __file__, folder, out, *words], stdout=subprocess.PIPE,
                         stdin=subprocess.DEVNULL, text=True, check=True)
    return json.loads(ran.stdout)


def made(folder, number, **more):
    """Writes a log, and what is needed to know of it."""
    from trials import synthetic
    os.makedirs(folder)
    log = synthetic.Writer(folder, synthetic.Log(number, **more)).write()
    with open(os.path.join(folder, LOG), "w", encoding="ascii") as to:
        json.dump(log, to)
    return log


def small(count, interpreter, room):
    """Of a small log the passes alone, without what it takes to begin."""
    folder = os.path.join(room, "costs")
    made(folder, FEW)
    entries, took, openssl = in_one_process(interpreter, folder, os.path.join(room, "of-costs"))
    # (OpenSSL takes so much longer on a slower machine, or one that does other work)
    most = max(MOST_OF_ENTRY * entries, MOST_BESIDE * openssl)
    count.row(entries >= FEW and openssl > 0 and took - openssl < most,
              f"{entries} entries took {took:.2f} s of a core, of which OpenSSL {openssl:.2f} s")


def measured(count, interpreter, folder, log, *words):
    """The whole command with one worker, from its start to its end, with all of its processes."""
    from trials.scaling_runs import Run
    out = os.path.join(folder, f"out-{len(os.listdir(folder))}")
    entries, alone, openssl = in_one_process(interpreter, folder, f"{out}-alone", *words[:1])
    begun, started = seconds(), time.monotonic()
    run = Run(interpreter, log, out, *words, "--workers", "1").wait()
    took, beside = seconds() - begun, (seconds() - begun - openssl) / entries
    print(f"costs: {entries} entries {' '.join(words[:1]) or 'by default'}: {took:.1f} s of a core "
          f"within {time.monotonic() - started:.0f} s, of which OpenSSL {openssl:.1f} s: "
          f"{beside * 1000:.2f} ms an entry beside it; the passes alone {alone:.1f} s", flush=True)
    count.row(run.process.returncode == 1 and beside <= MOST_OF_ENTRY,
              f"{beside * 1000:.2f} ms an entry: {run.errors[-2000:]}")


def trial(count, interpreter, room, number):
    """A log with few precertificates, and one where every second entry is one: these have no path,
    so reasons are asked for."""
    for precertificates in (20, 1):
        folder = os.path.join(room, f"one-in-{2 * precertificates}")
        log = made(folder, number, precertificates=precertificates)
        print(f"costs: one entry in {2 * precertificates} is a precertificate", flush=True)
        for words in ((), ("--no-why",), ("--vouchers", log.vouchers)):
            measured(count, interpreter, folder, log, *words)


if __name__ == "__main__":
    sys.path.insert(0, os.path.join(TOP, "tools"))
    passes(*sys.argv[1:3], sys.argv[3:])
