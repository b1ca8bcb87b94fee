"""Tries how runs of `certpath.inventory` end: stopped and gone on with, refused, and where a file
changes or can't be written. Part of `scaling.py`."""
import os
import re
import resource
import signal
import sqlite3
import subprocess
import time
from contextlib import closing

from program import repo
from trials import synthetic
from trials.scaling_runs import Run, octets_of, rows_of, seconds_of

SMALL = ["--blocksize", "20000", "--no-why", "--workers", "2"]
CHANGED = "the file changed while it was read"
# Signals that end runs, their statuses then, and the files that are waited for.
SIGNALS = ((signal.SIGTERM, 128 + signal.SIGTERM, ("work", "0*.json")),
           (signal.SIGKILL, -signal.SIGKILL, ("entries", "*.csv")))
# A run may be done before it could be ended: so often it is begun.
TRIED = range(4)
# With files of at most so many octets nothing of a table can be written whole.
FILE_LIMIT = 20_000
# Certificates of one name, and how many seconds of a processor their table may take: they take two
# to five, and would take minutes if it grew by the cube.
SAME_NAME, MOST_SECONDS = 500, 30
# Files of one entry, and within how many seconds of a core the first block of them is read.
FEW_FILES, MOST_BEFORE = 3000, 60
# How many of a certificate's reasons are in the table, at most; one of them.
MOST_REASONS, NO_VOUCHER = 20, re.compile(r"at target to [0-9a-f]{64} not linked: no voucher")
# A module in the place of Dask.
NO_DASK = "raise ImportError('No module named dask')"
# Errors that end a run, the status of each, and the last line that is written then.
OF_COMMAND = "an error of this command; please report it (SECURITY.md)"
STATUSES = (("ValueError('a')", 71, OF_COMMAND), ("AssertionError()", 71, OF_COMMAND),
            ("MemoryError()", 6, "out of memory"),
            ("RuntimeError('can\\'t start new thread')", 6, "out of memory"),
            ("OSError(12, 'Cannot allocate memory', 'a')", 6, "out of memory"),
            ("FileNotFoundError(2, 'No such file', 'malloc failure')", 4,
             "cannot read malloc failure: No such file"),
            ("OSError('Timed out')", 9, "Timed out"), ("running.Lost('a')", 9, "a"),
            ("writing.CannotWrite('a')", 7, "a"), ("trees.BadTreeHead('a')", 10, "a"),
            ("anchors.BadAnchors('a')", 3, "a"), ("signatures.BadLine('a')", 5, "a"),
            ("program.Missing('a')", 70, "a"), ("tables.NoParquet('a')", 70, "a"),
            ("jobs.Different('a')", 2, "a"),
            ("it.Ended(15)", 143, "ended by SIGTERM; --resume goes on with what is done"))
# The command line as it ends by each of the errors that it is given.
ENDS = """
import contextlib, io, sys
from certpath.inventory import __main__ as it
from certpath.inventory import anchors, jobs, program, running, signatures, tables, trees, writing

def made(words):
    raise error

it.made = made
for error in map(eval, sys.argv[1:]):
    said = io.StringIO()
    with contextlib.redirect_stderr(said):
        status = it.main(["a", "--anchors", "b", "--out", "c"])
    print(status, "Traceback" in said.getvalue(), said.getvalue().splitlines()[-1])
"""


def ended_by(interpreter, whole, out, words, number, status, pattern):
    """A run that is ended by a signal as soon as a file of a kind is there, and its status then. (A
    run may be done before.)"""
    run = Run(interpreter, whole, out, *words)
    run.wait_for(pattern)
    run.process.send_signal(number)
    return run.wait(), status


def resumed(count, interpreter, whole, one, given, room):
    """A run that is ended by SIGTERM, then by SIGKILL, and then gone on with, writes one table."""
    words = [*given, "--workers", "2", "--resume"]
    for name in TRIED:
        out = os.path.join(room, f"resumed-{name}")
        ended = [ended_by(interpreter, whole, out, words, *it) for it in SIGNALS]
        if all(run.process.returncode == status for run, status in ended):
            break
    for run, status in ended:
        count.row(run.process.returncode == status, f"status {run.process.returncode}, {status} "
                                                    f"expected: {run.errors[-2000:]}")
    count.row(not os.path.exists(f"{out}/run.json"), "a run that was ended is finished")
    last = Run(interpreter, whole, out, *words).wait()
    count.row(last.said == one.said, f"resumed: {last.said}\n{last.errors[-2000:]}")
    count.row(octets_of(out) == octets_of(one.out), "another table where the run was gone on with")
    count.row(sorted(os.listdir(out)) == ["entries", "issuers", "run.json"], f"{os.listdir(out)}")
    database = os.path.join(room, "resumed.sqlite")
    again = Run(interpreter, whole, out, *words, "--sqlite", database).wait()
    count.row(again.said == one.said and "is finished" in again.errors, f"finished: {again.errors}")
    with closing(sqlite3.connect(database)) as opened:
        found = opened.execute('SELECT sha256, outcome FROM entries ORDER BY file, "offset"')
        expected = sorted(rows_of(out), key=lambda it: (it["file"], int(it["offset"])))
        count.row(found.fetchall() == [(it["sha256"] or None, it["outcome"] or None) for it in expected],
                  "the database differs from the table")


def changed(count, interpreter, few, room):
    """A file that is written again while a run reads gives rows that say so."""
    log = few.log
    path = log.files[-1]
    with open(path, "rb") as file:
        octets = file.read()
    for name in TRIED:
        out = os.path.join(room, f"changed-{name}")
        run = Run(interpreter, few, out, "--vouchers", log.vouchers, *SMALL)
        run.wait_for(("work", "0*.json"))
        with open(path, "wb") as file:
            file.write(octets[:len(octets) // 2])
        run.wait()
        if run.process.returncode == 8:
            break
        with open(path, "wb") as file:
            file.write(octets)
    rows = rows_of(run.out)
    told = [it for it in rows if CHANGED in (it["reasons"], it["cause"])]
    count.row(run.process.returncode == 8 and told and {it["file"] for it in told} == {path},
              f"changed: status {run.process.returncode}, {len(told)} rows: {run.errors[-2000:]}")
    count.row(all(it["outcome"] for it in rows if it["class"] == "cert"), "a row without outcome")
    with open(path, "wb") as file:
        file.write(octets)


def limited():
    resource.setrlimit(resource.RLIMIT_FSIZE, (FILE_LIMIT, FILE_LIMIT))


def refused(count, interpreter, few, room):
    """Each refusal has a status and a word."""
    log, samples = few.log, os.path.join(repo.TOP, "samples")
    pem, listed, key = (os.path.join(samples, it) for it in ("fullchain.pem", "list.pem", "keys/leaf.pem"))
    # (a text that begins with a letter: a digit 0 is the octet that a SEQUENCE begins with)
    text = os.path.join(repo.TOP, "NOTICE")
    for status, words, said in (
            (3, ["--anchors", listed], "none of its items is a certificate"),
            (3, ["--anchors", key], "line 1 PRIVATE KEY: the block holds neither certificate nor"),
            (3, ["--anchors", text], "the file is neither PEM nor DER"),
            (2, ["--scheduler", "tcp://127.0.0.1:1"], "whoever reaches it runs code"),
            (2, ["--scheduler", "tls://127.0.0.1:1"], "--tls-ca-file"),
            (9, ["--scheduler", "tcp://127.0.0.1:1", "--insecure"], "no scheduler at tcp:"),
            (4, [os.path.join(room, "none"), "--workers", "1"], "cannot read"),
            (5, ["--vouchers", pem, "--workers", "1"], "vouchers line 1")):
        out = os.path.join(room, "refused")
        run = Run(interpreter, log, out, *words).wait()
        count.row(run.process.returncode == status and said in run.errors
                  and "Traceback" not in run.errors and not (os.path.exists(out) and os.listdir(out)),
                  f"{words}: status {run.process.returncode}, {run.errors}")
    run = Run(interpreter, log, os.path.join(room, "full"), "--vouchers", log.vouchers, *SMALL,
              preexec_fn=limited).wait()
    count.row(run.process.returncode == 7 and "cannot write /" in run.errors,
              f"a full disk: status {run.process.returncode}, {run.errors[-2000:]}")


def without_dask(count, interpreter, room):
    """Where Dask isn't there, the words are explained, and what is missing is said."""
    folder = os.path.join(room, "no-dask")
    os.mkdir(folder)
    with open(os.path.join(folder, "dask.py"), "w", encoding="ascii") as file:
        file.write(NO_DASK)
    places = {"PYTHONPATH": os.pathsep.join([folder, os.path.join(repo.TOP, "python")])}
    for words, status, said in ((["--help"], 0, "--anchors FILE"),
                                (["a", "--anchors", "b", "--out", "c"], 70, "python3-distributed")):
        ran = subprocess.run([interpreter, "-m", "certpath.inventory", *words], text=True, check=False,
                             env={**os.environ, **places, "PYTHONDONTWRITEBYTECODE": "1"},
                             stdin=subprocess.DEVNULL, stdout=subprocess.PIPE,
                             stderr=subprocess.STDOUT)
        count.row(ran.returncode == status and said in ran.stdout and "Traceback" not in ran.stdout,
                  f"without Dask: {words}: status {ran.returncode}, {ran.stdout}")


def statuses(count, interpreter):
    """Each error that ends a run has its status and one line; one of the command itself has a
    traceback, and a status of its own."""
    ran = subprocess.run([interpreter, "-c", ENDS, *(it for it, _, _ in STATUSES)], text=True,
                         env={**os.environ, "PYTHONPATH": os.path.join(repo.TOP, "python"),
                              "PYTHONDONTWRITEBYTECODE": "1"}, stdin=subprocess.DEVNULL,
                         stdout=subprocess.PIPE, stderr=subprocess.PIPE, check=False)
    wanted = [f"{status} {status == 71} inventory: {line}" for _, status, line in STATUSES]
    count.same(f"errors that end a run: {ran.stderr}", ran.stdout.splitlines(), wanted)


def localhosts(path, number):
    """Writes certificates of one name, each issued by itself with a key of its own."""
    with open(path, "wb") as file:
        for serial in range(number):
            own = synthetic.Authority(f"key {serial}")
            own.name = synthetic.name("localhost")
            file.write(synthetic.certificate(serial, own, own.name, own.public, []).octets)


def has_reasons(row, further):
    """Whether as many reasons stand there as may, each on the certificate itself, and how many
    further ones there are."""
    *lines, last = row["reasons"].split("; ")
    return (len({*lines}) == MOST_REASONS and last == f".. {further} further"
            and all(map(NO_VOUCHER.fullmatch, lines)))


def one_name(count, interpreter, few, room, number=SAME_NAME, most=MOST_SECONDS, words=()):
    """Many certificates of one name have reasons within a bounded time; gives the seconds of a
    processor."""
    path, out = (os.path.join(room, f"one-name-{len(words)}{it}") for it in (".der", ""))
    localhosts(path, number)
    before = resource.getrusage(resource.RUSAGE_CHILDREN)
    begun = time.monotonic()
    run = Run(interpreter, few.log._replace(files=[path]), out, *words, "--workers", "1").wait()
    after = resource.getrusage(resource.RUSAGE_CHILDREN)
    took = after.ru_utime + after.ru_stime - before.ru_utime - before.ru_stime
    rows = rows_of(run.out)
    # (each is linked to itself and to no other one, and each but the target is no issuer)
    further = number * (number - 1) + number - 1 - MOST_REASONS
    wrong = [it for it in rows if it["outcome"] != "none" or not has_reasons(it, further)]
    count.row(len(rows) == number and not wrong,
              f"{len(wrong)} of {len(rows)} rows of one name: {wrong[:1]} {run.errors[-2000:]}")
    count.row(took < most, f"{number} certificates of one name: {took:.1f} s of a "
                                   f"processor, {time.monotonic() - begun:.1f} s in all")
    return took


def one_entry_files(folder, number):
    """Writes files of one certificate each, which differ by their serial numbers alone."""
    os.makedirs(folder)
    local, first = synthetic.Authority("localhost"), 1 << 30
    octets = synthetic.certificate(first, local, local.name, local.public, []).octets
    front, back = octets.split(first.to_bytes(4, "big"))
    for it in range(number):
        with open(os.path.join(folder, f"{it:07}.der"), "wb") as file:
            file.write(front + (first + it).to_bytes(4, "big") + back)


def many_files(count, interpreter, few, room, number, by_list=False):
    """Many files of one entry are begun with soon, by their folder or by a list of their names;
    gives the run, in which a block was read."""
    folder, listed = (os.path.join(room, it) for it in ("many-files", "many-files.txt"))
    if not os.path.exists(folder):
        one_entry_files(folder, number)
        with open(listed, "w", encoding="ascii") as file:
            file.writelines(f"{os.path.join(folder, it)}\n" for it in sorted(os.listdir(folder)))
    files, words = ([], ["--files-from", listed]) if by_list else ([folder], [])
    out = os.path.join(room, "of-a-list" if by_list else "of-a-folder")
    begun = time.monotonic()
    run = Run(interpreter, few.log._replace(files=files), out, *words, "--vouchers",
              few.log.vouchers, "--no-why", "--workers", "1")
    is_read = run.wait_for(("work", "0*.json"))
    took, within = seconds_of(run.process.pid), time.monotonic() - begun
    said = (f"of {number} files, by {'a list' if by_list else 'their folder'}, "
            f"{'the first' if is_read else 'no'} block was read after {took:.1f} s of a core, "
            f"within {within:.1f} s")
    count.row(is_read and took < MOST_BEFORE, said)
    return run, said


def all_of_many_files(count, interpreter, few, room):
    """A table of all of them, equal by the folder and by the list."""
    runs = [many_files(count, interpreter, few, room, FEW_FILES, by_list)[0].wait()
            for by_list in (False, True)]
    rows = rows_of(runs[0].out)
    count.row(len({(it["file"], it["sha256"]) for it in rows}) == FEW_FILES == len(rows),
              f"{FEW_FILES} files: {len(rows)} rows: {runs[0].errors[-2000:]}")
    count.row(octets_of(runs[0].out) == octets_of(runs[1].out),
              f"another table by a list: {runs[1].errors[-2000:]}")


def trial(count, interpreter, few, room):
    changed(count, interpreter, few, room)
    refused(count, interpreter, few, room)
    without_dask(count, interpreter, room)
    statuses(count, interpreter)
    one_name(count, interpreter, few, room)
    all_of_many_files(count, interpreter, few, room)
