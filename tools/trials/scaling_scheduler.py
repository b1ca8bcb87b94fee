"""Tries `certpath.inventory` with a scheduler that is there already, by TLS, on the loopback: one
that has no worker, strangers' keys, another user, a worker without the package, and one that is
lost. Part of `scaling.py`."""
import os
import signal
import socket
import subprocess
import time

from program import repo
from trials import scaling_intruder
from trials.scaling_runs import Run, octets_of

LOOPBACK, SECONDS, SHORT = "127.0.0.1", 120, 0.2
SMALL = ["--blocksize", "20000", "--no-why"]
NO_HTTP = ["--no-dashboard", "--dashboard-address", f"{LOOPBACK}:0"]
NO_PAGES = {f"DASK_DISTRIBUTED__{it}__HTTP__ROUTES": "[]" for it in ("SCHEDULER", "WORKER")}
REQUEST = ["-newkey", "ec", "-pkeyopt", "ec_paramgen_curve:P-256", "-nodes"]


def keys(folder):
    """The words by which processes know each other: an authority's certificate, a certificate of it
    and its key."""
    os.mkdir(folder)
    for words in (["req", "-x509", *REQUEST, "-subj", "/CN=authority", "-keyout", "ca.key",
                   "-out", "ca.pem"],
                  ["req", *REQUEST, "-subj", "/CN=node", "-keyout", "node.key", "-out", "node.csr"],
                  ["x509", "-req", "-in", "node.csr", "-CA", "ca.pem", "-CAkey", "ca.key",
                   "-CAcreateserial", "-out", "node.pem"]):
        subprocess.run(["openssl", *words], cwd=folder, check=True, stdin=subprocess.DEVNULL,
                       stderr=subprocess.DEVNULL)
    files = (("--tls-ca-file", "ca.pem"), ("--tls-cert", "node.pem"), ("--tls-key", "node.key"))
    return [it for word, name in files for it in (word, os.path.join(folder, name))]


class Servers:
    """A scheduler and its workers, which end with the context."""

    def __init__(self, interpreter, room, words):
        self.interpreter, self.room, self.words, self.started = interpreter, room, words, []
        with socket.socket() as found:
            found.bind((LOOPBACK, 0))
            self.port = found.getsockname()[1]
        self.address = f"tls://{LOOPBACK}:{self.port}"

    def start(self, has_package, *words):
        path = os.path.join(repo.TOP, "python") if has_package else self.room
        log = os.path.join(self.room, f"server-{len(self.started)}.log")
        with open(log, "wb") as to:
            self.started.append(subprocess.Popen(
                [self.interpreter, "-m", "distributed.cli." + words[0], *words[1:], *self.words,
                 *NO_HTTP], cwd=self.room, stdin=subprocess.DEVNULL, stdout=to, stderr=to,
                env={**os.environ, **NO_PAGES, "PYTHONPATH": path,
                     "PYTHONDONTWRITEBYTECODE": "1"}))
        return self.started[-1]

    def __enter__(self):
        self.scheduler = self.start(True, "dask_scheduler", "--host", f"tls://{LOOPBACK}", "--port",
                                    str(self.port))
        until = time.monotonic() + SECONDS
        while time.monotonic() < until:
            try:
                socket.create_connection((LOOPBACK, self.port), 1).close()
                break
            except OSError:
                time.sleep(SHORT)
        return self

    def worker(self, has_package=True):
        return self.start(has_package, "dask_worker", self.address, "--host", LOOPBACK, "--nthreads",
                          "1", "--local-directory", os.path.join(self.room, "scratch"))

    def __exit__(self, *_):
        for it in reversed(self.started):
            it.terminate()
            try:
                it.wait(SECONDS)
            except subprocess.TimeoutExpired:
                it.kill()


def ended(count, run, status, said):
    run.wait()
    count.row(run.process.returncode == status and said in run.errors and "Traceback" not in run.errors,
              f"status {run.process.returncode}, {status} expected, with {said}: {run.errors[-3000:]}")


def trial(count, interpreter, few, room):
    folder = os.path.join(room, "servers")
    os.mkdir(folder)
    own, others = keys(os.path.join(folder, "own")), keys(os.path.join(folder, "others"))
    given = [*SMALL, "--vouchers", few.log.vouchers]
    whole = Run(interpreter, few, os.path.join(room, "by-processes"), *given, "--workers", "2").wait()
    out = os.path.join(room, "by-scheduler")
    with Servers(interpreter, folder, own) as servers:
        there = ["--scheduler", servers.address]
        ended(count, Run(interpreter, few, out, *given, *there, *others), 9, "no scheduler at tls://")
        stranger = servers.worker(has_package=False)
        ended(count, Run(interpreter, few, out, *given, *there, *own), 9, "hasn't the package certpath")
        stranger.terminate()
        stranger.wait()
        run = Run(interpreter, few, out, *given, *there, *own)
        run.wait_to_say("has no worker")
        worker = servers.worker()
        ended(count, run, 1, f"{servers.address} has no worker; waiting for one")
        scaling_intruder.trial(count, interpreter, [servers.scheduler.pid, worker.pid])
        count.row(octets_of(out) == octets_of(whole.out), "another table by a scheduler")
        lost = Run(interpreter, few, os.path.join(room, "lost"), *given, *there, *own)
        count.row(lost.wait_for(("work", "0*.json")), "no first pass")
        servers.scheduler.send_signal(signal.SIGKILL)
        ended(count, lost, 9, "the scheduler was lost")
    again = Run(interpreter, few, lost.out, *given, "--workers", "1", "--resume").wait()
    count.row(octets_of(again.out) == octets_of(whole.out), f"lost and gone on with: {again.errors}")
