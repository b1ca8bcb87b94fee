"""Where tasks run: processes of this machine, or a scheduler of Dask that is there already.

Messages of Dask are pickles: whoever can send one to a scheduler or a worker runs code as its user.
So processes of this machine talk by TLS, with a key that is made for the run and is in memory
alone, and listen on the loopback. Nothing is served by HTTP.
"""
import logging
import os
import signal
import tempfile
from contextlib import ExitStack, contextmanager
from typing import Callable, Dict, Iterator, List, NamedTuple, Optional

import dask
from dask.distributed import Client, Nanny, Scheduler, Security, SpecCluster, Worker
from dask.distributed import TimeoutError as DaskTimeoutError

from . import memory
from .probe import fingerprint

LOOPBACK = "127.0.0.1"
TLS = "tls://"
# Any port of the loopback. Dask's servers listen for HTTP whatever they are asked; without routes
# they answer each request with 404.
NO_HTTP: Dict[str, List[str]] = {"distributed.scheduler.http.routes": [],
                                 "distributed.worker.http.routes": []}
ANY_PORT = f"{LOOPBACK}:0"
# What Dask's processes watch of themselves, that nobody sees here: it took a twentieth of a core.
UNWATCHED = {"distributed.worker.profile.enabled": False,
             "distributed.admin.tick.interval": "500ms",
             "distributed.admin.system-monitor.interval": "5s"}
# How long a scheduler is waited for.
SECONDS = 15
# How long its first worker is.
WAIT = 600
# So many seconds the processes of this machine have to begin (it takes two), and then each part of
# them to end.
BEGIN, CLOSE = 60, 5


class Unreachable(Exception):
    """There is no scheduler, it has no worker, or one of them was lost and the run with it."""


class Refused(ValueError):
    """Words that would let others run code on the workers, or that lack a key."""


class Keys(NamedTuple):
    """The files by which this process and a scheduler know each other, in PEM."""
    authority: Optional[str]
    """The certificate that has signed those of all."""
    certificate: Optional[str]
    key: Optional[str]


class OwnWorker(Worker):
    """A worker of this machine. The interrupt that a terminal sends to all processes of a command
    is for the one that was started by hand: that ends the others."""

    def __init__(self, *words, **more):
        signal.signal(signal.SIGINT, signal.SIG_IGN)
        super().__init__(*words, **more)


def cluster_of(workers: int, security: Security) -> SpecCluster:
    """A scheduler in this process and so many processes that work, all on the loopback."""
    shared: Dict[str, object] = {"host": LOOPBACK, "protocol": TLS, "security": security,
                                 "dashboard": False, "dashboard_address": ANY_PORT}
    options = {**shared, "nthreads": 1, "memory_limit": 1.0 / workers, "worker_class": OwnWorker,
               "silence_logs": logging.CRITICAL}
    worker = {"cls": Nanny, "options": options}
    of_scheduler: Dict[str, object] = {**shared, "port": 0}
    scheduler = {"cls": Scheduler, "options": of_scheduler}
    return SpecCluster(workers={number: worker for number in range(workers)}, worker=worker,
                       scheduler=scheduler, security=security, silence_logs=logging.CRITICAL)


def late(*_):
    raise Unreachable(f"the processes that read haven't begun within {BEGIN} seconds")


@contextmanager
def in_time() -> Iterator[Callable[[], None]]:
    """What is done within it begins processes, until it calls what it is given. Unreachable if that
    takes too long; MemoryError if it fails and memory is limited: without it Dask starts a process
    again and again, says that certificates don't match, and doesn't end."""
    def done():
        signal.setitimer(signal.ITIMER_REAL, 0)
        waited.clear()

    before, waited = signal.signal(signal.SIGALRM, late), [True]
    signal.setitimer(signal.ITIMER_REAL, BEGIN, CLOSE)
    try:
        yield done
    except Exception as error:
        if waited and memory.is_limited():
            raise MemoryError from error
        raise
    finally:
        done()
        signal.signal(signal.SIGALRM, before)


@contextmanager
def own_processes(workers: int) -> Iterator[Client]:
    """A client of new processes of this machine, one for each core where `workers` is 0."""
    with in_time() as done, ExitStack() as opened:
        # (what a worker puts on its disk is read back as pickles, so nobody else may write there)
        scratch = opened.enter_context(tempfile.TemporaryDirectory(prefix="inventory-"))
        opened.enter_context(
            dask.config.set({**NO_HTTP, **UNWATCHED, "temporary-directory": scratch}))
        cluster = cluster_of(workers or os.cpu_count() or 1, Security.temporary())
        client = opened.enter_context(Client(opened.enter_context(cluster)))
        done()
        yield client


def keys_of(keys: Keys) -> Security:
    """The keys of files; those that aren't given are those of Dask's own configuration."""
    given = {"tls_ca_file": keys.authority, "tls_client_cert": keys.certificate,
             "tls_client_key": keys.key}
    security = Security(require_encryption=True, **{it: file for it, file in given.items() if file})
    if not all(getattr(security, it) for it in ("tls_ca_file", "tls_client_cert")):
        raise Refused("tls:// needs --tls-ca-file, --tls-cert and --tls-key")
    for file in filter(None, keys):
        with open(file, "rb"):
            pass
    return security


def wait_for_workers(client: Client, address: str, show: Callable[[str], None]):
    """Waits until a scheduler has a worker."""
    if client.nthreads():
        return
    show(f"inventory: {address} has no worker; waiting for one, {WAIT // 60} min at most "
         f"(dask worker {address} ..)")
    try:
        client.wait_for_workers(1, timeout=WAIT)
    except (TimeoutError, DaskTimeoutError) as error:
        raise Unreachable(f"{address} has no worker") from error


def compare(client: Client):
    """Unreachable where a worker hasn't the package and the library of this process."""
    own = fingerprint()
    for address, found in sorted(client.run(fingerprint, on_error="return").items()):
        if isinstance(found, BaseException):
            raise Unreachable(f"the worker at {address} hasn't the package certpath: {said(found)}")
        if found != own:
            raise Unreachable(f"the worker at {address} has another version of certpath")


@contextmanager
def of_scheduler(address: str, keys: Keys, insecure: bool,
                 show: Callable[[str], None]) -> Iterator[Client]:
    """A client of a scheduler that is there. Refused of an address without TLS, unless `insecure`;
    Unreachable."""
    has_tls = address.startswith(TLS)
    if not has_tls and not insecure:
        raise Refused(f"--scheduler {address}: whoever reaches it runs code on its workers: use "
                      f"{TLS}.., or --insecure where nobody else can reach it")
    security = keys_of(keys) if has_tls else None
    try:
        client = Client(address, security=security, timeout=SECONDS)
    except (OSError, ValueError, TypeError) as error:
        raise Unreachable(f"no scheduler at {address}: {said(error)}") from error
    with client:
        wait_for_workers(client, address, show)
        compare(client)
        yield client


def said(error: BaseException) -> str:
    """The first line of what an error says."""
    lines = str(error).splitlines() or [""]
    return f"{type(error).__name__}: {lines[0]}"
