"""Tries that another user of the machine can't talk to processes of `certpath.inventory`, or to a
scheduler and workers that it is given, and that these listen on the loopback alone. Part of
`scaling.py`; needs root, to become `nobody`."""
import os
import re
import shutil
import subprocess
import time

from trials.scaling_runs import processes

LOOPBACK = {"127.0.0.1", "[::1]", "[::ffff:127.0.0.1]"}
# All sockets that listen for TCP, with the processes that have them (Debian's iproute2), and which
# word of a line has the address.
SOCKETS, LOCAL = ("ss", "-H", "-t", "-l", "-n", "-p"), 3
INTRUDER = "nobody"
SECONDS, SHORT = 60, 0.1
# What a stranger tries at each port: messages of Dask, which carry code, with and without TLS of a
# key of his own, and requests by HTTP. Whatever is answered is printed.
TRIES = """
import asyncio, http.client, os, sys
from distributed.core import connect
from distributed.protocol import to_serialize
from distributed.protocol.pickle import dumps
from distributed.security import Security

PAGES = "/info/main/workers.html", "/json/counts.json", "/metrics", "/health", "/status", "/"

async def ask(address, **words):
    # (who may connect at all may send pickles)
    comm = await asyncio.wait_for(connect(address, timeout=3, **words), 4)
    for operation in ("run", "run_function"):
        await comm.write({"op": operation, "function": dumps(os.getuid), "args": dumps(()),
                          "kwargs": dumps({}), "wait": True, "reply": True, "close": False})
        print(address, operation, await asyncio.wait_for(comm.read(), 4), flush=True)

for port in sys.argv[1:]:
    given = Security.temporary().get_connection_args("client")
    for address, words in ((f"tcp://127.0.0.1:{port}", {}), (f"tls://127.0.0.1:{port}", given)):
        try:
            asyncio.run(ask(address, **words))
        except Exception as error:
            print("refused", address, type(error).__name__, file=sys.stderr)
    for page in PAGES:
        try:
            asked = http.client.HTTPConnection("127.0.0.1", int(port), timeout=3)
            asked.request("GET", page)
            if asked.getresponse().status != 404:
                print("http", port, page, flush=True)
        except Exception as error:
            print("refused", port, type(error).__name__, file=sys.stderr)
print("tried", len(sys.argv) - 1)
"""


def listening(pids):
    """The addresses and ports at which processes and those below them listen."""
    own, found = {it for pid in pids for it in processes(pid)}, []
    ran = subprocess.run(SOCKETS, stdin=subprocess.DEVNULL, stdout=subprocess.PIPE, text=True,
                         check=True)
    for line in ran.stdout.splitlines():
        if own & set(map(int, re.findall(r"\bpid=(\d+)", line))):
            address, _, port = line.split()[LOCAL].rpartition(":")
            found.append((address, int(port)))
    return sorted(found)


def settled(pids):
    """The same, once it doesn't change any more."""
    until, found = time.monotonic() + SECONDS, []
    while time.monotonic() < until:
        time.sleep(20 * SHORT)
        now = listening(pids)
        if now and now == found:
            break
        found = now
    return found


def trial(count, interpreter, pids):
    """Processes that listen, once those below them are there, too."""
    if not shutil.which(SOCKETS[0]):
        print(f"scaling: ports aren't looked at, since there is no {SOCKETS[0]} (iproute2)")
        return
    found = settled(pids)
    count.row(len(found) > 3, f"too few ports: {found}")
    count.row(all(address in LOOPBACK for address, _ in found), f"not on the loopback: {found}")
    if os.getuid() != 0:
        print("scaling: another user isn't tried, since that needs root")
        return
    ports = sorted({str(port) for _, port in found})
    ran = subprocess.run([interpreter, "-c", TRIES, *ports], cwd="/", user=INTRUDER, group="nogroup",
                         extra_groups=[], env={"PATH": os.environ["PATH"], "HOME": "/"},
                         stdin=subprocess.DEVNULL, stdout=subprocess.PIPE, stderr=subprocess.PIPE,
                         text=True, check=False)
    count.row(ran.stdout == f"tried {len(ports)}\n",
              f"another user is answered: {ran.stdout}{ran.stderr[-2000:]}")
