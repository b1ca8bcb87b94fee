"""Bounds from outside: `ulimit -v`, `-t` and `-f`, and signals. A script that is short of memory
says so in one line, with the status that is stated; no process and no cut file is left."""
import errno
import os
import resource
import signal
import subprocess
import sys
import tempfile
import time

from program import repo, sources
from trials.bundling import PEAK
from trials.count import INTERRUPTIBLE, Trial, size
from trials.scaling_runs import with_dask

SECONDS = 600
# So many seconds later a run has ended that is asked to. (It takes some hundredths of a second;
# others may have the processors.)
SOON = 10
# So many seconds of a processor a run may take beside those that it has: it starts, and a program
# may end in its last one.
SOON_OVER = 1.5
# How a run ends that has no seconds left, or a script whose program has none.
ENDED_BY_TIME = {end for it in (signal.SIGXCPU, signal.SIGKILL) for end in (-it, 128 + it)}
TOO_LARGE = os.strerror(errno.EFBIG)
# So many octets hold all files of a run on the samples, and not its page.
OF_FILES = 5_000
MEGABYTE = 1 << 20
SAMPLES = os.path.join(repo.TOP, "samples")
FULL, LIST, ROOT, BUNDLE, ROOT_DER, VOUCHERS = (
    os.path.join(SAMPLES, it) for it in ("fullchain.pem", "list.pem", "root.pem", "bundle.der",
                                         "root.der", "vouchers.txt"))
AT, DAY = ("--at", "2026-12-01T00:00:00"), ("--at", "2026-12-01")
UNLIMITED, FEW = ("--limit", "4294967295"), ("--limit", "800")
PATHS = ("paths", BUNDLE, ROOT_DER, VOUCHERS, *AT)
# Command lines on the samples, and the statuses that say that there is no memory, or too little for
# the library or a program.
COMMANDS = {
    ("bundle", FULL, LIST): (6,),
    ("vouch", BUNDLE, ROOT_DER): (4,),
    ("verify", FULL, LIST, "--anchors", ROOT, *DAY): (4, 6, 70),
    ("certpath", "path", BUNDLE, ROOT_DER, VOUCHERS, "--target", "0", *AT): (6, 70),
}
# Command lines on a file of many octets, with less memory than these, and how they end.
LARGE, LITTLE = 96 * MEGABYTE, 90 * MEGABYTE
ON_LARGE = (
    (("bundle", "large"), 6, "out of memory"),
    (("vouch", "large", ROOT_DER), 4, "vouch: out of memory"),
    (("verify", "large", "--anchors", ROOT), 6, "verify: out of memory"),
    (("certpath", "path", "large", ROOT_DER, VOUCHERS, "--target", "0", *AT, *UNLIMITED), 6,
     "out of memory"),
)
# How many megabytes the commands are given: with the first ones Python starts, and has too little for
# what ./vouch or ./verify load; with the last one all are done. (What is between differs by the
# machine; each of these sizes is away from where one of the commands begins to be done.)
SOME_MEGABYTES, FEW_MEGABYTES, ENOUGH = (28, 30, 32, 36, 40, 44, 48, 56, 64, 80, 96), (28, 40, 64), 256
# A PKCS #12 file without a certificate (RFC 7292, 4), of which the check of its MAC wants 2^31 - 1
# iterations: four minutes of a processor. And how many of these a folder has.
MANY_ITERATIONS = bytes.fromhex(
    "304b020103301106092a864886f70d010701a0040402300030333021300906052b0e03021a05000414"
    "00000000000000000000000000000000000000000408000000000000000002047fffffff")
MANY_FILES = 50
# What is said of a run that takes longer than it may.
TOO_LONG = "verify: the run takes more than {} s of a processor, and has ended while openssl "
# A command that reads its file to the end, which it hasn't.
READS_ON = ("certpath", "path", "/dev/zero", ROOT_DER, VOUCHERS, "--target", "0", *AT)
# How many megabytes are too few for what the inventory loads; how many may be too few for a process
# that reads, since its threads reserve memory as they meet; and what is said then.
FEW_FOR_DASK = (30, 64, 100)
SOME_FOR_DASK = 160
NO_MEMORY_FOR_DASK = (6, b"", ["inventory: out of memory"])
# What ./verify waits for: a program that doesn't end, and a call of a library that takes minutes.
WAITING = '#!/bin/sh\necho $$ >>"$0.began"\nexec sleep 600\n'
ENDLESS = """\
import ctypes, runpy, sys
sys.path[:0] = [{tools!r}]
from verify import core
def need():
    import certpath.libcrypto
    print("called", flush=True)
    room, times = ctypes.create_string_buffer(20), 1 << 30
    certpath.libcrypto.loaded().PKCS5_PBKDF2_HMAC_SHA1(b"x", 1, b"x", 1, times, len(room), room)
core.need = need
sys.argv = {argv!r}
runpy.run_path({script!r}, run_name="__main__")
"""


# Of a file of items of two octets ./vouch holds at most so many octets for each. (They are seven.)
OF_ITEM = 10
# How a module may fail while it is loaded, and with what a run ends then: with a limit of memory, and
# without one. (Python's compiler, if it is short of memory, raises what it raises of faulty sources.)
TRACEBACK = "Traceback (most recent call last):"
SAID, TRACED = (6, "it: out of memory"), (1, None)
LOADS = (
    ("raise MemoryError", SAID, SAID),
    ("raise OSError(12, 'Cannot allocate memory')", SAID, SAID),
    ("raise ImportError('libz.so.1: failed to map segment from shared object')", SAID, SAID),
    ("raise ImportError('PyCapsule_Import could not import module')", SAID, TRACED),
    ("def call(", SAID, TRACED),
    ("raise ValueError(\"field 'target' is required for AnnAssign\")", SAID, TRACED),
    ("raise SystemError('error return without exception set')", SAID, TRACED),
    ("import module_that_is_nowhere", TRACED, TRACED),
    ("def call(): open('cannot allocate')", TRACED, TRACED),
    ("def call(): raise Exception('cannot allocate')", TRACED, TRACED),
    ("raise ImportError('libz.so.1: cannot open shared object file: No such file')", TRACED, TRACED),
    ("def call(): raise ValueError('of no import')", TRACED, TRACED),
)
LOADING = """\
import sys
sys.dont_write_bytecode = True
sys.path[:0] = [{tools!r}, {room!r}]
from program import streams
def call():
    import loads
    loads.call()
sys.exit(streams.within_memory("it", 6, call))
"""


def script(name):
    """The words that run a script. (Python is named, so that a limit is the script's alone.)"""
    return [sys.executable, "-ISB" if name != "verify" else "-IB", os.path.join(repo.TOP, name)]


def on_script(words):
    """The words of a run: those of a script before those that it is given."""
    return [*script(words[0]), *words[1:]]


def endless():
    """The words of a run of ./verify that is within a call of a library."""
    argv, tools = [os.path.join(repo.TOP, "verify"), FULL], os.path.join(repo.TOP, "tools")
    return [sys.executable, "-c", ENDLESS.format(tools=tools, argv=argv, script=argv[0])]


def limited(kind, most):
    """Called in a new process: limits it."""
    return lambda: resource.setrlimit(kind, (most, most))


def is_there(process):
    """Whether a process is there that hasn't ended."""
    try:
        with open(f"/proc/{process}/stat", encoding="ascii", errors="replace") as file:
            return file.read().rpartition(")")[2].split()[0] not in ("Z", "X")
    except OSError:
        return False


def seconds_of_children():
    """How many seconds of a processor all children took that have ended."""
    used = resource.getrusage(resource.RUSAGE_CHILDREN)
    return used.ru_utime + used.ru_stime


def wait_for(what):
    """Waits until something is so; whether it is, at last."""
    until = time.monotonic() + SECONDS
    while not (is_so := what()) and time.monotonic() < until:
        time.sleep(0.02)
    return is_so


class Limits(Trial):
    def setUp(self):
        self.need_libcrypto()
        self.program()
        room = tempfile.TemporaryDirectory(prefix="limits-")
        self.addCleanup(room.cleanup)
        self.room, self.temporary = room.name, os.path.join(room.name, "temporary")
        os.mkdir(self.temporary)

    def environment(self, **further):
        return {**os.environ, "TMPDIR": self.temporary, "PYTHONDONTWRITEBYTECODE": "1", **further}

    def run_limited(self, words, kind, most):
        """A script's status, its output, and its lines on standard error, with a limit."""
        return self.ran([*script(words[0]), *words[1:]], kind, most)

    def ran(self, words, kind, most, output=subprocess.PIPE, **environment):
        ran = subprocess.run(words, cwd=self.room, env=self.environment(**environment),
                             stdin=subprocess.DEVNULL, stdout=output, stderr=subprocess.PIPE,
                             timeout=SECONDS, preexec_fn=limited(kind, most))
        return ran.returncode, ran.stdout, ran.stderr.decode(errors="replace").splitlines()

    def test_memory(self):
        """With any memory a command answers as ever, or says in a line that there isn't enough."""
        for words, statuses in COMMANDS.items():
            wanted = self.run_limited(words, resource.RLIMIT_AS, resource.RLIM_INFINITY)
            for most in (*size(SOME_MEGABYTES, FEW_MEGABYTES), ENOUGH):
                found = self.run_limited(words, resource.RLIMIT_AS, most * MEGABYTE)
                status, output, errors = found
                is_short = status in statuses and output == b"" and len(errors) == 1
                is_right = found == wanted or is_short and most < ENOUGH
                self.row(is_right, f"{words[0]} with {most} MB: {found!r:.600}")

    def test_inventory(self):
        """The inventory says in a line that there isn't the memory for what it loads, or for its
        processes, and ends."""
        interpreter = with_dask()
        if interpreter is None:
            self.lack("Dask isn't there")
        words = [interpreter, "-B", "-m", "certpath.inventory", BUNDLE, "--anchors", ROOT_DER, *AT,
                 "--workers", "1", "--out", os.path.join(self.room, "table")]
        for most in FEW_FOR_DASK:
            path = os.path.join(repo.TOP, "python")
            found = self.ran(words, resource.RLIMIT_AS, most * MEGABYTE, PYTHONPATH=path)
            self.same(f"inventory with {most} MB", found, NO_MEMORY_FOR_DASK)
        found = self.ran(words, resource.RLIMIT_AS, SOME_FOR_DASK * MEGABYTE, PYTHONPATH=path)
        self.row(found == NO_MEMORY_FOR_DASK or found[0] == 0 and b" 4 rows " in found[1] and not found[2],
                 f"inventory with {SOME_FOR_DASK} MB: {found!r:.600}")

    def test_loading(self):
        """What comes of a lack of memory while a module is loaded is said as that, and nothing else
        is."""
        words = [sys.executable, "-ISc",
                 LOADING.format(tools=os.path.join(repo.TOP, "tools"), room=self.room)]
        for source, *wanted in LOADS:
            sources.put(os.path.join(self.room, "loads.py"), f"{source}\n".encode())
            for most, (status, said) in zip((ENOUGH * MEGABYTE, resource.RLIM_INFINITY), wanted):
                its, _, errors = self.ran(words, resource.RLIMIT_AS, most)
                is_said = errors == [said] if said else errors[:1] == [TRACEBACK]
                self.row(its == status and is_said, f"{source}, {most}: {its} {errors}")

    def test_large_files(self):
        """A file that is larger than the memory is said to be so."""
        with open(os.path.join(self.room, "large"), "wb") as file:
            # (an item, which no header ends)
            file.write(b"\x30\x84\x05\xff\xff\xfa")
            file.truncate(LARGE)
        for words, status, said in ON_LARGE:
            found = self.run_limited(words, resource.RLIMIT_AS, LITTLE)
            self.same(f"{words[0]} on a large file", found, (status, b"", [said]))
        words = (*ON_LARGE[2][0], "--json")
        status, output, errors = self.run_limited(words, resource.RLIMIT_AS, LITTLE)
        self.same("verify --json on a large file", (status, b'"status": 6' in output, errors),
                  (6, True, ["verify: out of memory"]))

    def peak(self, octets):
        """The most memory of ./vouch on a file of these octets, in octets."""
        sources.put(os.path.join(self.room, "items"), octets)
        words = [*script("vouch"), "items", ROOT_DER]
        ran = subprocess.run([sys.executable, "-ISc", PEAK, "out", *words], cwd=self.room,
                             env=self.environment(), stdin=subprocess.DEVNULL,
                             stdout=subprocess.PIPE, stderr=subprocess.DEVNULL, timeout=SECONDS)
        self.same("./vouch on items of two octets", ran.returncode, 0)
        return int(ran.stdout) * 1024

    def test_small_items(self):
        """Items that are neither certificate nor list take a few octets each, and no object."""
        count = size(1_000_000, 250_000)
        beside = self.peak(b"\x30\x00" * count) - self.peak(b"")
        self.row(beside < OF_ITEM * count + 2 * MEGABYTE, f"{count} items take {beside} octets")

    def test_evidence(self):
        """Evidence is whole, or isn't there: it is written beside its file, with its rights."""
        words, file = ("certpath", *PATHS, "--evidence"), os.path.join(self.room, "evidence")

        def run(name, most=MEGABYTE):
            return self.run_limited((*words, name), resource.RLIMIT_FSIZE, most)

        cut = (7, b"", ["cannot write evidence"])
        self.same("evidence with `ulimit -f`", run("evidence", 20), cut)
        self.same("what is left of it", os.listdir(self.room), ["temporary"])
        sources.put(file, b"as it was", 0o600)
        self.same("evidence in the place of another", run("evidence", 20), cut)
        self.same("what is there", sources.octets_of(file), b"as it was")
        self.same("evidence that is whole", run("evidence")[0], 1)
        its = (sources.octets_of(file)[:20], os.stat(file).st_mode & 0o777)
        self.same("what is there then", its, (b"certpath evidence 1\n", 0o600))
        self.same("files then", sorted(os.listdir(self.room)), ["evidence", "temporary"])
        link = os.path.join(self.room, "linked")
        os.symlink("evidence", link)
        self.same("evidence by a link", (run("linked")[0], os.path.islink(link)), (1, True))
        self.same("no folder", run("none/evidence"), (4, b"", ["cannot create none/evidence"]))
        self.same("a device", run(os.devnull)[0], 1)

    def stopped(self, title, words, number, begun, end, **environment):
        """A run that is asked to end when it has begun what it does: it ends at once, and so does
        all that it started."""
        child = subprocess.Popen([*INTERRUPTIBLE, *words], cwd=self.room,
                                 env=self.environment(**environment), stdin=subprocess.DEVNULL,
                                 stdout=subprocess.PIPE, stderr=subprocess.PIPE)
        has_begun, processes = wait_for(lambda: begun(child)), self.processes()
        asked = time.monotonic()
        child.send_signal(number)
        errors = child.communicate(timeout=SECONDS)[1]
        wait_for(lambda: not any(map(is_there, processes)) or time.monotonic() > asked + SOON)
        is_soon = time.monotonic() < asked + SOON
        left = [it for it in processes if is_there(it)]
        its = (has_begun, child.returncode, is_soon, left, errors)
        self.same(title, its, (True, end, True, [], b""))
        self.same(f"{title}: files", os.listdir(self.temporary), [])

    def processes(self):
        """The processes of the program that waits."""
        path = os.path.join(self.room, "tools", "openssl.began")
        return sources.octets_of(path).decode().split() if os.path.exists(path) else []

    def test_signals(self):
        """A signal ends a script and its programs at once: while it waits for one, and within a
        call of a library."""
        self.need("openssl")
        tools, twelve = os.path.join(self.room, "tools"), os.path.join(self.room, "all.p12")
        words = ["openssl", "pkcs12", "-export", "-nokeys", "-in", FULL, "-passout", "pass:"]
        subprocess.run([*words, "-out", twelve], check=True)
        sources.put(os.path.join(tools, "openssl"), WAITING.encode(), 0o755)
        path, words = f"{tools}{os.pathsep}{os.environ['PATH']}", [*script("verify"), twelve]
        for number in (signal.SIGTERM, signal.SIGINT, signal.SIGHUP, signal.SIGKILL):
            count = len(self.processes())
            title = f"{number.name} while openssl unpacks"
            self.stopped(title, [*words, "--anchors", ROOT], number,
                         lambda _: len(self.processes()) > count, -number, PATH=path)
        for number in (signal.SIGTERM, signal.SIGINT):
            self.stopped(f"{number.name} within a call of a library", endless(), number,
                         lambda child: child.stdout.readline() == b"called\n", -number)
        for name, words in (("vouch", ("waits", ROOT_DER)), ("bundle", ("waits",))):
            self.waits()
            self.stopped(f"{name} waits for a file", [*script(name), *words], signal.SIGTERM,
                         self.has_opened, -signal.SIGTERM)

    def waits(self):
        """A file that nobody writes, so that who reads it waits."""
        path = os.path.join(self.room, "waits")
        if not os.path.exists(path):
            os.mkfifo(path)

    def has_opened(self, _):
        """Whether somebody reads the file that nobody writes: once that is so, it is opened."""
        try:
            writer = os.open(os.path.join(self.room, "waits"), os.O_WRONLY | os.O_NONBLOCK)
        except OSError:
            return False
        self.addCleanup(os.close, writer)
        return True

    def test_signals_to_evidence(self):
        """A run that writes evidence leaves nothing of it."""
        words = ["paths", "waits", ROOT_DER, VOUCHERS, *AT, "--evidence", "evidence"]
        for number in (signal.SIGTERM, signal.SIGINT):
            self.waits()
            title = f"{number.name} to paths --evidence"
            command = [*script("certpath"), *words]
            self.stopped(title, command, number, self.has_opened, 128 + number)
            os.remove(os.path.join(self.room, "waits"))
            self.same(f"{number.name}: what is left", os.listdir(self.room), ["temporary"])

    def test_seconds(self):
        """`ulimit -t` ends a run that computes for long; no file of it stays."""
        evidence = ("certpath", "paths", "/dev/zero", *PATHS[2:], "--evidence", "evidence")
        for title, words in (("verify", endless()), ("path", on_script(READS_ON)),
                             ("paths --evidence", on_script(evidence))):
            status, output, _ = self.ran(words, resource.RLIMIT_CPU, 1)
            # (a script says of its program's end what a shell would)
            has_ended = status in ENDED_BY_TIME
            is_right = has_ended and output in (b"", b"called\n")
            self.row(is_right, f"{title}, `ulimit -t 1`: {status} {output!r:.100}")
            self.same(f"{title}, `ulimit -t 1`: files", os.listdir(self.temporary), [])
        self.same("`ulimit -t 1`: what is left", os.listdir(self.room), ["temporary"])

    def test_timeout(self):
        """`timeout` ends a run at once, with status 124."""
        self.need("timeout")
        for title, words in (("verify", endless()), ("path", on_script(READS_ON))):
            begun = time.monotonic()
            status = self.ran(["timeout", "1", *words], resource.RLIMIT_CPU, SECONDS)[0]
            is_soon = time.monotonic() < begun + 1 + SOON
            self.same(f"{title} with `timeout 1`", (status, is_soon), (124, True))
        self.same("`timeout 1`: files", os.listdir(self.temporary), [])

    def test_limit(self):
        """`--limit` bounds what is read of an item that is larger."""
        words = ("certpath", "path", BUNDLE, ROOT_DER, VOUCHERS, "--target", "0", *AT, *FEW)
        status, output, _ = self.run_limited(words, resource.RLIMIT_CPU, SECONDS)
        self.same("path --limit 800", (status, output.startswith(b"end fault 0\n")), (3, True))

    def test_iterations(self):
        """All files of a run have the same seconds, however many iterations each asks for."""
        self.need("openssl")
        folder, file = os.path.join(self.room, "many"), os.path.join(self.room, "one.p12")
        sources.put(file, MANY_ITERATIONS)
        many = [os.path.join(folder, f"{it}.p12") for it in range(MANY_FILES)]
        for it in many:
            sources.put(it, MANY_ITERATIONS)
        for title, words in (("a file", (file, "--anchors", ROOT)),
                             ("files", (*many, "--anchors", ROOT)),
                             ("a folder of anchors", (FULL, "--anchors", folder))):
            for seconds in size((1, 3), (1,)):
                words_of = ("verify", *words, *DAY, "--seconds", str(seconds))
                before = seconds_of_children()
                status, output, errors = self.run_limited(words_of, resource.RLIMIT_CPU, SECONDS)
                taken = seconds_of_children() - before
                its = (status, output, [it.startswith(TOO_LONG.format(seconds)) for it in errors])
                self.same(f"{title}, --seconds {seconds}", its, (9, b"", [True]))
                self.row(taken < seconds + SOON_OVER, f"{title}: {taken} s of {seconds}")

    def test_output(self):
        """`ulimit -f`, as a full disk, is said if the output isn't whole, or no program can be
        given its files."""
        asked = (FULL, LIST, "--anchors", ROOT, *DAY)
        its = (*asked, "--html", "page.html")
        for words, most, ends, said in (
                (("bundle", FULL, LIST), 20, 7, "cannot write"),
                (("vouch", BUNDLE, ROOT_DER), 20, 7, "cannot write"),
                (("certpath", *PATHS), 20, 7, "cannot write"),
                (("verify", *asked), 20, 70, f"verify: cannot hand on 2174 octets: {TOO_LARGE}"),
                (("verify", *its), OF_FILES, 7,
                 f"verify: page.html: cannot write it ({TOO_LARGE})")):
            with open(os.path.join(self.room, "output"), "wb") as out:
                command, kind = [*script(words[0]), *words[1:]], resource.RLIMIT_FSIZE
                status, _, errors = self.ran(command, kind, most, out)
            self.same(f"{words} with `ulimit -f`", (status, errors[-1:]), (ends, [said]))
        left = [name for name in os.listdir(self.room) if name.startswith("page")]
        self.same("what is left of the page", left, [])
