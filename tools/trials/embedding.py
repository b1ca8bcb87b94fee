"""Tries the libraries of dist/ from outside: C programs against the header, by the compiler of the
machine and under its sanitizers, and the examples of examples/."""
import os
import re
import shutil
import subprocess
import sys
import tempfile

from dev import items
from gate import library
from install import contents
from program import repo
from trials import bundling, hosts, paths
from trials.count import Trial, size

# How many changed inputs the calls get under the sanitizers.
CHANGED, FEW = "100000", "10000"
# How often each of eight threads makes all calls, on each item of the samples.
ROUNDS = "100", "10"
STRICT = ["-std=c99", "-Wall", "-Wextra", "-Werror", "-O1"]
SANITIZERS = ["-g", "-fsanitize=address,undefined", "-fno-sanitize-recover=all"]
FOLDER = os.path.join("tools", "trials", "embedding")


def wrapped(*names):
    """Words for the linker, by which the calls of functions go to `__wrap_` before their names."""
    return [f"-Wl,--wrap={it}" for it in names]


# What the library asks the C library for memory by goes to the program that counts it.
COUNTING = wrapped("malloc", "realloc", "free")
# The faults of embedding/faults.c: which program sees each, and what it says.
FAULTS = (
    ("READS_PAST", "guards", "AddressSanitizer: SEGV"),
    ("READS_EMPTY", "guards", "AddressSanitizer: SEGV"),
    ("WRITES_ITEM", "guards", "AddressSanitizer: SEGV"),
    ("WRITES_PAST", "guards", "AddressSanitizer: SEGV"),
    ("WRITES_SMALL", "guards", "field: a buffer was written"),
    ("KEEPS", "guards", "threads: another answer in a thread"),
    ("LEAKS", "memory", "class, request 1 refused: memory is left over"),
    ("HIDES_REFUSAL", "memory", "class, request 1 refused: another answer"),
    ("WRITES_REFUSED", "memory", "class, request 1 refused: something was written"),
    ("READS_PAST", "changed", "AddressSanitizer: heap-buffer-overflow"),
    ("OVERFLOWS", "changed", "runtime error: signed integer overflow"),
    ("OTHER_STATUS", "changed", "changed octets"),
)
COUNTED = re.compile(r"(\d+) passed, (\d+) failed\s*\Z")
BUNDLE, ANCHORS = os.path.join("samples", "bundle.der"), os.path.join("samples", "root.der")
# The worked cases of crates/rows_check/stdin on which memory is refused: what they have between
# them is a certificate of version 1 and one of version 3, a list and what is almost one, a path of
# five, key identifiers and names.
REFUSED = ("an anchor vouches for itself, at the last moment", "an extension that is judged",
           "revoked by a list", "a list that is other revokes nothing", "a later count is taken",
           "the key that is named")
# A host that is none: the status of the calls, and that of the program.
BAD_HOST, NOT_ASKED = 9, 2
HEADERS = "/usr/include/openssl/evp.h"
# What reports are asked for on the samples: hosts, and purposes as the program takes them.
HOSTS = ("", "www.example.test", "WWW.EXAMPLE.TEST.", "example.test", "192.0.2.1", "[2001:db8::1]")
PURPOSES = ("", "serverAuth", "sslclient", "1.3.6.1.5.5.7.3.9", "1.3.6.1.4.1.311.10.3.4", "2.5.29.37.0")
# Of the chains that the trial hosts.py has, one of so many.
SAMPLED = 1, 8
# A common name that would print a line of its own, clear the screen, and turn what follows it.
FORGED = "a\n1 certificate: CN=forged, O=b\x1b[2J\u202e"


def at(*parts):
    return os.path.join(repo.TOP, *parts)


def ran(words, **how):
    return subprocess.run(words, cwd=repo.TOP, stdin=subprocess.DEVNULL, text=True, errors="replace",
                          stdout=subprocess.PIPE, stderr=subprocess.STDOUT, **how)


def compiled(count, room, source, flags, libraries):
    """The program of a source, none where the compiler refuses it."""
    name = os.path.basename(source).partition(".")[0] + str(len(flags))
    program = os.path.join(room, name)
    words = ["cc", *STRICT, *flags, "-I", at("include"), at(source), "-o", program, *libraries]
    done = ran(words)
    count.row(done.returncode == 0, f"cc refuses {source}:\n{done.stdout}")
    return program if done.returncode == 0 else None


def tried(count, program, *words):
    """Runs a program that counts its cases; each is a row."""
    if program is None:
        return
    done = ran([program, *words])
    counted = COUNTED.search(done.stdout)
    if counted is None or bool(done.returncode) != bool(int(counted[2])):
        count.row(False, f"{program} ended with status {done.returncode}:\n{done.stdout[-2000:]}")
        return
    passed, failed = map(int, counted.groups())
    for number in range(passed + failed):
        count.row(number >= failed, f"{program}:\n{done.stdout[-2000:]}")


def octets_of(path):
    """The octets of a file."""
    with open(path, "rb") as file:
        return file.read()


def made(room, name, octets):
    """A file of the octets."""
    path = os.path.join(room, name)
    with open(path, "wb") as to:
        to.write(octets)
    return path


def pairs_file(room, lines=None):
    """Vouchers, those of the samples where none are given, as digests, 64 octets a pair."""
    text = repo.read("samples/vouchers.txt") if lines is None else lines
    return made(room, "vouchers.bin", bytes.fromhex(text))


def any_file(room):
    """A file of PEM with a block of PKCS #7, whose items are loaded, and with what is left out."""
    lists = [octets_of(at("samples", "list.der"))]
    return made(room, "any.pem", bundling.pem(bundling.signed_data([bundling.LEAF, bundling.REQUEST], lists),
                                              "PKCS7") + bundling.pem(bundling.KEY, "PRIVATE KEY"))


def refused_memory(count, room, program):
    """Refuses memory to each call on the samples and on worked cases."""
    some = any_file(room)
    tried(count, program, at(BUNDLE), at(ANCHORS), pairs_file(room), "2027-01-01", some)
    octets, cases = paths.worked()
    for case in map(cases.get, REFUSED):
        lines = paths.vouchers((octets[key], octets[item]) for key, item in case.vouching).decode()
        files = [made(room, name, b"".join(octets[it] for it in names))
                 for name, names in (("bundle", case.items), ("anchors", case.anchors))]
        tried(count, program, *files, pairs_file(room, lines), case.moment.partition("T")[0], some)


def source(name):
    return os.path.join(FOLDER, name)


def c_programs(count, room, number):
    """The C programs, against the static library, under the sanitizers too."""
    static = at(library.STATIC)
    files = [at(BUNDLE), at(ANCHORS), pairs_file(room)]
    for flags in ([], SANITIZERS):
        for name in ("calls.c", "items.c"):
            tried(count, compiled(count, room, source(name), flags, [static]), *files)
    tried(count, compiled(count, room, source("changed.c"), SANITIZERS, [static]), *files, number)
    guarded = compiled(count, room, source("guards.c"), [*SANITIZERS, "-pthread"], [static])
    tried(count, guarded, *files, size(*ROUNDS))
    refused_memory(count, room,
                   compiled(count, room, source("memory.c"), SANITIZERS, [*COUNTING, static]))


def c_faults(count, room):
    """The C programs see faults that are put between them and the library."""
    calls = wrapped("certpath_class", "certpath_field", "certpath_times")
    numbers = dict(re.findall(r"(?m)^    ([A-Z_]+) = (\d+)", repo.read(source("faults.c"))))
    count.same("the faults that are tried", {it[0] for it in FAULTS}, set(numbers))
    files = [at(BUNDLE), at(ANCHORS), pairs_file(room)]
    words = {"guards": [*files, "10"], "changed": [*files, "200"],
             "memory": [*files, "2027-01-01", any_file(room)]}
    objects = {it: compiled(count, room, source(f"{it}.c"), [*SANITIZERS, "-c"], []) for it in words}
    for fault, name, said in FAULTS:
        flags = [*SANITIZERS, "-pthread", f"-DFAULT={numbers[fault]}"]
        program = objects[name] and compiled(
            count, room, source("faults.c"), flags,
            [objects[name], *calls, *(COUNTING if name == "memory" else []), at(library.STATIC)])
        if program:
            done = ran([program, *words[name]])
            count.row(done.returncode != 0 and said in done.stdout,
                      f"{name} with {fault}, status {done.returncode}:\n{done.stdout[-2000:]}")


# A comment of the header, with what is declared after it; and a call.
DECLARED = re.compile(r"(?m)^/\*\n((?: \*.*\n)+) \*/\n((?:(?:#define|int32_t|  ).*\n|\n)+)")
CALL = re.compile(r"\bint32_t (certpath_\w+)\(([^;]*)\);")
# The programs that try each call of the header: bad input, between guard pages, refused memory.
PROGRAMS = (("calls.c", "items.c"), ("guards.c",), ("memory.c",))


def header_pointers(count):
    """The comment of each call says which of its pointers may be null, which are aligned and may not
    overlap; and there are programs that try each call."""
    header = repo.read("include/certpath.h")
    calls, said = dict(CALL.findall(header)), {}
    for comment, declarations in DECLARED.findall(header):
        _, _, pointers = comment.replace("\n *", "").partition(" Pointers: ")
        said.update((name, pointers) for name, _ in CALL.findall(declarations) if pointers)
    count.same("calls whose pointers the header has", sorted(said), sorted(calls))
    for name, pointers in said.items():
        missing = [it for it in re.findall(r"\*(\w+)", calls[name]) if f"`{it}`" not in pointers]
        count.same(f"{name}: pointers of which the header says nothing", missing, [])
        lacking = [it for it in ("only if", "never", "aligned", "overlap") if it not in pointers]
        count.same(f"{name}: what the header doesn't say of its pointers", lacking, [])
    for names in PROGRAMS:
        text = "".join(map(repo.read, map(source, names)))
        untried = [it for it in calls if not re.search(rf"\b{it}\b", text)]
        count.same(f"calls that {', '.join(names)} leave out", untried, [])


# A program that prints the size of each structure, by its name in Python's package.
SIZES = """#include "certpath.h"
#include <stdio.h>
int main(void)
{
%s
    return 0;
}
"""
STRUCTURES = {
    "Span": "span", "Framed": "framed", "LeftOut": "left_out", "Loaded": "loaded",
    "Moment": "moment", "Validity": "validity", "Extent": "extent", "Contents": "contents",
    "ExtensionRow": "extension", "ExtensionSizes": "extension_sizes", "QuestionRow": "question",
    "Settings": "settings", "AnswerRow": "answer", "Report": "report",
}


def structures(count, room):
    """The structures of the Python package have the sizes that they have in C."""
    lines = (f'    printf("{name} %zu\\n", sizeof(certpath_{it}));' for name, it in STRUCTURES.items())
    source = made(room, "sizes.c", (SIZES % "\n".join(lines)).encode())
    program = compiled(count, room, source, [], [])
    if not program:
        return
    script = ("import ctypes, inspect, certpath.library as it\n"
              "for name, found in inspect.getmembers(it, inspect.isclass):\n"
              "    if issubclass(found, ctypes.Structure): print(name, ctypes.sizeof(found))\n")
    of_python = ran([sys.executable, "-c", script], env=with_package()).stdout.splitlines()
    count.same("sizes of structures", sorted(ran([program]).stdout.splitlines()), sorted(of_python))


def forged_file(room):
    """A file of one certificate, of version 1, whose names are FORGED."""
    value = items.element(b"\x0c", FORGED.encode())
    name = f"30(31(30(06(550403){value.hex()})))"
    dates = "30({}{})".format(*items.DATES)
    key = f"30({items.ALGORITHM}03(00))"
    signed = f"30(02(01){items.ALGORITHM}{name}{dates}{name}{key})"
    return made(room, "forged.der", items.octets(f"30({signed}{items.ALGORITHM}03(00))"))


def is_one_line(count, words, which, **how):
    """An example shows a forged name on one line, which has no octet that a terminal obeys."""
    done = ran(words, **how)
    lines = done.stdout.split("\n")
    shown = [it for it in lines if re.match(r"\d+ certificate: ", it)]
    count.row(len(shown) == 1 and shown[0].startswith(r"0 certificate: CN=a\0A1 certificate: CN=forged")
              and all(map(str.isprintable, lines)), f"{which}, a forged name:\n{done.stdout!r:.2000}")


def printed(command, files, moment, host, purpose):
    """What the program prints of files, and its status."""
    words = [] if command == "paths" else ["--target", "0"]
    words += [f"--host={host}"] if host and command != "paths" else []
    words += [f"--purpose={purpose}"] if purpose else []
    done = ran([sys.executable, "-IS", at("certpath"), command, *files, "--at",
                f"{moment}T00:00:00", *words])
    return done.returncode, done.stdout


def same_reports(count, program, files, moment, host, purpose):
    """Each call writes what the program prints of the same files, the host and the purpose."""
    identifier = hosts.purposes.identifier_of(purpose).hex() if purpose else ""
    for command in ("path", "why", "paths"):
        status, said = printed(command, files, moment, host, purpose)
        done = ran([program, command, *files, moment, "0", host, identifier])
        what = f"{command} for {host!r} and {purpose!r}"
        if status == NOT_ASKED:
            count.same(f"{what}, refused", (done.returncode, done.stdout), (BAD_HOST, ""))
        else:
            count.same(what, (done.returncode, done.stdout), (0, said))


def reports_in_c(count, room):
    """The reports on the samples, and on chains of the trial hosts.py."""
    source = os.path.join("tools", "trials", "embedding", "reports.c")
    program = compiled(count, room, source, SANITIZERS, [at(library.STATIC)])
    if not program:
        return
    files = [at(BUNDLE), at(ANCHORS), at("samples", "vouchers.txt")]
    for host in HOSTS:
        for purpose in PURPOSES:
            same_reports(count, program, files, "2027-01-01", host, purpose)
    maker = hosts.Maker()
    for row in [*hosts.host_rows(), *hosts.purpose_rows()][::size(*SAMPLED)]:
        octets = maker.files(maker.chain(row.chain, row.common_name))
        files = [made(room, *it) for it in zip(("bundle", "anchors", "vouchers"), octets)]
        if row.host != "":
            same_reports(count, program, files, "2026-12-01", row.host or "", row.purpose or "")


def c_example(count, room):
    """The example in C, against the shared library: its vouchers are those of the samples, it
    writes none over another file, and names stay on their lines."""
    source = os.path.join("examples", "c", "questions.c")
    # (a program loads it by its SONAME)
    shared = shutil.copy(at(library.SHARED), os.path.join(room, contents.soname()))
    program = compiled(count, room, source, [], [shared, "-lcrypto", f"-Wl,-rpath,{room}"])
    if program:
        vouchers = os.path.join(room, "vouchers.txt")
        done = ran([program, at(BUNDLE), at(ANCHORS), vouchers, "2027-01-01"])
        # (the bundle has a list that revokes its first certificate)
        count.row(done.returncode == 0 and done.stdout.endswith("\nno path\n"),
                  f"{source}:\n{done.stdout}")
        count.row(same_lines(vouchers), f"{source}: other vouchers than samples/vouchers.txt")
        again = ran([program, at(BUNDLE), at(ANCHORS), vouchers])
        count.row(again.returncode == 1 and same_lines(vouchers), f"{source}: writes over a file")
        is_one_line(count, [program, forged_file(room), at(ANCHORS), os.path.join(room, "none")], source)
        chain = made(room, "chain.der", b"".join(
            octets_of(it) for it in (at("samples", "leaf.der"), at("samples", "intermediate.der"))))
        done = ran([program, chain, at(ANCHORS), os.path.join(room, "others.txt"), "2027-01-01"])
        count.row(done.stdout.endswith("\npath: item 0, item 1, anchor 0\n"),
                  f"{source}:\n{done.stdout}")
        text = ran([program, at("README.md"), at(ANCHORS), os.path.join(room, "none")])
        count.row(text.returncode == 1, f"{source}: text is taken for items:\n{text.stdout}")


def same_lines(path):
    """Whether a file has the lines of samples/vouchers.txt, in whatever order."""
    with open(path, encoding="ascii") as file:
        return sorted(set(file)) == repo.read("samples/vouchers.txt").splitlines(keepends=True)


def python_example(count, room):
    """The example in Python, which makes the vouchers of the samples."""
    paths = with_package()
    example, vouchers = at("examples", "python", "questions.py"), os.path.join(room, "python.txt")
    with open(vouchers, "w", encoding="ascii") as to:
        done = subprocess.run([sys.executable, example, at(BUNDLE), at(ANCHORS)], env=paths,
                              stdout=to, stderr=subprocess.PIPE, text=True)
    count.row(done.returncode == 0 and same_lines(vouchers), f"{example}:\n{done.stderr[-2000:]}")
    is_one_line(count, [sys.executable, example, forged_file(room), at(ANCHORS)], example, env=paths)
    for words in ([], [at(BUNDLE)], [at("README.md"), at(ANCHORS)], [at("none"), at(ANCHORS)]):
        done = ran([sys.executable, example, *words], env=paths)
        count.row(done.returncode == 1 and done.stdout.count("\n") == 1,
                  f"{example} {words}:\n{done.stdout[-2000:]}")
    done = ran([sys.executable, "-IS", example, at(BUNDLE), at(ANCHORS)])
    said = "questions.py: No module named 'certpath'; its first lines say how it is run\n"
    count.same(f"{example} without the package", (done.returncode, done.stdout), (1, said))


# The lines of examples/rust and examples/go on samples/fullchain.pem.
LINES = ("certificate C=CZ, O=Example, CN=www.example.test, from 2026-11-22\n"
         "certificate C=CZ, O=Example, CN=Example Intermediate, from 2026-11-22\n")


def shows_items(count, program, room, which):
    """An example shows the samples, from PEM and DER, keeps a forged name on its line, and says
    that a key is left out."""
    done = ran([program, at("samples", "fullchain.pem")])
    count.row(done.stdout == LINES, f"{which}:\n{done.stdout[-2000:]}")
    done = ran([program, at("samples", "leaf.der"), at("samples", "intermediate.der")])
    count.row(done.stdout == LINES, f"{which}, DER:\n{done.stdout[-2000:]}")
    done = ran([program, forged_file(room)])
    count.row(done.stdout.count("\n") == 1 and r"CN=a\0A1 certificate: CN=forged" in done.stdout,
              f"{which}, a forged name:\n{done.stdout!r:.2000}")
    done = ran([program, at("samples", "keys", "leaf.pem")])
    count.row("left out" in done.stdout, f"{which}, a key:\n{done.stdout[-2000:]}")
    done = ran([program, at("none")])
    count.row(done.returncode == 1, f"{which}, no file:\n{done.stdout[-2000:]}")


def rust_example(count, room):
    """The crate in examples/rust builds offline, and its example shows items."""
    env = {**os.environ, "CARGO_TARGET_DIR": os.path.join(room, "target")}
    folder = at("examples", "rust")
    for command in (["build", "--examples"], ["test", "--lib"]):
        done = subprocess.run(["cargo", *command, "--offline", "--locked"], cwd=folder, env=env,
                              stdin=subprocess.DEVNULL, text=True, stdout=subprocess.PIPE,
                              stderr=subprocess.STDOUT)
        count.row(done.returncode == 0, f"cargo {command[0]}:\n{done.stdout[-2000:]}")
    if done.returncode == 0:
        shows_items(count, os.path.join(room, "target", "debug", "examples", "show"), room, folder)


def go_example(count, room):
    """The program in examples/go builds without a network, and shows items."""
    folder, program = at("examples", "go"), os.path.join(room, "show")
    env = {**os.environ, "GOCACHE": os.path.join(room, "cache"), "GOPROXY": "off", "GOFLAGS": "",
           "GOPATH": os.path.join(room, "path"), "CGO_ENABLED": "1"}
    built = subprocess.run(["go", "build", "-o", program, "."], cwd=folder, env=env, text=True,
                           stdin=subprocess.DEVNULL, stdout=subprocess.PIPE,
                           stderr=subprocess.STDOUT)
    count.row(built.returncode == 0, f"go build:\n{built.stdout[-2000:]}")
    if built.returncode == 0:
        shows_items(count, program, room, folder)


def with_package():
    return {**os.environ, "PYTHONPATH": at("python"), "PYTHONDONTWRITEBYTECODE": "1"}


class Embedding(Trial):
    def in_room(self, tried, *words):
        with tempfile.TemporaryDirectory(prefix="embedding-") as room:
            tried(self, room, *words)

    def test_c(self):
        self.need("cc")
        self.in_room(c_programs, size(CHANGED, FEW))

    def test_c_faults(self):
        self.need("cc")
        self.in_room(c_faults)

    def test_header_pointers(self):
        header_pointers(self)

    def test_structures(self):
        self.need("cc")
        self.in_room(structures)

    def test_reports(self):
        self.need("cc")
        self.in_room(reports_in_c)

    def test_c_example(self):
        self.need("cc")
        if not os.path.exists(HEADERS):
            self.skipTest(f"examples/c: no headers of OpenSSL, {HEADERS}")
        self.in_room(c_example)

    def test_rust_example(self):
        if not shutil.which("cargo"):
            self.skipTest("examples/rust: cargo isn't installed")
        self.in_room(rust_example)

    def test_go_example(self):
        if not shutil.which("go"):
            self.skipTest("examples/go: go isn't installed")
        self.in_room(go_example)

    def test_python_example(self):
        if ran([sys.executable, "-c", "import cryptography"]).returncode:
            self.skipTest("examples/python: `cryptography` isn't installed")
        self.in_room(python_example)
