"""Refuses memory to the built programs: each request of a run in turn, until a run meets none.

`certpath` has to print what it prints with all its memory, or `out of memory` alone, with status 6.
The programs of rows call what no command does: a row has the outcome that it has with all memory,
or it says that memory is out, or the program ends so. Tests that are made for it pass, or end
because memory was refused to themselves. tools/trials/embedding/refuse.c does the refusing.
"""
import os
import re
import subprocess
import tempfile
from concurrent.futures import ThreadPoolExecutor
from typing import Callable, NamedTuple

from program import repo
from trials import paths, pieces
from trials.bundling import KEY, LEAF, SEVEN, pem
from trials.count import Trial

REFUSER = os.path.join("tools", "trials", "embedding", "refuse.c")
COMPILER = ["cc", "-std=c99", "-Wall", "-Wextra", "-Werror", "-O1", "-shared", "-fPIC"]
SECONDS, RUNS = 600, 4
OUT_OF_MEMORY = 6, b"", b"out of memory\n"
# How a program of rows ends over a row.
ROW_LOST = 1, b"Error: Kind(OutOfMemory)\n"
# The worked cases of crates/rows_check/stdin that the commands are tried on.
CASES = ("an anchor vouches for itself, at the last moment", "revoked by a list",
         "a list that is other revokes nothing", "a later count is taken", "the key that is named")
# How rows begin, and the octets of crates/rows_check/stdin that they end with.
ROWS = {
    "rows_cert": {"": ("A", "V", "M", "M_loose", "T_names_abcd"),
                  "keys:": ("T_names_abcd", "B_has_abcd")},
    "rows_x509": {"certificate certificate ": ("A", "V", "V_twice", "T_names_abcd"),
                  "list list ": ("M", "M_loose"),
                  "validator written ": ("A", "V_twice"),
                  "validator structure ": ("A", "V_twice"),
                  "validator chain ": ("V_twice",)},
}
# The stored rows of certificates that have every kind of extension that is parsed.
ALL_KINDS = re.compile(r"(?m)^walk (certificate 308201ca\w+)$")
# Tests that hold whatever is refused, by the crate; the gate leaves their programs.
TESTS = {
    "tests_asn1": ("any::cut_or_want_of_memory",),
    "tests_run": ("framing::answers_failed_once_memory_was_refused",),
}
# A test that passed, and one that ended because memory was refused to itself.
PASSED = re.compile(rb"test result: ok\s*\Z")
ENDED = re.compile(rb"error: (?:OutOfMemory|AllocError)\s+the test failed: its result gives")
# What a row says where memory is refused to its call, or to the reading before it; and the line of
# a row whose fields can't be written back, since memory is refused to what they are written into.
REFUSED = re.compile(rb"Failure\(OutOfMemory\)|refused|no certificate")
WRITTEN, UNWRITTEN = re.compile(rb"\n  written .*\n\Z"), b"\n  written nothing\n"


class Run(NamedTuple):
    """A program, its words, its input as the pieces that it reads one by one, and whether it is
    right with a request refused, by what it did with all its memory and what it does now."""
    title: str
    words: list
    pieces: tuple
    is_right: Callable


# ---- one run


def refuser(room):
    """The library that refuses, compiled."""
    library = os.path.join(room, "refuse.so")
    words = [*COMPILER, os.path.join(repo.TOP, REFUSER), "-o", library]
    subprocess.run(words, stdin=subprocess.DEVNULL, check=True)
    return library


def ran(trial, room, library, number):
    """Runs with the request of this number refused, none where it is 0. Gives whether there was
    such a request; and status, output and error."""
    told, tell = os.pipe()
    environment = {"LD_PRELOAD": library, "REFUSED": str(number), "REFUSED_TOLD": str(tell)}
    try:
        done = pieces.ran(trial.words, trial.pieces, SECONDS, cwd=room, env=environment,
                          pass_fds=[tell])
        os.close(tell)
        return os.read(told, 1) != b"", done
    finally:
        os.close(told)


def all_refusals(trial, room, library):
    """Refuses each request of a run in turn, and then one more than there are; gives for each
    whether the run is right, and what is said if not."""
    whole, found = ran(trial, room, library, 0)[1], []
    while True:
        number = len(found) + 1
        was_refused, now = ran(trial, room, library, number)
        is_right = trial.is_right(whole, now) if was_refused else now == whole and number > 1
        found.append((is_right, f"{trial.title}, request {number}: {now}, with all memory {whole}"))
        if not was_refused:
            return found


# ---- what is run


def is_command_right(whole, now):
    return now in (whole, OUT_OF_MEMORY)


def is_row_right(whole, now):
    """Whether a row has its outcome, or says that memory is out, or the program ended over it."""
    if now[0]:
        return (now[0], now[2]) == ROW_LOST and whole[1].startswith(now[1])
    row, _, outcome = now[1].rstrip(b"\n").partition(b" = ")
    is_refused = REFUSED.fullmatch(outcome) and whole[1].startswith(row + b" = ")
    return bool(is_refused) or now[1] in (whole[1], WRITTEN.sub(UNWRITTEN, whole[1]))


def is_test_right(_, now):
    said = now[1] + now[2]
    return bool(PASSED.search(said) if now[0] == 0 else ENDED.search(said))


def command_trials(program, room):
    """The commands on worked cases, and a certificate that comes in three pieces."""
    octets, cases = paths.worked()

    def made(name, content):
        with open(os.path.join(room, name), "wb") as file:
            file.write(content)
        return name

    def trial(title, words, parts=()):
        return Run(title, [program, *words], parts, is_command_right)

    for place, title in enumerate(CASES):
        case = cases[title]
        files = [made(f"{name}{place}", b"".join(octets[word] for word in names))
                 for name, names in (("bundle", case.items), ("anchors", case.anchors))]
        pairs = ((octets[key], octets[item]) for key, item in case.vouching)
        files.append(made(f"vouchers{place}", paths.vouchers(pairs)))
        for command in paths.PRINTED:
            words = paths.words_of(command, files, {"target": "0"}, case)
            yield trial(f"{command}, {title}", words)
        words, policy = paths.words_of("paths", files, {}, case), len(files) + 1
        yield trial(f"paths --evidence, {title}", [*words, "--evidence", "/dev/stdout"])
        evidence = f"evidence{place}"
        subprocess.run([program, *words, "--evidence", evidence], cwd=room, timeout=SECONDS,
                       stdin=subprocess.DEVNULL, stdout=subprocess.DEVNULL)
        yield trial(f"recheck, {title}", ["recheck", *files, evidence, *words[policy:]])
    one, case = octets["A"], cases[CASES[0]]
    parts = one[:1], one[1:40], one[40:]
    files = "/dev/stdin", "anchors0", "vouchers0"
    yield trial("frame, three pieces", ["frame", files[0]], parts)
    mixed = made("mixed", pem(LEAF) + pem(KEY, "PRIVATE KEY") + pem(SEVEN, "PKCS7"))
    yield trial("bundle, PEM and PKCS #7", ["bundle", mixed, "bundle0"])
    words = paths.words_of("path", files, {"target": "0"}, case)
    yield trial("path, three pieces", words, parts)


def row_trials(crate, program):
    """The rows of a program, a run each."""
    octets, _ = paths.worked()
    rows = {f"{front}{name}": f"{front}{octets[name].hex()}"
            for front, names in ROWS[crate].items() for name in names}
    if crate == "rows_x509":
        stored = ALL_KINDS.findall(repo.read("crates/rows_x509/stdin"))
        rows |= {f"all kinds, {place}": f"certificate {entry}" for place, entry in enumerate(stored)}
    for title, row in rows.items():
        yield Run(f"{crate}, {title}", [program], (f"{row}\n".encode(),), is_row_right)


def test_trials(crate):
    """The tests of a crate, none where the gate left no program of them here."""
    program = os.path.join(repo.TOP, "crates", crate, "out", f"{crate}_tests")
    for test in TESTS[crate] if os.access(program, os.X_OK) else ():
        yield Run(f"{crate}, {test}", [program, f"tests::{test}"], (), is_test_right)


class Memory(Trial):
    def setUp(self):
        self.need(COMPILER[0])

    def tried(self, *trials):
        """Each trial with all its refusals, each of which is a row."""
        with tempfile.TemporaryDirectory(prefix="memory-") as room, ThreadPoolExecutor(RUNS) as pool:
            library, made = refuser(room), [entry for of in trials for entry in of(room)]
            for rows in pool.map(lambda case: all_refusals(case, room, library), made):
                for row in rows:
                    self.row(*row)

    def test_commands(self):
        program = self.program()
        self.tried(lambda room: command_trials(program, room))

    def test_rows(self):
        made = {row: self.program(row) for row in ROWS}
        self.tried(*(lambda _, entry=row: row_trials(entry, made[entry]) for row in ROWS))

    def test_tests(self):
        trials = [trial for crate in TESTS for trial in test_trials(crate)]
        if not trials:
            self.skipTest("tests of tests_asn1 and tests_run with memory refused: no program of them, which ./test with rt leaves")
        self.tried(lambda _: trials)
