#!/usr/bin/env python3
"""Times the readers of this repository beside asn1-rs, der-parser and x509-parser, Go's crypto/x509
and OpenSSL, on the same octets, by turns; prints a table in Markdown.

    bench/peers/run.py [--ours CHECKOUT] [--crates FOLDER] [--keep FOLDER] [--turns N] [--only NAME]..
                       [--columns NAME].. [--small]

Ours are the programs bench_item and certpath_cli of a checkout, this one if none is named, started
directly: those that `rt` left in crates/NAME/out, else those that `./certpath --build` left in
out/programs and dist/. They aren't compared with the sources. The crates of Rust are those that
librust-x509-parser-dev of Debian and what it depends on put into /usr/share/cargo/registry, or into
FOLDER; they are built by cargo, which fetches nothing. Debian 12 hasn't that package. Go's program
needs `go`, that of OpenSSL a C compiler and libssl-dev. A cell is empty if its program can't be
built, or doesn't read so; standard error says which. With --keep programs and files are kept in a
folder, and taken from there.

Figures are medians of processor seconds of whole processes that read the file, over --turns rounds,
7 if it isn't given, in each of which every program runs once. `ratio` is ours over the column that
rows.txt names. Exit status 1 if a ratio is above the most that is named there; or if two programs
count otherwise. Rows without a ratio are counted on standard error. --small takes inputs that show
only that all programs read them, and --columns some of ours, rust, go and openssl.
"""
import argparse
import os
import shutil
import statistics
import subprocess
import sys
import tempfile
from typing import NamedTuple

sys.dont_write_bytecode = True
HERE = os.path.dirname(os.path.abspath(__file__))
TOP = os.path.dirname(os.path.dirname(HERE))
sys.path.insert(0, HERE)
import inputs

TURNS = 7
# The crates of Rust that are read beside ours, and the crates of ours: that of the readers, and that of `path`.
CRATES = ("asn1-rs", "der-parser", "x509-parser")
READERS, PROGRAM = "bench_item", "certpath_cli"
REGISTRY, GO_PACKAGE = "/usr/share/cargo/registry", "peer.go"
COLUMNS = ("ours", "rust", "go", "openssl")
HEADS = ("ours", "Rust", "Go", "OpenSSL")
PATH = ("--target", "0", "--at", "2026-12-01T00:00:00")
OFFLINE = """\
[source.crates-io]
replace-with = "debian"

[source.debian]
directory = "{}"
"""


class Row(NamedTuple):
    """A row: its name, which files are read, the word of each column, empty for none, the crate of
    Rust, the column that ours is compared with, and how large the ratio may be."""
    name: str
    given: str
    words: dict
    crate: str
    beside: str
    most: float


def rows():
    """The rows of rows.txt."""
    with open(os.path.join(HERE, "rows.txt"), encoding="ascii") as file:
        lines = [row for row in file.read().splitlines() if not row.startswith("#")]
    for line in lines:
        name, given, *words, crate, compared = (part.strip() for part in line.split("|"))
        beside, most = compared.split()
        yield Row(name, given, dict(zip(COLUMNS, words)), crate, beside, float(most))


def done(words, **how):
    """Whether a command ends well; what it says is shown if it doesn't."""
    ran = subprocess.run(words, stdin=subprocess.DEVNULL, stdout=subprocess.PIPE,
                         stderr=subprocess.STDOUT, text=True, check=False, **how)
    if ran.returncode:
        say(f"{' '.join(words[:2])}: {ran.stdout[-1000:]}")
    return ran.returncode == 0


def say(text):
    print(f"peers: {text}", file=sys.stderr, flush=True)


def in_registry(registry):
    """The crates of a registry that are read beside ours, each with its version."""
    names = sorted(os.listdir(registry)) if os.path.isdir(registry) else []
    return [f"{crate} {name.removeprefix(crate)[1:]}" for crate in CRATES for name in names
            if name.startswith(f"{crate}-") and name.removeprefix(crate)[1:2].isdigit()]


def of_rust(room, registry):
    """Builds the program of Rust; whether it is there."""
    there = {entry.split()[0] for entry in in_registry(registry)}
    missing = [*(crate for crate in CRATES if crate not in there), *(() if shutil.which("cargo") else ("cargo",))]
    if missing:
        say(f"no column of Rust: {', '.join(missing)} isn't there")
        return False
    folder, target = os.path.join(room, "rust-sources"), os.path.join(room, "rust-target")
    shutil.copytree(os.path.join(HERE, "rust"), folder, dirs_exist_ok=True)
    os.makedirs(os.path.join(folder, ".cargo"), exist_ok=True)
    with open(os.path.join(folder, ".cargo", "config.toml"), "w", encoding="utf-8") as file:
        file.write(OFFLINE.format(os.path.abspath(registry)))
    words = ["cargo", "build", "--release", "--offline", "--target-dir", target]
    if not done(words, cwd=folder, env={**os.environ, "CARGO_HOME": os.path.join(room, "cargo")}):
        return False
    shutil.copy(os.path.join(target, "release", "peer"), os.path.join(room, "rust"))
    return True


def of_go(room):
    if not shutil.which("go"):
        say("no column of Go: go isn't on the path")
        return False
    cache = os.path.join(room, "go-cache")
    words = ["go", "build", "-o", os.path.join(room, "go"), os.path.join(HERE, "go", GO_PACKAGE)]
    return done(words, env={**os.environ, "GOCACHE": cache, "GOFLAGS": "-mod=mod", "GO111MODULE": "off"})


def of_openssl(room):
    compiler = next((name for name in ("cc", "gcc", "clang") if shutil.which(name)), None)
    if not compiler:
        say("no column of OpenSSL: no C compiler is on the path")
        return False
    return done([compiler, "-O2", "-o", os.path.join(room, "openssl"), os.path.join(HERE, "c", "peer.c"), "-lcrypto"])


def first_of(*places):
    return next(filter(os.path.exists, places), None)


def of_ours(ours):
    """The programs of ours: that of the readers, and the one that looks for a path; none for one that isn't there."""
    def proved(crate):
        return os.path.join(ours, "crates", crate, "out", crate)
    found = {"ours": first_of(proved(READERS), os.path.join(ours, "out", "programs", READERS)),
             "path": first_of(proved(PROGRAM), os.path.join(ours, "dist", "certpath"))}
    if not found["ours"]:
        say(f"no readers of ours: {READERS} isn't built")
    return found


def programs(room, ours, registry, columns):
    """The path of each column's program, built if it isn't there yet, and of the one of ours that looks
    for a path; none for one that can't be built, or isn't among the columns."""
    builds = {"rust": lambda: of_rust(room, registry), "go": lambda: of_go(room), "openssl": lambda: of_openssl(room)}
    found = of_ours(ours) if "ours" in columns else {"ours": None, "path": None}
    for column, build in builds.items():
        path = os.path.join(room, column)
        is_there = column in columns and (os.path.exists(path) or build())
        found[column] = path if is_there else None
    return found


def first_line(*words):
    """The first line that a program prints, none if it can't be asked."""
    try:
        printed = subprocess.run(words, stdin=subprocess.DEVNULL, capture_output=True, text=True, check=True).stdout
    except (OSError, subprocess.CalledProcessError):
        return ""
    return printed.partition("\n")[0]


def versions(found, ours, registry):
    """What is compared: the programs of ours, the crates of Rust, and the versions of Go and OpenSSL."""
    said = [os.path.relpath(path, ours) for path in (found["ours"], found["path"]) if path]
    said += in_registry(registry) if found["rust"] else []
    said += [first_line("go", "version")] if found["go"] else []
    return [*said, *([first_line("openssl", "version")] if found["openssl"] else [])]


def command(row, column, found, files):
    """The words of a run; none if the column is empty."""
    word = row.words[column]
    if column == "ours" and word == "path":
        return [found["path"], word, *files, *PATH] if found["path"] else None
    return [found[column], word, *files] if word and found[column] else None


def measured(words):
    """The processor seconds of a run, and what it prints; none, and its last line of errors, if it fails."""
    with tempfile.TemporaryFile() as out, tempfile.TemporaryFile() as errors:
        child = subprocess.Popen(words, stdin=subprocess.DEVNULL, stdout=out, stderr=errors)
        _, status, usage = os.wait4(child.pid, 0)
        child.returncode = os.waitstatus_to_exitcode(status)
        printed = errors if child.returncode else out
        printed.seek(0)
        text = printed.read().decode(errors="replace")
        return (usage.ru_utime + usage.ru_stime, text) if child.returncode == 0 else (None, text.strip()[-300:])


def count_in(printed, word):
    """How much was read, by what a program prints: its last line; of a path how long it is."""
    last = printed.splitlines()[-1]
    if last == "check yes":
        # (the items of a path, and the anchor)
        line = next(row for row in printed.splitlines() if row.startswith("path "))
        return str(len(line[:line.index("anchor")].split()[1:]) + 1)
    return last.split(": ")[-1].split()[0]


def compared(row, found, files, turns):
    """The median of each column that isn't empty, and what each has counted."""
    commands = {entry: command(row, entry, found, files) for entry in COLUMNS}
    seconds, counts = {entry: [] for entry in COLUMNS}, {}
    for _ in range(turns):
        for column, words in commands.items():
            if not words:
                continue
            taken, printed = measured(words)
            if taken is None:
                say(f"{row.name}: {column} doesn't read it: {printed}")
                commands[column] = None
                continue
            seconds[column].append(taken)
            counts[column] = count_in(printed, row.words[column])
    return {name: statistics.median(taken) for name, taken in seconds.items() if commands[name]}, counts


def cells(row, medians):
    """The cells of a row, and its ratio, none if one of the two columns is empty."""
    shown = [f"{medians[column] * 1000:.1f}" if column in medians else "" for column in COLUMNS]
    ratio = medians["ours"] / medians[row.beside] if {"ours", row.beside} <= {*medians} and medians[row.beside] else None
    beside = row.crate or HEADS[COLUMNS.index(row.beside)]
    return [row.name, *shown, beside, f"{ratio:.2f}" if ratio is not None else "", f"{row.most}"], ratio


def read_words():
    words = argparse.ArgumentParser(description="Times readers beside those of other libraries.")
    words.add_argument("--ours", default=TOP, metavar="CHECKOUT", help="the checkout that has the programs")
    words.add_argument("--crates", default=REGISTRY, metavar="FOLDER", help="where the crates of Rust are")
    words.add_argument("--keep", metavar="FOLDER", help="where programs and files are kept")
    words.add_argument("--turns", type=int, default=TURNS, metavar="N", help="how often each program runs")
    words.add_argument("--only", action="append", default=[], metavar="NAME", help="rows whose names begin so")
    words.add_argument("--columns", action="append", choices=COLUMNS, help="columns that are filled, all if none is named")
    words.add_argument("--small", action="store_true", help="small inputs")
    return words.parse_args()


def tabled(row, medians, counts, is_small):
    """Prints a row; gives whether it misses something, and whether it has no ratio."""
    shown, ratio = cells(row, medians)
    print(f"| {' | '.join(shown)} |", flush=True)
    is_other = len({*counts.values()}) > 1
    if is_other:
        say(f"{row.name}: counted otherwise: {counts}")
    return is_other or ratio is not None and ratio > row.most and not is_small, ratio is None


def table(room, words):
    """Prints what is compared, and the table; gives how many rows miss something."""
    found = programs(room, words.ours, words.crates, words.columns or COLUMNS)
    paths, ends = inputs.written(room, inputs.SMALL if words.small else inputs.FULL), []
    print(f"{'; '.join(versions(found, words.ours, words.crates))}\n", flush=True)
    print(f"| milliseconds | {' | '.join(HEADS)} | ours over | ratio | at most |\n{'|---' * 8}|", flush=True)
    for row in rows():
        if words.only and not any(row.name.startswith(text) for text in words.only):
            continue
        ends.append(tabled(row, *compared(row, found, paths[row.given], words.turns), words.small))
    amiss, left = map(sum, zip(*ends)) if ends else (1, 0)
    say(f"{len(ends)} rows, {left} without a ratio, {amiss} amiss")
    return amiss


def main():
    words = read_words()
    words.ours = os.path.abspath(words.ours)
    if words.keep:
        os.makedirs(words.keep, exist_ok=True)
        return 1 if table(os.path.abspath(words.keep), words) else 0
    with tempfile.TemporaryDirectory(prefix="peers-") as room:
        return 1 if table(room, words) else 0


if __name__ == "__main__":
    sys.exit(main())
