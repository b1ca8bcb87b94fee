#!/usr/bin/env python3
"""A look over the repository that proves nothing and takes seconds: prints a line for each thing amiss, and then how many checks passed and failed.

With the word `laws` it lists the clauses of laws that have premises and no example."""
import os
import re
import sys

sys.path.insert(0, os.path.dirname(os.path.dirname(os.path.abspath(__file__))))
from dev import items, manual
from gate import (dist, edits, formatting, laws, library, listed, page_checks, readers, source_checks,
                  words)
from program import repo

# The gate tries the named wrong bodies alone: so many edits, in so many crates.
MOST_EDITS, MOST_CRATES = 20, 9
MOST_LINES = 800
# How many files the gate may read for its sums of what libraries are made from: each takes it some 0.15 ms, one after another.
MOST_READS = 4_200_000
OF_FUNCTION = ("Invariants.antt", "Answers.antt", "Proof.antt")
BESIDE_SRC = ("args", "stdin", "stdout", "status")
PAGES = ("README.md", "CALLING.md")
# Crates, and those on which each doesn't depend, near or far.
SEARCH = ("cert_search", "x509_links", "certpath_rebuild", "certpath_typed", "certpath_find")
APART = {"certpath_typed": ("certcheck",), "certpath_find": ("certcheck",), "certcheck": SEARCH, "certpath_recheck": SEARCH}
LABEL = re.compile(r"(?:^|[^\w/.-])((?:[DTLW]\d{1,2}|R\d{1,2}(?:\.\d+)?|0[1-4], ?\d|document 0[1-4]))(?:\W|$)")
# What is in quotes in code: octets and words of a test, and no label.
QUOTED = re.compile(r"""b?'[^'\n]{1,4}'|"(?:[^"\\\n]|\\.)*\"""")
MACHINE = re.compile(r"""(?:^|[\s"'`(=:])(?:/(?:opt|work|farm|home|root|tmp|Users)/\w|\.\./shared)""")
NAMED_FILE = re.compile(r"`([\w.+-]*(?:/[\w.+-]*)+|[\w.+-]+\.(?:md|py|sh|rt|antt|edit|der|txt|frame))`")
LINK = re.compile(r"\]\(([^)\s#]+)[^)]*\)")


def files():
    """Each file of the repository but for what checks leave, by its path from the top."""
    found = []
    for at, folders, names in os.walk(repo.TOP):
        folders[:] = sorted(folder for folder in folders if folder not in (".git", "out", "__pycache__"))
        found += [os.path.relpath(os.path.join(at, name), repo.TOP) for name in sorted(names)]
    return found


FILES = files()
OF_RATTLE = [file for file in FILES if file.endswith((".rt", ".antt"))]
SCRIPTS = [file for file in FILES if file.endswith((".py", ".sh")) or file in ("test", "certpath", "rows", "bundle", "vouch", "verify", "install", "tools/install/inventory", ".ci/run")]
TEXTS = [file for file in FILES if file.endswith((".md", ".edit")) or file == "crates.txt"]
DOCS = [file for file in FILES if file.endswith(".md")]
CRATES = repo.crates()


def layout():
    """Each file that changed since the last commit is laid out as `rt fmt` does it. (`rt ci` refuses any other.)"""
    yield from formatting.faults()


def edits_apply():
    """Each edit can be applied to its crate."""
    for crate in CRATES:
        for folder in edits.FOLDERS:
            for edit in edits.names(crate, folder):
                why = edits.amiss(crate, f"{folder}/{edit}")
                if why:
                    yield f"crates/{crate}/{folder}/{edit} can't be applied: {why}"


def few_edits():
    """The gate tries few edits in few crates, and none that lies in wrong/ too."""
    counts = {name: len(edits.names(name, "must-fail")) for name in CRATES if edits.names(name, "must-fail")}
    if sum(counts.values()) > MOST_EDITS or len(counts) > MOST_CRATES:
        yield f"must-fail/ has {sum(counts.values())} edits in {len(counts)} crates, and at most {MOST_EDITS} in {MOST_CRATES} are kept there: move others to wrong/"
    for crate in CRATES:
        for edit in {*edits.names(crate, "must-fail")} & {*edits.names(crate, "wrong")}:
            yield f"crates/{crate}: {edit} is in must-fail/ and in wrong/"


def modules(crate):
    """The .rt files of a crate that its root reaches by `mod`."""
    inside = f"crates/{crate}/src/"
    found = [inside + entry for entry in ("lib.rt", "main.rt") if inside + entry in FILES]
    for path in found:
        folder = path[:-len(os.path.basename(path))] if path.endswith(("/lib.rt", "/main.rt", "/mod.rt")) else path[:-len(".rt")] + "/"
        for name in re.findall(r"(?m)^[^/\n]*\bmod (\w+)\s*;", repo.read(path)):
            found += [value for value in (f"{folder}{name}.rt", f"{folder}{name}/mod.rt") if value in FILES and value not in found]
    return found


def is_joined(word, words):
    """Whether a word is one of the words, or several of them one after another, as a folder of a trait's impl is named."""
    return word in words or any(word[:at] in words and is_joined(word[at:], words) for at in range(1, len(word)))


def is_read(path, reached, words):
    """Whether a file below crates/NAME/ is one that the crate's check or its run reads."""
    _, crate, part, *inner = path.split("/")
    name = inner[-1] if inner else part
    if part in edits.FOLDERS:
        return len(inner) == 1 and name.endswith((".edit", ".md"))
    if part == "src":
        return path in reached
    if part in ("specs", "proofs"):
        if part == "proofs" and name in OF_FUNCTION:
            return len(inner) > 1 and all(is_joined(entry.lstrip("+"), words) for entry in inner[:-1])
        above = f"crates/{crate}/{'/'.join([part, *inner[:-1]])}"
        lists = [f"{above}/Lib.antt", f"{above}.antt"]
        listed = "\n".join(repo.read(place) for place in lists if place in FILES)
        return path == lists[0] or bool(re.search(rf"(?m)^(?:pub )?mod {re.escape(name[:-len('.antt')])}\s*$", listed))
    return not inner and part in (*BESIDE_SRC, *PAGES) or part == "data" and not name.endswith((".rt", ".antt"))


def all_read():
    """Each file of a crate is read by its check or its run."""
    for crate in CRATES:
        reached = modules(crate)
        sources = [file for file in FILES if file.startswith(f"crates/{crate}/src/")]
        words = {*re.findall(r"\w+", "\n".join([*sources, *map(repo.read, reached)]))}
        for path in FILES:
            if path.startswith(f"crates/{crate}/") and not is_read(path, reached, words):
                yield f"{path}: nothing reads it"
    for path in OF_RATTLE:
        if not path.startswith("crates/"):
            yield f"{path}: it is outside the crates, so nothing reads it"


def no_labels():
    """Rules, laws and wrong bodies have plain names, and no paper's numbers."""
    for path in [*OF_RATTLE, *TEXTS, *SCRIPTS]:
        for number, line in enumerate(repo.read(path).split("\n"), 1):
            found = LABEL.search(line if path.endswith(".md") else QUOTED.sub("", line))
            if found:
                yield f"{path}:{number}: {found[1]} looks like the label of a paper: {line.strip()[:100]}"
    for path in FILES:
        if re.search(r"(?:^|[/_])[DTLWR]\d{1,2}(?:[_.]|$)", path):
            yield f"{path}: its name looks like the label of a paper"


def no_machine():
    """No file names a path of one machine."""
    for path in [*OF_RATTLE, *TEXTS, *SCRIPTS]:
        for number, line in enumerate(repo.read(path).split("\n"), 1):
            if MACHINE.search(line):
                yield f"{path}:{number}: a path of a machine: {line.strip()[:100]}"


def docs_name_files():
    """Links of the docs lead somewhere, and the files that they name are there."""
    tails = {""}
    for path in FILES:
        parts = path.split("/")
        for end in range(1, len(parts) + 1):
            for start in range(end):
                tail = "/".join(parts[start:end])
                tails |= {tail, os.path.splitext(tail)[0]}
    for path in DOCS:
        for number, line in enumerate(repo.read(path).split("\n"), 1):
            for to in LINK.findall(line):
                if "://" not in to and not os.path.exists(os.path.join(repo.TOP, os.path.dirname(path), to)):
                    yield f"{path}:{number}: the link {to} leads nowhere"
            for name in NAMED_FILE.findall(line):
                is_pattern = re.search(r"\b(?:NAME|PATH|FILE|WORD)\b", name) or name.startswith(("/", "out/", "../"))
                if not is_pattern and os.path.normpath(name) not in tails:
                    yield f"{path}:{number}: there is no file {name}"


def crates_listed():
    """crates.txt has one line for each folder of crates/, and docs/CRATES.md names each."""
    page = repo.read("docs/CRATES.md")
    yield from listed.faults()
    for name in CRATES:
        if f"`{name}`" not in page:
            yield f"docs/CRATES.md: it doesn't name the crate {name}"


def few_ways():
    """What the gate reads for its sums stays in bounds: `rt` goes down every way from a library, each time anew, twice a library."""
    reads = {}
    for crate in repo.below(CRATES, CRATES):
        own = sum(file.startswith(tuple(f"crates/{crate}/{part}/" for part in ("src", "specs", "proofs"))) for file in FILES)
        reads[crate] = own + sum(reads[name] for name in CRATES[crate])
    total = sum(2 * reads[name] for name in CRATES if f"crates/{name}/src/main.rt" not in FILES)
    if total > MOST_READS:
        yield f"crates.txt: sums of what libraries are made from read {total:,} files, and at most {MOST_READS:,} are allowed: let a crate name what it uses through another"


def judge_alone():
    """`certcheck` shares nothing with the search and the typed readers: beside its own crates it depends on parts of `asn1_rs` and `der_parser` alone."""
    own = {"certcheck", "cert_framing", "cert_graph", "cert_judge", "cert_model", "cert_vouchers"}
    for name in sorted({*repo.below(["certcheck"], CRATES)} - own - {*repo.below(["asn1_rs", "der_parser"], CRATES)}):
        yield f"crates.txt: certcheck depends on {name}"


def roads_apart():
    """The two roads from octets to an answer share no reader of items, by crates.txt alone: the typed readers and the search depend on
    nothing of the check, the check on nothing of them, and what checks an inventory again on no search. Key identifiers are read out of
    fields that both have, so the search doesn't call what the check reads them by."""
    for crate, others in APART.items():
        for name in sorted({*repo.below([crate], CRATES)} & {*others}):
            yield f"crates.txt: {crate} depends on {name}"
    for path in FILES:
        if re.match(r"crates/certpath_(?:rebuild|typed|find)/src/.*\.rt$", path):
            code = "\n".join(line.split("//")[0] for line in repo.read(path).splitlines())
            for name in re.findall(r"\b(?:authority_key_id|subject_key_id)\b", code):
                yield f"{path}: it names {name}"


def headers_counted():
    """No counted call comes to a reader that keeps no count of its headers, and such readers are in places that are known."""
    yield from source_checks.headers_counted()


def no_handles():
    """HANDLES allows none."""
    if repo.read("HANDLES") != "Handles allowed: none.\n":
        yield "HANDLES: it is the one line 'Handles allowed: none.'"


def short_files():
    """Sources are short."""
    for path in OF_RATTLE:
        count = repo.read(path).count("\n")
        if count > MOST_LINES:
            yield f"{path}: {count} lines, and at most {MOST_LINES} are kept in one file"


def worked_causes():
    """Each worked row that docs/OTHER.md names is in rows_cert, and is other."""
    lines = repo.read("crates/rows_cert/stdout").splitlines()
    answers = {title.removeprefix("# ").partition(": ")[0]: answer for title, answer in zip(lines, lines[1:])}
    named = [" ".join(row.split()) for row in re.findall(r"\*Rows\*:\s+([^.]*)\.", repo.read("docs/OTHER.md"))]
    if not named:
        yield "docs/OTHER.md: it names no worked row"
    for title in (title for row in named for title in row.split("; ")):
        if not answers.get(title, "").endswith(" = other"):
            yield f"docs/OTHER.md: {title} is no worked row that is other"


def items_spelled():
    """Each item of rows_cert is what the comment above it spells."""
    text = repo.read(items.STDIN)
    if items.written(text) != text:
        yield f"{items.STDIN}: an item isn't what the comment above it spells: run tools/dev/items.py"


def manual_is_made():
    """The manual page and the completion of bash are what the docs and the commands' helps say."""
    yield from manual.faults()


def dist_is_built():
    """dist/certpath is the program that was built from the sources as they are."""
    yield from dist.faults()


def laws_have_examples():
    """The premises of laws are met by worked values, but for some clauses, which may only get fewer."""
    yield from laws.faults()


def plain_words():
    """Doc comments have no word that the glossary avoids, but for those that files had before."""
    yield from words.faults()


def libraries_are_built():
    """The libraries of dist/ are those that were built from the sources as they are."""
    yield from library.faults()


def checks():
    """All looks."""
    found = (layout, edits_apply, few_edits, all_read, no_labels, no_machine, docs_name_files, crates_listed, few_ways, judge_alone, roads_apart, headers_counted, no_handles, short_files, items_spelled, worked_causes, manual_is_made, dist_is_built, libraries_are_built, laws_have_examples, plain_words)
    return found + source_checks.CHECKS + readers.CHECKS + page_checks.CHECKS


def looked():
    """Looks, and prints what is amiss; gives how many looks passed and failed."""
    amiss = {check: [*check()] for check in checks()}
    for lines in amiss.values():
        print("".join(f"quick: {line}\n" for line in lines), end="", flush=True)
    failed = sum(map(bool, amiss.values()))
    return len(amiss) - failed, failed


def main():
    passed, failed = looked()
    print(f"{passed} passed, {failed} failed")
    return 1 if failed else 0


if __name__ == "__main__":
    if sys.argv[1:] == ["laws"]:
        print(*laws.lines(), sep="\n")
        sys.exit(0)
    sys.exit(main())
