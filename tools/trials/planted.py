"""Plants what the gate has to refuse: scripts that reach around the toolchain's commands, or read PEM
or DER themselves, a crates.txt in which a crate has no line, two lines, or none of its own, programs
that dist/certpath isn't, and pages, helps and a completion that say different things."""
import contextlib
import functools
import io
import os
import tempfile
from unittest import mock

from gate import dist, helps, listed, readers, source_checks
from program import repo, sources
from trials.count import Trial

GOOD = "# NAME: what it uses\none:\ntwo: one\n\nthree staticlib: one  two # all\n"
# What is planted, and what is said of it.
LISTS = (
    ("three staticlib: one  two # all\n", "", "crates/three: crates.txt has no line"),
    ("two: one\n", "two: one\ntwo: one\n", "there are 2 lines for two"),
    ("two: one\n", "two: one\ntwo:\n", "there are 2 lines for two"),
    ("two: one\n", "two: one\nfour: one\n", "there is no folder crates/four"),
    ("one:\ntwo: one", "one: two: one", "crates.txt:2: it isn't the line of one crate"),
    ("one:\ntwo: one", "onetwo: one", "there is no folder crates/onetwo"),
    ("two: one", "two one", "crates.txt:3: it isn't the line of one crate"),
    ("two: one", "<<<<<<< ours\ntwo: one", "crates.txt:3: it isn't the line of one crate"),
)
# Of a page, or of what a command prints of itself: what is planted, and what is said of it.
SAID = (
    ("docs/CLI.md", "./certpath questions BUNDLE ANCHORS [--limit N]", "./certpath questions BUNDLE ANCHORS", "questions: "),
    ("docs/CLI.md", "./certpath paths BUNDLE ANCHORS VOUCHERS", "./certpath paths BUNDLE ANCHORS", "paths: "),
    ("docs/CLI.md", "EVIDENCE --at YYYY-MM-DDTHH:MM:SS", "EVIDENCE [--at YYYY-MM-DDTHH:MM:SS]", "recheck: "),
    ("docs/CLI.md", "[--evidence FILE]", "[--evidence]", "paths: "),
    ("docs/CLI.md", "| `--evidence FILE` |", "| FILE |", "docs/CLI.md: certpath paths takes --evidence, and no table"),
    ("docs/CLI.md", "| `--evidence FILE` |", "| `--target N` | |\n| `--evidence FILE` |", "docs/CLI.md: certpath paths has --target in its table"),
    ("docs/CLI.md", "| `--tries N` |", "| N |", "vouch: "),
    ("docs/CLI.md", "- **8**, ", "- ", "the exit statuses of certpath: "),
    ("docs/CLI.md", "    ./certpath --version\n", "", "certpath: "),
    ("docs/VERIFY.md", "| `--weak` |", "| weak |", "verify: "),
    ("docs/VERIFY.md", "    9         it", "    8         it", "the exit statuses of verify: "),
    ("docs/SCALE.md", "| `--resume` |", "| resume |", "certpath.inventory: "),
    ("completion/certpath.bash", 'questions) words="--help --limit"', 'questions) words="--help"', "questions: "),
    ("dist/certpath", "--purpose <NAME|OID>", "--purpose <NAME>", "why: "),
    ("dist/certpath", "--evidence <FILE>", "--proof <FILE>", "paths: "),
    ("dist/certpath", "<EVIDENCE>", "<PROOF>", "recheck: "),
    ("dist/certpath", "  questions  ", "  asks       ", "the commands: "),
)


class Planted(Trial):
    def setUp(self):
        room = tempfile.TemporaryDirectory(prefix="planted-")
        self.addCleanup(room.cleanup)
        self.room = room.name

    def test_lists(self):
        """Each crate has one line of crates.txt."""
        for name in ("one", "two", "three"):
            os.makedirs(os.path.join(self.room, "crates", name))

        def said(text):
            sources.put(os.path.join(self.room, "crates.txt"), text.encode())
            return [*listed.faults(self.room)]

        self.same("a list as it should be", said(GOOD), [])
        for old, new, wanted in LISTS:
            found = said(GOOD.replace(old, new))
            self.same(f"{new!r} planted: {found}", sum(wanted in entry for entry in found), 1)

    def test_scripts(self):
        """No script reaches around the toolchain's commands."""
        self.same("scripts as they are", [*source_checks.toolchain_by_commands(repo.TOP)], [])
        for name, head in (("planted.py", ""), ("planted", "#!/bin/sh\n")):
            for line in source_checks.PLANTED:
                sources.put(os.path.join(self.room, "tools", name), f"{head}{line}\n".encode(), 0o755)
                place = f"{os.path.join('tools', name)}:{2 if head else 1}:"
                found = [*source_checks.toolchain_by_commands(self.room)]
                self.same(f"{name} with {line}", [entry.startswith(place) for entry in found], [True])
            os.remove(os.path.join(self.room, "tools", name))

    def test_readers(self):
        """No script reads PEM, base64 or DER, but those that make input for trials."""
        self.same("scripts as they are", [*readers.files_by_library(repo.TOP)], [])
        for path in ("verify", "tools/verify/files.py", "python/certpath/loading.py", "planted"):
            for line in readers.PLANTED:
                text = f"#!/usr/bin/env python3\n\"\"\"Reads -----BEGIN blocks.\"\"\"\n{line}\n"
                sources.put(os.path.join(self.room, path), text.encode(), 0o755)
                found = [*readers.files_by_library(self.room)]
                self.same(f"{path} with {line}", [entry.startswith(f"{path}:3: it ") for entry in found], [True])
            os.remove(os.path.join(self.room, path))
        for path in ("tools/trials/planted.py", "python/tests/planted.py", "bench/planted.py"):
            sources.put(os.path.join(self.room, path), readers.PLANTED[0].encode())
        self.same("in trials", [*readers.files_by_library(self.room)], [])
        sources.put(os.path.join(self.room, "planted.sh"), b"#!/bin/sh\nbase64 -d key.pem\n")
        self.same("a script of the shell", len([*readers.files_by_library(self.room)]), 1)

    def test_helps(self):
        """Pages, helps and the completion of bash say alike what each command takes and ends with."""
        self.program()
        printed, own, read = functools.cache(helps.printed), helps.own_help, repo.read

        def faults(path, old, new):
            is_program, count = path == helps.PROGRAM, []

            def planted(text):
                count.append(text.count(old))
                return text.replace(old, new)

            with mock.patch.object(helps, "printed", lambda words, folder="": printed(tuple(words), folder)), \
                    mock.patch.object(helps, "own_help", lambda *command: planted(own(*command)) if is_program else own(*command)), \
                    mock.patch.object(repo, "read", lambda name, *top: planted(read(name, *top)) if name == path else read(name, *top)):
                found = [*helps.faults()]
            self.row(any(count) or not old, f"{path} has no {old!r}")
            return found

        self.same("as it is", faults(helps.CLI, "", ""), [])
        for path, old, new, wanted in SAID:
            found = faults(path, old, new)
            self.row(any(entry.startswith(wanted) for entry in found), f"{path} with {new!r} for {old!r}: {found}")

    def test_programs(self):
        """dist/certpath is compared with another program by octets, or by what both do."""
        program, other = self.program(), os.path.join(self.room, "other")
        sources.put(other, sources.octets_of(program)[:-1] + b"x", 0o755)
        with contextlib.redirect_stdout(io.StringIO()):
            self.same("equal octets", [*dist.unequal(program)], [])
            self.same("other octets", ["differ first" in entry for entry in dist.unequal(other)], [True])
            self.same("what the same program does", [*dist.unlike(program, "a kit", "another kit")], [])
            sources.put(other, b"#!/bin/sh\nexec %s \"$@\" --demand-lists\n" % program.encode(), 0o755)
            is_found = any("by the other program" in entry for entry in dist.unlike(other, "a kit", "another kit"))
        self.row(is_found, "another program passes")
