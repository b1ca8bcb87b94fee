"""Runs bench/hostile/run.py at its small sizes: each command on files that are made to be slow. A row
for each family of files. And docs/COST.md bounds each kind of them that costs more."""
import os
import re
import subprocess
import sys

from program import repo, sources
from trials.count import Trial, size

# The smaller size takes one family of so many.
EVERY = 3
# (a process of its own: the memory of a run that a large process starts counts that one's, too)
WORDS = [sys.executable, os.path.join(repo.TOP, "bench", "hostile", "run.py")]
# A line of --list: a family, its command, and its kind if it may cost more.
FAMILY = re.compile(r"(\S+) \(\w+(?:, known: ([^)]+))?\): .+")
PAGE, SECTION = os.path.join(repo.TOP, "docs", "COST.md"), "\n## Files that cost more\n"
# A row of the table there: a kind, what it costs at most, and families in code marks.
ROW = re.compile(r"(?m)^\| ([^|]+) \| ([^|]+) \| ([^|]+) \|$")
CODE = re.compile(r"`([^`]+)`")
# The row of what the calls in C and Python hold, which no family runs; and the head.
NO_FAMILY, HEAD = {"tables"}, {"kind", "---"}


def said(words):
    """What a run of the bench prints, and its status."""
    ran = subprocess.run([*WORDS, *words], stdin=subprocess.DEVNULL, stdout=subprocess.PIPE,
                         stderr=subprocess.STDOUT, text=True, errors="replace")
    return ran.stdout, ran.returncode


class Hostile(Trial):
    def test_families(self):
        self.need_libcrypto()
        self.program()
        text, status = said(["--small", "--every", str(size(1, EVERY))])
        _, _, *rows = [it for it in text.splitlines() if it.startswith("|")] or (None, None)
        self.row(rows, text[-2000:])
        for row in rows:
            self.row("| FAIL: " not in row, row)
        self.same("the status", status, 1 if any("| FAIL: " in it for it in rows) else 0)

    def test_kinds(self):
        """Each kind that costs more has a row in docs/COST.md, with a family of it, and no other has
        one."""
        text, _ = said(["--list"])
        kinds = dict(FAMILY.fullmatch(line).groups() for line in text.splitlines())
        page = sources.octets_of(PAGE).decode().partition(SECTION)[2].partition("\n## ")[0]
        bounded = {kind: CODE.findall(worst) for kind, _, worst in ROW.findall(page)}
        for it in HEAD:
            bounded.pop(it, None)
        self.same("kinds", {*bounded} - NO_FAMILY, {*filter(None, kinds.values())})
        for kind, families in bounded.items():
            self.row(families or kind in NO_FAMILY, f"{kind}: no family is named")
            for it in families:
                self.same(f"{kind}: {it}", kinds.get(it), kind)
