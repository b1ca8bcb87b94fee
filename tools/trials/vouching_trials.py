"""Runs the scripts of this repository; what goes as it should and what doesn't are rows of a trial."""
import os
import re
import subprocess
import sys

from program import repo
from pki.reporting import counted
from trials.vouching_pki import line

# (a busy machine may take a hundred times as long as a free one)
SECONDS = 600
LINES = re.compile(rb"(?:[0-9a-f]{64} [0-9a-f]{64}\n)*")
# OpenSSL's own words, which may differ from version to version.
REASON = re.compile(r"(not verified by \d+ keys?) \([^()]+\)")


class Trials:
    """The runs in a workshop's folder, for a trial."""

    def __init__(self, shop, trial):
        self.shop, self.same = shop, trial.same

    def run(self, script, words, octets=b"", output=subprocess.PIPE):
        """A script's status, what it wrote to standard output where that is piped, and its lines on standard error."""
        command = [sys.executable, "-IS", os.path.join(repo.TOP, script), *words]
        ran = subprocess.run(command, cwd=self.shop.room, input=octets, stdout=output, stderr=subprocess.PIPE, timeout=SECONDS)
        return ran.returncode, ran.stdout, [REASON.sub(r"\1 (..)", row) for row in ran.stderr.decode().splitlines()]

    def lines(self, title, bundle, anchors, *words, **further):
        """A run's status, lines and what is told of each item; each line has its form, and they ascend, each once."""
        self.shop.keep("bundle.der", b"".join(bundle))
        self.shop.keep("anchors.der", b"".join(anchors))
        status, text, told = self.run("vouch", ["bundle.der", "anchors.der", "--verbose", *words], **further)
        found = text.splitlines(keepends=True)
        self.same(f"{title}: the form of its lines", (bool(LINES.fullmatch(text)), found), (True, sorted({*found})))
        return status, text.decode(), told

    def vouch(self, title, bundle, anchors, pairs, told=(), words=(), status=0):
        """A trial of a bundle and anchors, which are items: wanted are lines of pairs of a key's element and an item, what is told,
        and the status."""
        wanted = sorted({line(*pair) for pair in pairs})
        vouched = sum(item in {entry for _, entry in pairs} for item in bundle)
        summary = f"vouch: {counted(len(bundle), 'item')}, {vouched} vouched for, {counted(len(wanted), 'line')}, {len(bundle) - vouched} unverified"
        self.same(title, self.lines(title, bundle, anchors, *words), (status, "".join(wanted), [*told, summary]))

    def none(self, title, bundle, anchors, *words):
        """A trial of a bundle none of whose items gets a line: each is told."""
        status, text, told = self.lines(title, bundle, anchors, *words)
        numbers = [re.match(r"bundle (\d+): (?!openssl cannot read its key)", entry) for entry in told]
        self.same(title, (status, text, [int(number[1]) for number in numbers if number]), (0, "", [*range(len(bundle))]))
