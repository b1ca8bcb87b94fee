"""Runs bench/peers/run.py at its small sizes, beside OpenSSL alone: both read each file, and count
alike."""
import os
import subprocess
import sys

from program import repo
from trials.count import Trial

HEADER = "/usr/include/openssl/x509.h"
WORDS = [sys.executable, os.path.join(repo.TOP, "bench", "peers", "run.py"), "--small", "--turns", "1",
         "--columns", "ours", "--columns", "openssl"]
SECONDS = 600
# The rows that OpenSSL has a figure for, and where it is.
NAMES = ("from_der, extensions parsed", "from_der, envelope", "names", "lists", "read_tree, envelope",
         "read_typed, envelope", "path in a cross-signed web")
COLUMN = 5
# The lines of a table in Markdown before its first row.
HEADS = 2


class Peers(Trial):
    def test_table(self):
        self.need_libcrypto()
        self.program()
        self.need("cc")
        if not os.path.exists(HEADER):
            self.skipTest("libssl-dev isn't installed")
        ran = subprocess.run(WORDS, stdin=subprocess.DEVNULL, stdout=subprocess.PIPE,
                             stderr=subprocess.PIPE, text=True, timeout=SECONDS)
        lines = [line for line in ran.stdout.splitlines() if line.startswith("|")]
        rows = [[part.strip() for part in line.split("|")] for line in lines[HEADS:]]
        filled = [row[1] for row in rows if row[COLUMN]]
        self.same(f"the table: {ran.stdout}{ran.stderr}", (ran.returncode, filled), (0, [*NAMES]))
