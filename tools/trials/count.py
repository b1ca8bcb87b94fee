"""What all trials share: a trial is a test of Python's `unittest`, and each of its rows a subtest.

Some trials have a size for the gate and a smaller one for a machine without the toolchain, where
`./test` takes minutes: `size` chooses. What a trial needs of the machine beside Python it asks for
by `need`: where that is missing the gate fails, and elsewhere the trial is skipped.
"""
import shutil
import sys
import unittest

from program import programs

# Words before a command line that let signals end it, even if the caller of the trials ignores them.
INTERRUPTIBLE = [sys.executable, "-ISc", """import os, signal, sys
for number in (signal.SIGINT, signal.SIGHUP, signal.SIGTERM):
    signal.signal(number, signal.SIG_DFL)
os.execv(sys.argv[1], sys.argv[1:])"""]
# Whether the gate runs the trials, and whether they take their smaller sizes; the runner sets both.
RUN = {"gate": False, "small": False}


def size(of_gate, small):
    """The size of a trial: that of the gate, or the smaller one."""
    return small if RUN["small"] else of_gate


class Trial(unittest.TestCase):
    """Rows that are counted one by one: one that fails is printed, and the others go on."""

    def row(self, is_right, what):
        """A row: whether it is right, and what is said if it isn't."""
        with self.subTest():
            if not is_right:
                self.fail(what)

    def same(self, title, got, wanted):
        """A row: whether what came out is what is wanted."""
        self.row(got == wanted, f"{title}: {got!r:.1200}, wanted is {wanted!r:.1200}")

    def lack(self, what):
        """Something is missing: fails in the gate, and skips elsewhere."""
        if RUN["gate"]:
            self.fail(what)
        self.skipTest(what)

    def need(self, *tools):
        """Asks for programs on the path."""
        missing = [tool for tool in tools if shutil.which(tool) is None]
        if missing:
            self.lack(f"{', '.join(missing)} isn't on the path")

    def need_libcrypto(self):
        """Asks for OpenSSL's library, which ./vouch and ./verify call."""
        try:
            from pki import package
            from certpath import libcrypto
            libcrypto.loaded()
        except ImportError as error:
            self.lack(f"libcrypto of OpenSSL 3: {error}")

    def program(self, crate=programs.CERTPATH):
        """The path of a crate's program, which has to be there for the sources as they are."""
        path, why, _ = programs.found(crate)
        if why and (RUN["gate"] or crate == programs.CERTPATH):
            self.fail(why)
        if why:
            self.skipTest(f"{crate}: {why}")
        return path
