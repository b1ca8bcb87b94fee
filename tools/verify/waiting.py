"""How long a run may take, and how far it is: a terminal sees that if it takes longer than a second."""
import os
import subprocess
import sys
import time

from verify.faults import OUT_OF_TIME, Fault

# So long nothing is said, and so often it is said then.
QUIET, OFTEN = 1.0, 0.5
CLEAR = "\r\x1b[K"
# A run and its programs may take so many seconds of a processor for each so many octets of its
# files, unless --seconds says how many in all.
SECONDS, MEGABYTE = 10, 1_000_000


class Line:
    """The line of a run on a terminal: it is written anew, and goes away at the end. Nothing is written if there is no terminal."""

    def __init__(self):
        self.begun = time.monotonic()
        self.next, self.is_written = self.begun + QUIET, False
        self.is_terminal = sys.stderr.isatty()

    def say(self, text):
        """Says what the run does, unless something was said a moment ago."""
        now = time.monotonic()
        if self.is_terminal and now >= self.next:
            self.write(f"{CLEAR}{text}, {now - self.begun:.0f} s")
            self.next, self.is_written = now + OFTEN, True

    def begin(self, text):
        """Says what the run does now, and for how long nobody knows."""
        if self.is_terminal and time.monotonic() >= self.begun + QUIET:
            self.next = 0
            self.say(text)

    def clear(self):
        """Takes the line away, before anything else is written."""
        if self.is_written:
            self.write(CLEAR)
            self.is_written = False

    @staticmethod
    def write(text):
        try:
            sys.stderr.write(text)
            sys.stderr.flush()
        except OSError:
            pass


LINE = Line()


class Budget:
    """The seconds of a processor that the run and its programs may take in all."""

    def __init__(self):
        self.given, self.octets = None, 0

    def seconds(self):
        """How many there are: those of --seconds, or as many as the octets of the files allow."""
        return SECONDS * max(1, -(-self.octets // MEGABYTE)) if self.given is None else self.given

    def left(self):
        """How many are left, at least 0. (Programs count that have ended.)"""
        return max(0.0, self.seconds() - sum(os.times()[:4]))

    def check(self, title):
        """Ends the run if none are left; says in what."""
        if not self.left():
            self.end(title)

    def end(self, title):
        """Ends the run."""
        raise Fault(OUT_OF_TIME, f"the run takes more than {self.seconds()} s of a processor, "
                    f"and has ended while {title}; --seconds N allows more")


BUDGET = Budget()


def counted(title, steps, count):
    """The steps, as long as seconds are left, while a terminal sees how many of them are done."""
    for number, step in enumerate(steps):
        said = f"{title}: {number} of {count}"
        LINE.say(said)
        BUDGET.check(said)
        yield step


def wait(child, title):
    """Waits for a program's end, while a terminal sees for how long."""
    while child.poll() is None:
        LINE.say(title)
        try:
            child.wait(OFTEN if LINE.is_terminal else None)
        except subprocess.TimeoutExpired:
            continue
