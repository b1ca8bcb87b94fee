"""What is shown while the passes run: how far they are, how fast, and which workers were lost."""
import sys
import threading
import time
from datetime import datetime, timedelta
from typing import Callable, Optional, Set

# On a terminal a line is shown again after so many seconds, elsewhere a line is written.
OFTEN, SELDOM = 1.0, 60.0
# So long the thread is waited for in the end, in seconds.
PATIENCE = 5.0
# Goes back to the begin of a line, and clears it.
CLEAR = "\r\x1b[K"
# What most passes read or write.
ENTRIES = "entries"


def length_of(seconds: float) -> str:
    """A length of time, as 7 s, 12 min or 3 h 20 min."""
    minutes = round(seconds / 60)
    if minutes < 2:
        return f"{round(seconds)} s"
    return f"{minutes} min" if minutes < 120 else f"{minutes // 60} h {minutes % 60} min"


class Pass:
    """How far a pass is: how much of its work is done, and how many things came of that."""

    def __init__(self, name: str, work: int, clock: Callable[[], float], things: str):
        self.name, self.work, self.clock, self.things = name, work, clock, things
        self.begun, self.done, self.count = clock(), 0, 0

    def step(self, work: int, count: int):
        """So much of the work is done, by octets or by files, and so many things came of it."""
        self.done, self.count = self.done + work, self.count + count

    def line(self, now: datetime) -> str:
        took = max(self.clock() - self.begun, 0.001)
        part = self.done / self.work if self.work else 1.0
        pace = self.count / took
        said = f"{self.name}: {part:.0%}, {self.count} {self.things}, {pace:.0f} a second"
        if not 0 < part < 1:
            return said
        left = took / part - took
        end = now + timedelta(seconds=left)
        return f"{said}, {length_of(left)} left, until {end:%H:%M}"


class Silent:
    """In the place of Progress: shows nothing."""

    def begin(self, name: str, work: int, things: str = ENTRIES) -> Pass:
        return Pass(name, work, time.monotonic, things)


class Progress:
    """Shows a run's passes, in a thread of its own, as long as the context lasts.

    `workers` gives the addresses of the workers that are there.
    """

    def __init__(self, workers: Callable[[], Set[str]], stream=sys.stderr, clock=time.monotonic):
        self.workers, self.stream, self.clock = workers, stream, clock
        self.is_terminal = stream.isatty()
        self.every = OFTEN if self.is_terminal else SELDOM
        self.now: Optional[Pass] = None
        self.known: Set[str] = set()
        self.last = clock()
        self.lock, self.ended = threading.RLock(), threading.Event()
        self.thread = threading.Thread(target=self.watch, daemon=True)

    def __enter__(self):
        self.known = self.workers()
        self.thread.start()
        return self

    def __exit__(self, *_):
        self.ended.set()
        self.thread.join(PATIENCE)
        self.clear()

    def begin(self, name: str, work: int, things: str = ENTRIES) -> Pass:
        begun = self.now = Pass(name, work, self.clock, things)
        return begun

    def clear(self):
        if self.is_terminal:
            self.stream.write(CLEAR)
            self.stream.flush()

    def show(self, line: str):
        """A line of its own, above the one that is shown again and again."""
        with self.lock:
            self.clear()
            self.stream.write(f"{line}\n")
            self.stream.flush()

    def look(self):
        """Says which workers were lost since the last look, and how far the pass is."""
        try:
            there = self.workers()
        except Exception:  # (a scheduler that is lost ends the run; here nothing is known of it)
            return
        lost = self.known - there
        self.known = there
        if lost:
            first = ", ".join(sorted(lost)[:3])
            self.show(f"inventory: {len(lost)} of the workers lost ({first}); {len(there)} there; "
                      "what they did is done again")
        if self.now is not None and self.clock() - self.last >= self.every:
            self.last = self.clock()
            self.tell(self.now.line(datetime.now()))

    def tell(self, line: str):
        with self.lock:
            self.stream.write(f"{CLEAR}inventory: {line}" if self.is_terminal
                              else f"inventory: {line}\n")
            self.stream.flush()

    def watch(self):
        while not self.ended.wait(OFTEN):
            self.look()
