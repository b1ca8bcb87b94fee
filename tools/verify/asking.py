"""Asks `certpath why` and `certpath paths`."""
from program import programs, usage
from verify import children, faults, times
from verify.faults import Fault

BUNDLE, ANCHORS, VOUCHERS = FILES = ("bundle", "anchors", "vouchers")
# Statuses of certpath that are an answer, and those that the run ends with likewise.
ANSWERS, ENDS = (faults.PATH, faults.NONE, faults.NO_TARGET), (faults.WORDS, faults.UNREAD, faults.MEMORY)


class Workspace:
    """Files of the items, and the program that reads them."""

    def __init__(self, bundle, anchors, words):
        self.files, self.words, self.lines = {}, words, 0
        self.program, why, status = programs.found(programs.CERTPATH)
        if why:
            raise Fault(status, why)
        self.keep(BUNDLE, bundle.items.data)
        self.keep(ANCHORS, anchors.items.data)

    def keep(self, name, octets):
        if name in self.files:
            self.files[name].close()
        self.files[name] = children.in_memory(octets)

    def vouch(self, vouchers):
        """Keeps the vouchers that the next questions are asked with."""
        self.keep(VOUCHERS, vouchers.text().encode())

    def limits(self):
        return ["--limit", self.words.limit] if self.words.limit else []

    def demanded(self, has_host=True):
        """The words of what is asked for: a purpose of all certificates, and a host of one target."""
        purpose = [] if self.words.purpose is None else ["--purpose", self.words.purpose]
        host = self.words.host if has_host else None
        return purpose if host is None else [*purpose, "--host", host]

    def ran(self, command, words):
        """What the program ends with, and what it wrote."""
        files = [self.files[file] for file in FILES]
        given = [self.program, command, *map(children.path_of, files), *words]
        try:
            found = children.ran(given, f"asking certpath {command}", files=files)
        except OSError as error:
            raise Fault(faults.NO_PROGRAM, f"{self.program} can't be started: {error.strerror}") from error
        return found.status, *(value.decode(errors="backslashreplace") for value in (found.output, found.errors.strip()))

    def ask(self, command, *words, moment=None):
        """The lines of a report, at the moment of the command line if none is given."""
        at = ["--at", times.as_asked(moment or self.words.moment), *(["--demand-lists"] if self.words.demands_lists else [])]
        status, report, said = self.ran(command, [*words, *at, *self.limits()])
        if status not in ANSWERS:
            raise Fault(status if status in ENDS else faults.NO_PROGRAM, f"certpath {command}: {said or f'it ended with status {status}'}")
        lines = report.splitlines()
        self.lines += len(lines)
        return lines

    def why(self, target, **further):
        return self.ask("why", "--target", str(target), *self.demanded(), **further)

    def path(self, target):
        return self.ask("path", "--target", str(target), *self.demanded())

    def paths(self):
        """The report on all items at once, none if this certpath has no such command."""
        words = self.demanded(has_host=False)
        return self.ask("paths", *words) if "paths" in usage.COMMANDS else None
