"""What was taken as a target, and what as a helper: further certificates and revocation lists that a path may need."""
from typing import NamedTuple

from pki.reporting import counted
from program.streams import shown

# So many files have a line.
MOST = 20
HINT = "--all makes every certificate of every FILE a target"


class Roles(NamedTuple):
    """A line for each file, or few, fit for a terminal."""
    targets: list
    helpers: list


class Count(NamedTuple):
    """How many certificates and lists a file holds, by their shape."""
    file: str
    certificates: int
    lists: int
    has_target: bool = False

    def line(self):
        """What the file holds, beside the target; nothing if that is neither."""
        certificate = "further certificate" if self.has_target else "certificate"
        parts = [counted(number, word) for number, word in ((self.certificates, certificate), (self.lists, "list")) if number]
        return f"{shown(self.file)}: {', '.join(parts)}" if parts else None


def count(file, contents):
    """What is counted of a file."""
    lists = sum(item.is_list for item in contents.items)
    return Count(file, len(contents.items) - lists, lists)


def merged(counts):
    """The counts of files, each once: a file that is named twice has its items once."""
    return [*{entry.file: entry for entry in reversed(counts)}.values()][::-1]


def lines(counts):
    """The lines of files, the first ones if there are many."""
    found = [*filter(None, map(Count.line, counts))]
    return found[:MOST] + ([f"and {len(found) - MOST} further files"] if len(found) > MOST else [])


def of_all(counts, further):
    """Every certificate of every FILE is a target."""
    return Roles(lines(entry._replace(lists=0) for entry in counts), lines([*(entry._replace(certificates=0) for entry in counts), *further]))


def of_one(counts, further, target, file, is_named):
    """One target, in words, and the file that has it; a further FILE may have been meant as one."""
    helpers = [entry._replace(certificates=entry.certificates - 1, has_target=True) if entry.file == file else entry
               for entry in merged([*counts, *further])]
    is_doubtful = not is_named and any(entry.certificates for entry in counts[1:])
    return Roles([target], [*lines(helpers), *([HINT] if is_doubtful else [])])
