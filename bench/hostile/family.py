"""What a family of files is: its name, its command, its sizes, and how its files are made."""
from typing import Callable, NamedTuple

ITEMS, SMALL_ITEMS = (12_500, 25_000, 50_000, 100_000), (4_000, 16_000)
MEGABYTE = 1_000_000
# So much memory is no miss, however few octets are read. (Python and OpenSSL alone take 25 MB.)
LEAST_MEMORY = 40 * MEGABYTE
OCTETS, SMALL_OCTETS = tuple(MEGABYTE * it for it in (4, 8, 16, 32)), (500_000, 2_000_000)

# For items above the 16,777,216 content octets that are allowed if no limit is given.
UNLIMITED = ("--limit", "4294967295")


class Files(NamedTuple):
    """The files of a run as lists of octets, and the last lines but `check yes` that `path` has to print about them."""
    bundle: list
    anchors: list = ()
    vouchers: list = ()
    answer: str = "none"
    # What `recheck` reads beside these.
    evidence: list = ()


class Known(NamedTuple):
    """A miss that docs/COST.md bounds: its name there, and what isn't missed by more: how many times the time at a doubling, how many
    octets of memory for each octet read, how many seconds for a file of 1 MB, and how many octets of memory don't count."""
    name: str
    growth: float = 2.4
    times: float = 16
    seconds: float = 2.0
    least: int = LEAST_MEMORY


class Family(NamedTuple):
    """Files of one kind. `make` is handed a size, which counts what `unit` names, and returns `Files`; or for the commands of one
    file the octets of that file, in pieces. `other` is how many items may be of class `other`, none meaning any number."""
    name: str
    title: str
    command: str
    make: Callable
    unit: str = "items"
    sizes: tuple = ITEMS
    small: tuple = SMALL_ITEMS
    other: int = 0
    words: tuple = ()
    statuses: tuple = (0, 1, 3)
    # What the family misses, if that is known.
    known: Known = None


FAMILIES = {}


def family(name, title, command="path", **further):
    """Adds the function that makes the files to the families."""
    def add(make):
        if name in FAMILIES:
            raise ValueError(f"two families {name}")
        FAMILIES[name] = Family(name, title, command, make, **further)
        return make
    return add


def of_octets(name, title, command="path", **further):
    """A family whose size is about the octets of its files."""
    return family(name, title, command, **{"unit": "octets", "sizes": OCTETS, "small": SMALL_OCTETS, **further})


def also(command, *names, **further):
    """Adds families of another command over the files of these: the family NAME of `path` as COMMAND-NAME."""
    for name in names:
        of = FAMILIES[name]
        another = {"known": None, **further}
        FAMILIES[f"{command}-{name}"] = of._replace(name=f"{command}-{name}", command=command, **another)
