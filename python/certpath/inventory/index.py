"""The index of a whole log, in a file that all workers read: which names issue something, who may
issue under them, and which keys vouch for which items."""
import hashlib
import os
import sqlite3
from contextlib import closing, contextmanager
from typing import Dict, Iterable, Iterator, List, NamedTuple
from urllib.parse import quote

from .rows import Read
from .writing import CannotWrite, reporting

SCHEMA = """
CREATE TABLE names (name TEXT PRIMARY KEY) WITHOUT ROWID;
CREATE TABLE vouchers (item TEXT, key TEXT, PRIMARY KEY (item, key)) WITHOUT ROWID;
CREATE TABLE issuers (
    rank INTEGER PRIMARY KEY, item TEXT UNIQUE, name TEXT, issuer TEXT, octets BLOB);
CREATE INDEX by_name ON issuers (name);
"""


class Issuer(NamedTuple):
    """A certificate that may issue something, or a revocation list that may revoke something."""
    rank: int
    """Its place in the order of everything that was read, among issuers and lists."""
    item: str
    """The digest of its octets, in hex."""
    issuer: str
    """The digest of its issuer's name."""
    octets: bytes


class Candidate(NamedTuple):
    """An issuer or a list as it was read; of equal ones the index keeps the first."""
    read: Read
    octets: bytes


@contextmanager
def writing(path: str) -> Iterator[sqlite3.Connection]:
    """The index, to be written; CannotWrite where it can't be."""
    try:
        with closing(sqlite3.connect(path)) as opened, opened:
            yield opened
    except sqlite3.Error as error:
        raise CannotWrite(f"cannot write {path}: {error}") from error


def create(path: str):
    """A new index, in the place of one that is there."""
    with reporting(path):
        if os.path.exists(path):
            os.remove(path)
    with writing(path) as opened:
        opened.executescript(SCHEMA)


def add_names(path: str, names: Iterable[str]):
    """The names under which something was issued."""
    with writing(path) as opened:
        opened.executemany("INSERT OR IGNORE INTO names VALUES (?)", ((it,) for it in names))


def add_vouchers(path: str, lines: Iterable[str]):
    """Lines of a voucher file: the digests of a key and of an item."""
    pairs = (line.lower().split() for line in lines)
    with writing(path) as opened:
        opened.executemany("INSERT OR IGNORE INTO vouchers (key, item) VALUES (?, ?)", pairs)


def add_issuers(path: str, candidates: Iterable[Candidate]) -> Iterator[Candidate]:
    """Adds candidates in the order in which they come, and gives those that are new."""
    with writing(path) as opened:
        for it in candidates:
            added = opened.execute(
                "INSERT OR IGNORE INTO issuers (item, name, issuer, octets) VALUES (?, ?, ?, ?)",
                (it.read.row.sha256, it.read.name, it.read.issuer, it.octets))
            if added.rowcount:
                yield it


def digest_of(path: str) -> str:
    """The digest of all issuers and lists, in their order: where it is equal, so are answers."""
    summed = hashlib.sha256()
    with closing(sqlite3.connect(path)) as opened:
        for item, in opened.execute("SELECT item FROM issuers ORDER BY rank"):
            summed.update(bytes.fromhex(item))
    return summed.hexdigest()


class Index:
    """The index, to be read; it is not written any more."""

    def __init__(self, path: str):
        self._opened = sqlite3.connect(f"file:{quote(path)}?mode=ro&immutable=1", uri=True)
        self._under: Dict[str, List[Issuer]] = {}

    def __enter__(self):
        return self

    def __exit__(self, *_):
        self._opened.close()

    def issues(self, name: str) -> bool:
        """Whether something was issued under a name."""
        found = self._opened.execute("SELECT 1 FROM names WHERE name = ?", (name,))
        return found.fetchone() is not None

    def keys_for(self, item: str) -> List[str]:
        """The digests of the keys that vouch for an item."""
        found = self._opened.execute(
            "SELECT key FROM vouchers WHERE item = ? ORDER BY key", (item,))
        return [key for key, in found]

    def under(self, name: str) -> List[Issuer]:
        """The certificates whose subject is a name, and the lists whose issuer it is."""
        if name not in self._under:
            found = self._opened.execute(
                "SELECT rank, item, issuer, octets FROM issuers WHERE name = ?", (name,))
            self._under[name] = [Issuer(*it) for it in found]
        return self._under[name]

    def closure(self, names: Iterable[str]) -> List[Issuer]:
        """All that stands under some names, under the names of its issuers, and so on, by rank."""
        met, rest = set(), {*names}
        while rest:
            met |= rest
            rest = {it.issuer for name in rest for it in self.under(name)} - met
        return sorted(it for name in met for it in self.under(name))
