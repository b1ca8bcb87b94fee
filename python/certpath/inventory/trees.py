"""The Merkle tree of a log (RFC 6962, 2.1), block by block: subtrees of a range of entries, which are
joined in the end."""
import binascii
import hashlib
import json
from base64 import b64decode
from typing import Iterable, List, NamedTuple, Optional

LEAF, NODE = b"\0", b"\1"
DIGEST = 32


class BadTreeHead(ValueError):
    """A file is no answer to get-sth."""


class TreeHead(NamedTuple):
    """What a log says of its tree (RFC 6962, 3.5). Its signature isn't looked at."""
    size: int
    root: str
    """The hash of the whole tree, in hex."""


class Subtree(NamedTuple):
    """All entries from `first` on, 2^level of them, as one hash; `first` is a multiple of that."""
    first: int
    level: int
    hash: str
    """In hex."""

    @property
    def end(self) -> int:
        return self.first + (1 << self.level)


def leaf_hash(leaf_input: bytes) -> str:
    """The hash of an entry's MerkleTreeLeaf, in hex."""
    return hashlib.sha256(LEAF + leaf_input).hexdigest()


def node_hash(left: str, right: str) -> str:
    return hashlib.sha256(NODE + bytes.fromhex(left) + bytes.fromhex(right)).hexdigest()


def push(row: List[Subtree], it: Subtree):
    """Adds what follows the last subtree of a row, and joins those that are halves of a larger one."""
    row.append(it)
    while len(row) > 1:
        left, right = row[-2:]
        is_left = (left.first >> left.level) % 2 == 0
        if left.level != right.level or left.end != right.first or not is_left:
            return
        row[-2:] = [Subtree(left.first, left.level + 1, node_hash(left.hash, right.hash))]


class Joined(NamedTuple):
    """Subtrees by ascending entries, as few and large as can be."""
    row: List[Subtree]
    has_doubles: bool
    """Whether some entries stand in two subtrees of which neither is the other: then only those of
    one of them are in the row."""


def joined(subtrees: Iterable[Subtree]) -> Joined:
    """Joins subtrees, in any order. Two that share entries have one within the other."""
    row: List[Subtree] = []
    has_doubles, end, known = False, 0, set()
    for it in sorted(subtrees, key=lambda it: (it.first, -it.level)):
        if it.first >= end:
            push(row, it)
            end = it.end
            known.add(it)
        else:
            has_doubles |= it not in known
    return Joined(row, has_doubles)


def of_leaves(first: int, leaves: Iterable[Optional[str]], size: int) -> List[Subtree]:
    """The subtrees of entries that follow each other, from `first` on, as far as the tree has them.
    An entry whose leaf couldn't be read is left out."""
    row: List[Subtree] = []
    for number, leaf in enumerate(leaves, first):
        if leaf is not None and number < size:
            push(row, Subtree(number, 0, leaf))
    return row


def count_of(subtrees: Iterable[Subtree]) -> int:
    """How many entries they have."""
    return sum(1 << it.level for it in subtrees)


def root_of(row: List[Subtree], size: int) -> Optional[str]:
    """The hash of the tree of so many entries, by its subtrees; None where some are missing."""
    at = 0
    for it in row:
        if it.first != at:
            return None
        at = it.end
    if at != size:
        return None
    if not row:
        return hashlib.sha256(b"").hexdigest()
    root = row[-1].hash
    for it in reversed(row[:-1]):
        root = node_hash(it.hash, root)
    return root


def compared(subtrees: Iterable[Subtree], head: TreeHead) -> str:
    """What is wrong where the entries aren't those of a tree head; empty where they are."""
    row, has_doubles = joined(subtrees)
    if has_doubles:
        return "some entries stand in several files, and only the first of each would be compared"
    root = root_of(row, head.size)
    if root is not None:
        return "" if root == head.root else "the tree of the entries has another root"
    return f"{count_of(row)} of its {head.size} entries were read, by their numbers in the log"


def read(path: str) -> TreeHead:
    """A tree head, as a log answers it (RFC 6962, 4.3). BadTreeHead, OSError."""
    with open(path, "rb") as file:
        octets = file.read()
    try:
        found = json.loads(octets)
        size, root = found["tree_size"], b64decode(found["sha256_root_hash"], validate=True)
    except (ValueError, KeyError, TypeError, binascii.Error, RecursionError) as error:
        raise BadTreeHead(f"tree head {path}: no answer to get-sth: {type(error).__name__}") from error
    if type(size) is not int or size < 0 or len(root) != DIGEST:
        raise BadTreeHead(f"tree head {path}: no answer to get-sth: a bad size or hash")
    return TreeHead(size, root.hex())
