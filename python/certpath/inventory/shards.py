"""Shards: some targets with all that may stand in their paths, and what is answered of them.

docs/PROOFS.md shows why the answers are those of one run over everything.
"""
import re
from typing import Dict, List, NamedTuple, Tuple

from .index import Index
from .program import PATHS, Failed, Question, report
from .signatures import text

LINE = re.compile(r"(\d+) (?:(none|list|other)|path ([\d ]+) anchor (\d+))")
PATH, NONE = "path", "none"


class Target(NamedTuple):
    """A certificate whose path is asked for."""
    item: str
    """The digest of its octets, in hex."""
    issuer: str
    """The digest of its issuer's name."""
    octets: bytes


class Answer(NamedTuple):
    """What is answered of a target, by digests in hex."""
    outcome: str
    path: Tuple[str, ...] = ()
    """Its issuers, up to the one that an anchor issued."""
    anchor: str = ""


class Shard(NamedTuple):
    """Items by position: those that may issue or revoke, in the order of everything, and after them
    the targets that may not, each item once."""
    items: List[str]
    octets: List[bytes]

    @property
    def bundle(self) -> bytes:
        return b"".join(self.octets)


def shard_of(index: Index, targets: List[Target]) -> Shard:
    found = {it.item: it.octets for it in index.closure({it.issuer for it in targets})}
    for target in targets:
        found.setdefault(target.item, target.octets)
    return Shard([*found], [*found.values()])


class Asked(NamedTuple):
    """What a shard is asked with."""
    program: str
    anchors: str
    """The file of anchors."""
    anchor_items: Tuple[str, ...]
    """The digests of the anchors, by position."""
    words: List[str]
    """The words of a run after its files."""
    keys: Dict[str, List[str]]
    """By the digest of an item those of the keys that vouch for it."""

    def question(self, shard: Shard, *words: str) -> Question:
        return Question(shard.bundle, self.anchors, text(self.keys, shard.items),
                        [*words, *self.words])


def answer_of(line: str, position: int, shard: Shard, asked: Asked) -> Answer:
    """What a line of `certpath paths` says of the item at a position."""
    read = LINE.fullmatch(line)
    if read is None or int(read[1]) != position:
        raise Failed(f"certpath paths: not an answer on item {position}: {line}")
    if read[2]:
        return Answer(read[2])
    issuers = [int(it) for it in read[3].split()[1:]]
    return Answer(PATH, tuple(shard.items[it] for it in issuers), asked.anchor_items[int(read[4])])


def answers(shard: Shard, asked: Asked) -> Dict[str, Answer]:
    """By their digests what is answered of all items of a shard, by one run."""
    lines = report(asked.program, PATHS, asked.question(shard))
    if "end clean" not in lines[len(shard.items):len(shard.items) + 1]:
        raise Failed("certpath paths: other items than the shard's")
    return {item: answer_of(line, position, shard, asked)
            for position, (item, line) in enumerate(zip(shard.items, lines))}
