"""What is done with a block: each function is a task, which may be run again on another machine."""
import json
import os
from datetime import datetime
from typing import Dict, FrozenSet, Iterator, List, NamedTuple, Optional, Set, Tuple

from .. import library, openssl
from ..items import LIMIT
from . import signatures, tables
from .anchors import digests_of
from .blocks import BLOCKSIZE, Block
from .entries import CHAIN, FAULT, Place
from .files import Changed, Cut, Span, digest, octets_of, read_octets, spans_of
from .hosts import names_of
from .index import Candidate, Index
from .program import Failed
from .reasons import Reasons
from .rows import CERT, LIST, Read, Row, moment, read, with_chains
from .shards import NONE, Answer, Asked, Target, answers, shard_of
from .trees import Subtree, of_leaves
from .writing import reporting, whole

ENTRIES, ISSUERS, WORK = "entries", "issuers", "work"
# What may go wrong with one shard while the others go on.
TROUBLES = (Failed, OSError, MemoryError, library.Error, openssl.Missing)


class Settings(NamedTuple):
    """What is asked of all entries."""
    anchors: str
    """A file of items."""
    at: Optional[datetime] = None
    """The moment at which items must be valid, in UTC; None for now."""
    vouchers: Optional[str] = None
    """A voucher file, which is believed; None where OpenSSL verifies the signatures."""
    weak: bool = False
    tries: int = openssl.MOST_TRIES
    demand_lists: bool = False
    limit: int = LIMIT
    why: bool = True
    names: bool = False
    """Whether the hosts that each certificate names are in the table."""
    blocksize: int = BLOCKSIZE
    tree_head: str = ""
    """The file of a log's tree head, with which the entries are compared; empty for none."""
    ranges: bool = False
    """Whether the names of answers end with the numbers of their first and last entry."""
    form: str = tables.CSV
    """The format of the table: CSV, or Parquet where pyarrow is installed."""
    program: str = ""
    """The program `certpath`; empty for the one beside the library, or on the path."""


class Job(NamedTuple):
    """What every task is given: settings without defaults, and the folder of the table."""
    settings: Settings
    out: str
    tree_size: int = 0
    """How many entries the tree has with which they are compared; 0 where there is none."""
    index_digest: str = ""
    """Of all that is in the index, once it is made."""

    @property
    def at(self) -> datetime:
        """The moment at which items must be valid."""
        assert self.settings.at is not None
        return self.settings.at

    @property
    def index_file(self) -> str:
        return os.path.join(self.work, "index.sqlite")

    @property
    def work(self) -> str:
        return self.folder(WORK)

    @property
    def anchor_file(self) -> str:
        """The anchors, as they were when the run began."""
        return os.path.join(self.work, "anchors.der")

    def folder(self, name: str) -> str:
        return os.path.join(self.out, name)


class Fault(NamedTuple):
    """What is wrong at a place."""
    place: Place
    cause: str
    is_change: bool = False
    """Whether a file changed while it was read."""


class SpanReads(NamedTuple):
    """What the first pass read in a span."""
    sha256: str
    """The digest of the octets that were read; empty where they couldn't be."""
    reads: List[Read]
    is_change: bool = False
    trees: Tuple[Subtree, ...] = ()
    """Of entries of a log whose tree is compared."""


class Kept(NamedTuple):
    """What is kept of a block between the passes."""
    spans: List[SpanReads]
    lost: str = ""
    """Why the block wasn't read at all; empty where it was."""

    @property
    def reads(self) -> List[Read]:
        return [it for span in self.spans for it in span.reads]


class Survey(NamedTuple):
    """What the first pass found in a block."""
    entries: int
    names: FrozenSet[str]
    """Digests of the names under which its certificates were issued."""
    faults: Tuple[Fault, ...]
    digests: Tuple[str, ...]
    """Of the octets of each span."""
    counts: Tuple[int, ...]
    """How many entries of each span have a number in the log."""
    trees: Tuple[Tuple[Subtree, ...], ...]
    """Of each span those of its entries that are compared with a log's tree."""


class Found(NamedTuple):
    """What a block has for the index."""
    candidates: List[Candidate]
    changed: Tuple[Fault, ...]


class Part(NamedTuple):
    """What was written of a block."""
    rows: int
    outcomes: Dict[str, int]
    """How many rows have which outcome, or which class where they have none."""
    trouble: str = ""
    """Why the shard wasn't answered; empty where it was."""
    changed: Tuple[Fault, ...] = ()


def cut(files: List[str], job: Job) -> List[Cut]:
    """The spans of some files; OSError where one of them can't be read."""
    given = job.settings
    return [spans_of(it, given.blocksize, given.limit, given.ranges) for it in files]


def kept_file(block: Block, job: Job) -> str:
    return os.path.join(job.work, f"{block.number:06}.json")


def done_file(block: Block, job: Job) -> str:
    return os.path.join(job.work, f"{block.number:06}.done")


def save(value, path: str, job: Job):
    with whole(path, job.work) as begun, open(begun, "w", encoding="ascii") as file:
        file.write(json.dumps(value))


def saved(block: Block, job: Job) -> Kept:
    with open(kept_file(block, job), encoding="ascii") as file:
        spans, lost = json.load(file)
    return Kept([SpanReads(sha256, [Read(Row(*row), *names) for row, *names in reads], is_change,
                           tuple(Subtree(*it) for it in trees))
                 for sha256, reads, is_change, trees in spans], lost)


def fault_row(place: Place, cause: str) -> Read:
    return Read(Row(*place, "", "", "", 0, FAULT, cause=cause))


def with_names(found: Read, octets: bytes, program: str) -> Read:
    """A certificate's row with the hosts that it names."""
    if found.row.kind != CERT:
        return found
    try:
        return found._replace(row=found.row._replace(names=names_of(octets, program)))
    except (Failed, OSError) as error:
        causes = filter(None, (found.row.cause, f"names: {error}"))
        return found._replace(row=found.row._replace(cause="; ".join(causes)))


def read_span(span: Span, met: Set[str], job: Job) -> SpanReads:
    """What stands in a span; one row that says so where it can't be read."""
    given, place = job.settings, Place(span.file, span.begin)
    try:
        octets = octets_of(span)
    except Changed as error:
        return SpanReads("", [fault_row(place, str(error))], True)
    except OSError as error:
        return SpanReads("", [fault_row(place, f"cannot read: {error.strerror}")])
    entries = [*read_octets(span, octets, given.limit)]
    every = [*with_chains(entries, met)]
    reads = [read(it, given.limit) for it in every]
    if given.names:
        reads = [with_names(it, entry.octets, given.program) for it, entry in zip(reads, every)]
    trees = of_leaves(span.first or 0, (it.leaf_hash for it in entries), job.tree_size)
    return SpanReads(span.sha256 or digest(octets), reads, False, tuple(trees))


def own(reads: List[Read]) -> List[Row]:
    """The rows of entries, without those of chains."""
    return [it.row for it in reads if it.row.source != CHAIN]


def survey_of(kept: Kept) -> Survey:
    faults = tuple(Fault(Place(it.file, it.offset), it.cause, span.is_change)
                   for span in kept.spans for it in own(span.reads) if it.cause)
    rows = [own(it.reads) for it in kept.spans]
    counts = tuple(sum(bool(row.log_index) for row in it) for it in rows)
    names = frozenset(it.issuer for it in kept.reads if it.row.kind == CERT)
    return Survey(sum(map(len, rows)), names, faults, tuple(it.sha256 for it in kept.spans), counts,
                  tuple(it.trees for it in kept.spans))


def survey(block: Block, job: Job) -> Survey:
    """The first pass: reads all entries of a block, and keeps their rows. What a run before has
    kept isn't read again."""
    if os.path.exists(kept_file(block, job)):
        kept = saved(block, job)
        if not kept.lost:
            return survey_of(kept)
    met: Set[str] = set()
    return keep(block, job, Kept([read_span(it, met, job) for it in block.spans]))


def keep(block: Block, job: Job, kept: Kept) -> Survey:
    """Keeps what was read of a block: what was written of something else doesn't count any more."""
    with reporting(job.work):
        if os.path.exists(done_file(block, job)):
            os.remove(done_file(block, job))
    save(kept, kept_file(block, job), job)
    return survey_of(kept)


def lose(block: Block, job: Job, why: str) -> Survey:
    """Keeps a row for each span of a block that can't be read at all."""
    spans = [SpanReads("", [fault_row(Place(it.file, it.begin), why)]) for it in block.spans]
    return keep(block, job, Kept(spans, why))


def octets_again(span: Span, kept: SpanReads, met: Set[str], limit: int) -> List[bytes]:
    """The octets of what the first pass read in a span; Changed where they aren't there any more.
    What is met of chains is then known by what was read first."""
    before = {it.row.sha256 for it in kept.reads if it.row.source == CHAIN}
    try:
        octets = octets_of(span._replace(sha256=kept.sha256))
        found = [it.octets for it in with_chains(read_octets(span, octets, limit), {*met})]
        if len(found) != len(kept.reads):
            raise Changed(span.file)
        return found
    except OSError as error:
        raise Changed(span.file) from error
    finally:
        met |= before


def changed_at(span: Span, more: str = "") -> Fault:
    return Fault(Place(span.file, span.begin), str(Changed()) + more, True)


class Again(NamedTuple):
    """A span that is read again, with its octets; none where it needn't be or can't be."""
    span: Span
    kept: SpanReads
    octets: Optional[List[bytes]]
    is_changed: bool


def again(block: Block, kept: Kept, job: Job, wanted) -> Iterator[Again]:
    """The spans of a block; those of which `wanted` says so are read again."""
    met: Set[str] = set()
    for span, before in zip(block.spans, kept.spans):
        octets, is_changed = None, False
        if before.sha256 and any(map(wanted, before.reads)):
            try:
                octets = octets_again(span, before, met, job.settings.limit)
            except Changed:
                is_changed = True
        else:
            met |= {it.row.sha256 for it in before.reads if it.row.source == CHAIN}
        yield Again(span, before, octets, is_changed)


def candidates(block: Block, job: Job) -> Found:
    """The certificates and lists of a block under whose name something was issued, each once."""
    kept, changed = saved(block, job), []
    found: Dict[str, Candidate] = {}
    with Index(job.index_file) as index:
        wanted = {it.row.sha256 for it in kept.reads if it.row.kind in (CERT, LIST)
                  and index.issues(it.name)}
    for it in again(block, kept, job, lambda read: read.row.sha256 in wanted):
        if it.is_changed:
            changed.append(changed_at(it.span, "; its issuers are left out"))
        for read_before, octets in zip(it.kept.reads, it.octets or ()):
            if read_before.row.sha256 in wanted:
                found.setdefault(read_before.row.sha256, Candidate(read_before, octets))
    return Found([*found.values()], tuple(changed))


def asked_of(index: Index, targets: List[Target], job: Job) -> Asked:
    """What a shard of these targets is asked with."""
    given = job.settings
    with open(job.anchor_file, "rb") as file:
        anchors = file.read()
    shard = shard_of(index, targets)
    if given.vouchers is not None:
        keys = signatures.given(index, shard.items)
    else:
        shared = {it.item for it in index.closure({it.issuer for it in targets})}
        keys = signatures.verified(shard.bundle, anchors, given.limit, given.weak, given.tries,
                                   shared)
    words = ["--at", moment(given.at), "--limit", str(given.limit)]
    words += ["--demand-lists"] if given.demand_lists else []
    return Asked(given.program, job.anchor_file, digests_of(anchors, given.limit), words, keys)


def is_target(read_before: Read) -> bool:
    return read_before.row.kind == CERT and read_before.row.source != CHAIN


def answered(spans: List[Again], job: Job) -> Iterator[Row]:
    """The rows of a block with what is answered of its certificates."""
    targets = {it.row.sha256: Target(it.row.sha256, it.issuer, octets) for span in spans
               for it, octets in zip(span.kept.reads, span.octets or ()) if is_target(it)}
    with Index(job.index_file) as index:
        asked = asked_of(index, [*targets.values()], job)
        found = answers(shard_of(index, [*targets.values()]), asked)
        pathless = [it for it in targets.values()
                    if job.settings.why and found[it.item].outcome == NONE]
        whys = Reasons(index, asked, job.settings).of(pathless)
    for span in spans:
        for row in own(span.kept.reads):
            yield lost(row, str(Changed())) if span.is_changed else with_answer(
                row, found.get(row.sha256), whys.get(row.sha256, ""))


def with_answer(row: Row, answer: Optional[Answer], why: str) -> Row:
    if answer is None or row.kind != CERT:
        return row
    return row._replace(outcome=answer.outcome, path=" ".join(answer.path), anchor=answer.anchor,
                        reasons=why)


def lost(row: Row, why: str) -> Row:
    """A row that can't be answered, with the reason."""
    return row._replace(outcome=FAULT, reasons=why) if row.kind == CERT else row


def written(block: Block, rows: List[Row], job: Job, trouble: str = "",
            changed: Tuple[Fault, ...] = ()) -> Part:
    outcomes: Dict[str, int] = {}
    for row in rows:
        word = row.outcome or row.kind
        outcomes[word] = outcomes.get(word, 0) + 1
    path = tables.part(job.folder(ENTRIES), block.number, job.settings.form)
    part = Part(tables.write(path, rows, job.settings.form, job.work), outcomes, trouble, changed)
    save([job.index_digest, part], done_file(block, job), job)
    return part


def done_before(block: Block, job: Job) -> Optional[Part]:
    """The part that a run before has written with an equal index; none where it hasn't, or
    couldn't answer it."""
    path = done_file(block, job)
    if not os.path.exists(path):
        return None
    with open(path, encoding="ascii") as file:
        index_digest, (rows, outcomes, trouble, changed) = json.load(file)
    if trouble or index_digest != job.index_digest:
        return None
    return Part(rows, outcomes, "", tuple(Fault(Place(*place), *rest) for place, *rest in changed))


def finish(block: Block, job: Job) -> Part:
    """The second pass: answers a shard, whose targets are the certificates of a block, and writes
    its part of the table. In trouble the rows are written without answers."""
    before = done_before(block, job)
    if before is not None:
        return before
    kept = saved(block, job)
    try:
        spans = [*again(block, kept, job, is_target)]
        rows = [*answered(spans, job)]
    except TROUBLES as error:
        return unanswered(block, job, f"{type(error).__name__}: {error}")
    changed = tuple(changed_at(it.span) for it in spans if it.is_changed)
    return written(block, rows, job, "", changed)


def unanswered(block: Block, job: Job, why: str) -> Part:
    """Writes the rows of a shard that can't be answered, each with the reason."""
    return written(block, [lost(it, why) for it in own(saved(block, job).reads)], job, why)
