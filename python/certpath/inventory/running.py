"""Runs the tasks of all blocks by Dask, one pass after the other."""
import hashlib
import re
from concurrent.futures import CancelledError
from typing import (TYPE_CHECKING, Callable, Dict, Iterable, Iterator, List, NamedTuple, Optional,
                    Set, Tuple)

from . import index, jobs, records, signatures, tables, trees, work
from .blocks import Block, blocks_of
from .entries import Place
from .files import Cut
from .jobs import Different, Plan, State, planned
from .progress import ENTRIES, Silent
from .ranges import Range, covered
from .work import ISSUERS, WORK, Fault, Part, Settings, Survey
from .writing import CannotWrite

if TYPE_CHECKING:
    from dask.distributed import Client

# Of faults that differ in numbers alone so many are shown one by one.
MOST_SHOWN = 5
NUMBER = re.compile(r"\b\d+\b")
# So many files are cut by one task.
FILES_OF_TASK = 500


class Lost(Exception):
    """The scheduler was lost, or a worker can't work, and the run ends."""


class Done(NamedTuple):
    """What a run did."""
    entries: int
    """How many entries were read."""
    rows: int
    """How many rows are in the table."""
    issuers: int
    """How many certificates and lists are in the second table, that of issuers."""
    blocks: int
    faults: int
    """How many entries have a fault, and shards that couldn't be answered."""
    outcomes: Dict[str, int]
    """How many rows have which outcome, or which class where they have none."""
    kinds: Dict[str, int]
    """How many faults there are of each kind."""
    changed: int = 0
    """How often a file wasn't any more what it was."""
    unanswered: int = 0
    """How many blocks couldn't be read or answered; `resume` tries these again."""
    missing: Tuple[Range, ...] = ()
    """Which entries of the log are in no answer, where their ranges are known."""
    twice: Tuple[Range, ...] = ()
    """Which are in several."""
    tree: str = ""
    """What is wrong where the entries aren't those of the tree head; empty where they are, or none is
    given."""


class Faults:
    """Counts faults, and shows the first of each kind."""

    def __init__(self, show: Callable[[str], None]):
        self.show, self.changed = show, 0
        self.counts: Dict[str, int] = {}

    def add(self, fault: Fault):
        kind = NUMBER.sub("N", fault.cause)
        self.counts[kind] = self.counts.get(kind, 0) + 1
        self.changed += fault.is_change
        if self.counts[kind] <= MOST_SHOWN:
            self.show(f"{fault.place.file} {fault.place.offset}: {fault.cause}")

    def end(self) -> int:
        """Shows how many weren't shown, and gives the number of all."""
        for kind, count in self.counts.items():
            if count > MOST_SHOWN:
                self.show(f".. {count - MOST_SHOWN} further: {kind}")
        return sum(self.counts.values())


class Run:
    """The passes of one run."""

    def __init__(self, plan: Plan, client: 'Client', show: Callable[[str], None], progress):
        self.plan, self.job, self.client = plan, plan.job, client
        self.show, self.progress, self.faults = show, progress, Faults(show)
        self.blocks: List[Block] = []
        self.surveys: List[Survey] = []
        self.unanswered: Set[int] = set()

    def results(self, task: Callable, each: Iterable, *rest) -> Iterator[tuple]:
        """What a task gives of each argument, in their order: the argument, the result, and the
        error in the place of a result. What was given is dropped."""
        each = [*each]
        futures = self.client.map(task, each, *([it] * len(each) for it in rest), pure=False)
        futures.reverse()
        for argument in each:
            future = futures.pop()
            yield (argument, *given(future))

    def shown(self, name: str, results: Iterable[tuple], count: Callable,
              things: str = ENTRIES) -> Iterator[tuple]:
        """Results of blocks, whose progress is shown with how many things came of them."""
        shown = self.progress.begin(name, sum(it.length for it in self.blocks), things)
        for block, result, error in results:
            shown.step(block.length, 0 if error else count(result))
            yield block, result, error

    def cut(self) -> List[Cut]:
        """All files as they are cut; OSError where one can't be read."""
        files = self.plan.files
        groups = [files[it:it + FILES_OF_TASK] for it in range(0, len(files), FILES_OF_TASK)]
        shown, found = self.progress.begin("cutting", len(files), "files"), []
        for group, cuts, error in self.results(work.cut, groups, self.job):
            if error:
                raise error
            shown.step(len(group), len(group))
            found += cuts
        return found

    def begin(self) -> State:
        """Reads the vouchers and cuts the files, or takes what a run before has found."""
        index.create(self.job.index_file)
        vouchers, given = hashlib.sha256(), self.job.settings.vouchers
        if given is not None:
            index.add_vouchers(self.job.index_file, signatures.lines_of(given, vouchers.update))
        read, state = vouchers.hexdigest() if given is not None else "", self.plan.state
        if state is None:
            state = State(read, self.cut())
            jobs.store_state(self.job, state)
        if state.vouchers != read:
            raise Different(f"{self.job.out} holds a run that was asked for other vouchers")
        return state

    def survey(self) -> int:
        """The first pass: how many entries there are. A block that can't be read is one with a
        fault."""
        results, names = self.results(work.survey, self.blocks, self.job), set()
        for block, found, error in self.shown("first pass", results, lambda it: it.entries):
            if error:
                found = work.lose(block, self.job, f"not read: {said_of(error)}")
                self.unanswered.add(block.number)
            names |= found.names
            self.surveys.append(found._replace(names=frozenset(), faults=()))
            for fault in found.faults:
                self.faults.add(fault)
        index.add_names(self.job.index_file, names)
        return sum(it.entries for it in self.surveys)

    def candidates(self) -> Iterator[index.Candidate]:
        """What may issue or revoke, in the order of everything."""
        results = self.results(work.candidates, self.blocks, self.job)
        for block, found, error in self.shown("index", results, lambda it: len(it.candidates),
                                              "issuers and lists"):
            if error:
                self.unanswered.add(block.number)
                self.faults.add(at_front(block, f"its issuers are left out: {said_of(error)}"))
                continue
            for fault in found.changed:
                self.faults.add(fault)
            yield from found.candidates

    def issuers(self) -> int:
        """Makes the index and the table of issuers, and gives how many there are."""
        new = [it.read.row for it in index.add_issuers(self.job.index_file, [*self.candidates()])]
        form = self.job.settings.form
        path = tables.part(self.job.folder(ISSUERS), 0, form)
        return tables.write(path, new, form, self.job.work)

    def answers(self) -> Part:
        """The second pass: how many rows are there, and with which outcomes. The rows of a shard
        that can't be answered are written without answers."""
        job = self.job._replace(index_digest=index.digest_of(self.job.index_file))
        rows = 0
        outcomes: Dict[str, int] = {}
        results = self.results(work.finish, self.blocks, job)
        for block, part, error in self.shown("second pass", results, lambda it: it.rows):
            part = work.unanswered(block, job, said_of(error)) if error else part
            rows += part.rows
            for word, count in part.outcomes.items():
                outcomes[word] = outcomes.get(word, 0) + count
            if part.trouble:
                self.unanswered.add(block.number)
                self.faults.add(at_front(block, f"not answered: {part.trouble}"))
            for fault in part.changed:
                self.faults.add(fault)
        return Part(rows, outcomes)

    def ranges(self) -> Tuple[Tuple[Range, ...], Tuple[Range, ...]]:
        """Which entries of the log are in no answer, and which in several."""
        last = max((it.last for block in self.blocks for it in block.spans if it.last is not None),
                   default=None)
        found = covered(self.numbered(), last)
        for word, which in (("in no file", found.missing), ("in several files", found.twice)):
            for it in which[:MOST_SHOWN]:
                self.show(f"entries {it} of the log: {word}")
            if len(which) > MOST_SHOWN:
                self.show(f".. {len(which) - MOST_SHOWN} further ranges: {word}")
        return tuple(found.missing), tuple(found.twice)

    def numbered(self) -> Iterator[Range]:
        """The log's numbers of what each answer holds."""
        for block, survey in zip(self.blocks, self.surveys):
            for span, count in zip(block.spans, survey.counts):
                if span.first is not None and count:
                    yield Range(span.first, span.first + count - 1)

    def tree(self) -> str:
        """Compares the entries with the tree head, if there is one, and says what comes out."""
        head = self.plan.head
        if head is None:
            return ""
        found = (it for survey in self.surveys for of_span in survey.trees for it in of_span)
        wrong = trees.compared(found, head)
        beyond = sum(max(0, it.last - max(it.first, head.size) + 1) for it in self.numbered())
        more = f"; {beyond} further entries aren't in it" if beyond else ""
        self.show(f"tree head of {head.size} entries: "
                  f"{wrong or 'each of them is there, and the root is equal'}{more}")
        return wrong

    def all(self) -> Done:
        state = self.begin()
        spans = (span for it in state.cuts for span in it.spans)
        self.blocks = blocks_of(spans, self.job.settings.blocksize)
        entries = self.survey()
        issuers = self.issuers()
        part = self.answers()
        missing, twice = self.ranges()
        done = Done(entries, part.rows, issuers, len(self.blocks), self.faults.end(), part.outcomes,
                    self.faults.counts, self.faults.changed, len(self.unanswered), missing, twice,
                    self.tree())
        records.write(self.plan, state, self.blocks, self.surveys, done)
        return done


def given(future) -> tuple:
    """What a task gave, and its error. Lost and CannotWrite of an error that would be one of each
    further task."""
    try:
        error = future.exception()
        result = None if error else future.result()
    except (CancelledError, OSError) as lost:
        raise Lost("the scheduler was lost; --resume goes on with what is done") from lost
    if isinstance(error, CannotWrite):
        raise error
    if isinstance(error, ImportError):
        raise Lost(f"a worker lacks a module: {said_of(error)}") from error
    return result, error


def said_of(error: BaseException) -> str:
    return f"{type(error).__name__}: {error}".splitlines()[0]


def at_front(block: Block, cause: str) -> Fault:
    """What is wrong with a whole block."""
    return Fault(Place(block.spans[0].file, block.spans[0].begin), cause)


def passes(plan: Plan, client: Optional['Client'], show: Callable[[str], None] = lambda line: None,
           progress=None) -> Done:
    """Makes the table that is planned, or what is missing of it; a table that is finished needs no
    client. What was kept between the passes is removed, unless `resume` can try something again."""
    if plan.finished is not None:
        return records.done_of(plan.finished)
    assert client is not None
    amiss = plan.anchors.amiss(plan.job.settings.anchors)
    if amiss:
        show(amiss)
    done = Run(plan, client, show, progress or Silent()).all()
    if not done.unanswered:
        jobs.remove(plan.job, WORK)
    return done


def run(files: List[str], out: str, settings: Settings, client: 'Client',
        show: Callable[[str], None] = lambda line: None, resume: bool = False) -> Done:
    """Makes the table of some files, or of all in some folders, in the folder `out`, which is new
    or empty, or with `resume` holds a run that has ended early.

    `show` is given a line for each fault. OSError where a file can't be read, signatures.BadLine
    of the vouchers, anchors.BadAnchors, CannotWrite of the folder, program.Missing, jobs.Different
    where a run that is gone on with was asked for something else, Lost.
    """
    with planned(files, out, settings, resume) as plan:
        return passes(plan, client, show)
