"""Jobs: what a run was asked for and how far it came, in the folder of its table. A run that has
ended early is gone on with by another one that is asked for equal things."""
import fcntl
import hashlib
import json
import os
import shutil
from contextlib import contextmanager
from datetime import datetime, timezone
from typing import Iterator, List, NamedTuple, Optional, Sequence

from . import anchors, inputs, program, tables, trees
from .files import Cut, Span
from .work import ENTRIES, ISSUERS, WORK, Job, Settings
from .writing import CannotWrite, reporting, whole

JOB, STATE, RECORD, LOCK = "job.json", "state.json", "run.json", "lock"
MOMENT = "%Y-%m-%dT%H:%M:%S"
# What may differ between a run and one that goes on with it.
FREE = ("program", "at", "anchors", "vouchers", "tree_head")


class Different(ValueError):
    """A run that is gone on with was asked for something else."""


class State(NamedTuple):
    """What the first steps of a run found: it doesn't change any more."""
    vouchers: str
    """The digest of the voucher file; empty where none is given."""
    cuts: List[Cut]


class Plan(NamedTuple):
    """A run that may begin, or go on."""
    job: Job
    files: List[str]
    anchors: anchors.Anchors
    head: Optional[trees.TreeHead]
    """The tree head with which the log's entries are compared; None where there is none."""
    begun: str
    """When the first of its runs began, in UTC."""
    state: Optional[State]
    """What a run before has found; None where there was none."""
    finished: Optional[dict]
    """The record of a run that is finished; None where it isn't."""


def completed(settings: Settings) -> Settings:
    """Settings with all that is left open chosen; NoParquet where that can't be written."""
    if settings.form == tables.PARQUET:
        tables.parquet_module()
    at = settings.at or datetime.now(timezone.utc)
    at = at.astimezone(timezone.utc).replace(tzinfo=None) if at.tzinfo else at
    vouchers = settings.vouchers and os.path.abspath(settings.vouchers)
    return settings._replace(
        at=at.replace(microsecond=0), anchors=os.path.abspath(settings.anchors), vouchers=vouchers,
        program=program.found(settings.program))


def asked(settings: Settings, files: List[str], held: anchors.Anchors,
          head: Optional[trees.TreeHead]) -> dict:
    """What has to be equal where a run is gone on with."""
    names = hashlib.sha256("\0".join(files).encode(errors="surrogateescape")).hexdigest()
    words = {it: value for it, value in settings._asdict().items() if it not in FREE}
    return {**words, "vouchers": settings.vouchers is not None, "anchors": held.sha256,
            "files": names, "tree_head": head and [*head]}


def load(path: str):
    with open(path, encoding="utf-8") as file:
        return json.load(file)


def store(value, path: str, work: str):
    with whole(path, work) as begun, open(begun, "w", encoding="utf-8") as file:
        json.dump(value, file, indent=1)
        file.write("\n")


def state_of(job: Job) -> Optional[State]:
    """What a run before has found."""
    path = os.path.join(job.work, STATE)
    if not os.path.exists(path):
        return None
    vouchers, cuts = load(path)
    return State(vouchers, [Cut([Span(*it) for it in spans], sha256) for spans, sha256 in cuts])


def store_state(job: Job, state: State):
    with whole(os.path.join(job.work, STATE), job.work) as begun, \
            open(begun, "w", encoding="ascii") as file:
        file.write(json.dumps(state))


def new_folders(job: Job, out: str):
    """The folder of a table, which is new or empty, with all that it needs."""
    with reporting(out):
        os.makedirs(job.out, exist_ok=True)
        if os.listdir(job.out):
            more = "; a run has ended early there: --resume goes on with it" if os.path.exists(
                os.path.join(job.work, JOB)) else ""
            raise CannotWrite(f"{out} isn't empty{more}")
        for name in (WORK, ENTRIES, ISSUERS):
            os.mkdir(job.folder(name))


def is_bare(job: Job) -> bool:
    """Whether a run has ended before it was written down what it was asked for."""
    return (os.path.isdir(job.work) and not os.path.exists(os.path.join(job.work, JOB))
            and not any(os.path.isdir(it) and os.listdir(it)
                        for it in map(job.folder, (ENTRIES, ISSUERS))))


def begin(job: Job, out: str, words: dict, held: anchors.Anchors) -> str:
    """Begins a run in a new folder; gives the time of that."""
    new_folders(job, out)
    begun = datetime.now(timezone.utc).strftime(MOMENT)
    with whole(job.anchor_file, job.work) as path, open(path, "wb") as file:
        file.write(held.octets)
    given = {"asked": words, "at": job.at.strftime(MOMENT), "begun": begun}
    store(given, os.path.join(job.work, JOB), job.work)
    return begun


def gone_on(job: Job, words: dict, at: Optional[datetime]) -> tuple:
    """The job of a run that has ended early, with its moment, and when it began. Different where it
    was asked for something else."""
    before, record = load(os.path.join(job.work, JOB)), os.path.join(job.out, RECORD)
    differing = sorted(it for it in words if before["asked"].get(it) != words[it])
    moment = datetime.strptime(before["at"], MOMENT)
    if at is not None and job.settings.at != moment:
        differing.append("at")
    if differing:
        raise Different(f"{job.out} holds a run that was asked for other {', '.join(differing)}")
    with reporting(record):
        if os.path.exists(record):
            os.remove(record)
    return job._replace(settings=job.settings._replace(at=moment)), before["begun"]


@contextmanager
def locked(job: Job) -> Iterator[None]:
    """No other run works in the folder meanwhile; CannotWrite where one does."""
    with reporting(job.work):
        file = open(os.path.join(job.work, LOCK), "w", encoding="ascii")
    with file:
        try:
            fcntl.flock(file, fcntl.LOCK_EX | fcntl.LOCK_NB)
        except BlockingIOError as error:
            raise CannotWrite(f"{job.out}: another run works there") from error
        yield


@contextmanager
def planned(names: List[str], out: str, settings: Settings, resume: bool = False,
            lists: Sequence[str] = ()) -> Iterator[Plan]:
    """What is to be done, after all words are tested that can be without reading the files; the
    folder is there, as long as the context lasts, for nobody else.

    Where the run ends before anything was read, nothing is left in the folder. OSError, BadAnchors,
    Missing of the program, NoParquet, CannotWrite, Different.
    """
    files = inputs.listed(names, lists)
    held = anchors.read(settings.anchors, settings.limit)
    head = trees.read(settings.tree_head) if settings.tree_head else None
    job = Job(completed(settings), os.path.abspath(out), head.size if head else 0)
    words = asked(job.settings, files, held, head)
    record = os.path.join(job.out, RECORD)
    if resume and os.path.exists(record) and not os.path.exists(job.work):
        yield Plan(job, files, held, head, "", None, load(record))
        return
    if resume and os.path.exists(os.path.join(job.work, JOB)):
        job, begun = gone_on(job, words, settings.at)
    else:
        if resume and is_bare(job):
            remove(job, WORK, ENTRIES, ISSUERS)
        begun = begin(job, out, words, held)
    with locked(job):
        try:
            yield Plan(job, files, held, head, begun, state_of(job), None)
        except BaseException:
            if not os.path.exists(os.path.join(job.work, STATE)):
                remove(job, ENTRIES, ISSUERS, WORK)
            raise


def remove(job: Job, *names: str):
    for name in names:
        shutil.rmtree(job.folder(name), ignore_errors=True)
