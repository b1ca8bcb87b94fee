"""The record of a run: what the table beside it was made of, and what came out."""
import os
import platform
import ssl
from datetime import datetime, timezone
from typing import Dict, Iterator, List

from .. import library
from .blocks import Block
from .files import digest_of, opened
from .jobs import MOMENT, RECORD, Plan, State, store
from .probe import fingerprint
from .ranges import Range
from .trees import count_of
from .work import Survey

DONE, FAULTY, CHANGED = 0, 1, 8


def status_of(done) -> int:
    """The exit status of a run that has made a table."""
    if done.changed:
        return CHANGED
    amiss = done.faults or done.missing or done.tree or done.entries != done.rows
    return FAULTY if amiss else DONE


def versions(program: str) -> Dict[str, str]:
    """What has made the table."""
    found = {"python": platform.python_version(), "openssl": ssl.OPENSSL_VERSION,
             "library": str(library.version())}
    for name in ("dask", "distributed"):
        try:
            found[name] = __import__(name).__version__
        except ImportError:
            pass
    with opened(program) as file:
        found["program_sha256"] = digest_of(file)
    found["package_sha256"] = fingerprint()
    return found


def inputs(state: State, blocks: List[Block], surveys: List[Survey]) -> Iterator[dict]:
    """Each file, with the digest of what was read; empty where it couldn't be."""
    read = iter([it for block in surveys for it in block.digests])
    for cut in state.cuts:
        digests = [next(read) for _ in cut.spans]
        span = cut.spans[0]
        yield {"file": span.file, "octets": span.size, "sha256": cut.sha256 or digests[0]}


def in_tree(blocks: List[Block], surveys: List[Survey], wrong: str) -> Iterator[dict]:
    """Of each block and file, whose entries have numbers, which they are, the roots of their
    subtrees (RFC 6962, 2.1), each of 2^level of them from the first one on, and whether all are in
    the tree: null where the trees aren't equal, so that nothing is known of one entry."""
    for block, survey in zip(blocks, surveys):
        for span, count, trees in zip(block.spans, survey.counts, survey.trees):
            if span.first is not None:
                yield {"block": block.number, "file": span.file, "first": span.first,
                       "entries": count, "included": None if wrong else count_of(trees) == count,
                       "subtrees": [it._asdict() for it in trees]}


def options(plan: Plan) -> dict:
    given = plan.job.settings._asdict()
    return {it: value for it, value in given.items()
            if it not in ("anchors", "vouchers", "at", "tree_head")}


def write(plan: Plan, state: State, blocks: List[Block], surveys: List[Survey], done):
    """Writes the record beside the table."""
    given, held = plan.job.settings, plan.anchors
    store({
        "status": status_of(done),
        "begun": plan.begun, "ended": datetime.now(timezone.utc).strftime(MOMENT),
        "versions": versions(given.program), "moment": plan.job.at.strftime(MOMENT),
        "options": options(plan),
        "anchors": {"file": given.anchors, "sha256": held.sha256, "items": held.items,
                    "usable": held.usable, "left_out": held.left},
        "tree_head": plan.head and plan.head._asdict(),
        "vouchers": given.vouchers and {"file": given.vouchers, "sha256": state.vouchers},
        "done": done._asdict(),
        "inputs": [*inputs(state, blocks, surveys)],
        "tree": plan.head and [*in_tree(blocks, surveys, done.tree)],
    }, os.path.join(plan.job.out, RECORD), plan.job.work)


def done_of(record: dict):
    """What a finished run did, by its record."""
    from .running import Done
    given = record["done"]
    ranges = {it: tuple(Range(*each) for each in given[it]) for it in ("missing", "twice")}
    return Done(**{**given, **ranges})
