"""A chain of certificates, verified in one call."""
import os
from dataclasses import dataclass
from datetime import datetime, timezone
from typing import Iterable, List, Optional, Tuple, Union

from . import library
from .items import LIMIT, Item, Items, Octets
from .loading import Loaded, load
from .openssl import vouch
from .paths import Answer, HostGiven, PurposeGiven, check, find
from .reports import why
from .stores import trust_store

# What is read: a path, the octets of a file, what `load` returned, or items.
Source = Union[str, "os.PathLike[str]", Octets, Loaded, Items]
Sources = Union[Source, Iterable[Source]]


@dataclass(frozen=True)
class Verified:
    """Whether a chain is valid, by which certificates, and what was asked. It is true if the chain
    is valid.

    >>> import certpath
    >>> from datetime import datetime
    >>> verified = certpath.verify("samples/fullchain.pem", "samples/root.pem", host="other.test",
    ...                            at=datetime(2027, 1, 1))
    >>> bool(verified), verified.path, verified.why().splitlines()[4]
    (False, (), "at 0 doesn't serve other.test: it names www.example.test")
    """
    answer: Answer
    """The answer of `find`, of which `check` said that it is right."""
    path: Tuple[Item, ...]
    """The certificates of the path, the target's first; empty if there is none."""
    anchor: Optional[Item]
    """The trust anchor at which the path ends; None if there is no path."""
    left: Tuple[Loaded, ...]
    """The files of which something was left out: each one's `left` says what and why."""

    def __bool__(self) -> bool:
        return self.answer.found

    def why(self) -> str:
        """What `certpath why` prints for the chain, the host and the purpose: each reason why there
        is no path."""
        asked = self.answer.asked
        assert asked is not None
        return why(asked.bundle, asked.anchors, asked.vouchers, asked.target, asked.at,
                   asked.demand_lists, host=asked.host, purpose=asked.purpose)


def loaded_of(source: Source) -> Loaded:
    """What a source holds."""
    if isinstance(source, Items):
        return Loaded(None, "DER", source, [], [])
    return source if isinstance(source, Loaded) else load(source)


def loaded_from(sources: Sources) -> List[Loaded]:
    """What each source holds: one, or several."""
    if isinstance(sources, (str, os.PathLike, bytes, bytearray, memoryview, Loaded, Items)):
        sources = [sources]
    return [*map(loaded_of, sources)]


def joined(files: List[Loaded], what: str, limit: int) -> Items:
    """The items of all files, in their order; ValueError if there are none."""
    items = Items(b"".join(it.items.data[:it.items.end.at] for it in files), limit)
    if not items:
        left = "; ".join(str(one) for it in files for one in it.left)
        raise ValueError(f"{what}: neither certificate nor revocation list"
                         f"{f' ({left:.200})' if left else ''}")
    return items


def verify(chain: Sources, anchors: Optional[Sources] = None, *, host: HostGiven = None,
           purpose: PurposeGiven = None, at: Optional[datetime] = None,
           demand_lists: bool = False, weak: bool = False) -> Verified:
    """Whether the first certificate of a chain is valid: the other items of the chain are what a
    path may go by, and revocation lists. Signatures are verified by OpenSSL, `find` searches for a
    path, and `check` has to agree.

    >>> import certpath
    >>> from datetime import datetime, timezone
    >>> at = datetime(2026, 12, 1, tzinfo=timezone.utc)
    >>> verified = certpath.verify("samples/fullchain.pem", "samples/root.pem", at=at,
    ...                            host="www.example.test", purpose="serverAuth")
    >>> bool(verified), len(verified.path), str(verified.anchor.subject)
    (True, 2, 'C=CZ, O=Example, CN=Example Root')
    >>> bool(certpath.verify("samples/fullchain.pem", "samples/root.pem", at=at, host="other.test"))
    False

    `chain` and `anchors` are paths of files, octets of files, what `load` returned, or Items; or
    several of them. Files are of any form that `load` takes. The anchors are the system's trust
    store if they aren't given, and `at` is now. `host`, `purpose` and `demand_lists` are those of
    `find`, `weak` is that of `certpath.openssl.vouch`.

    ValueError if the chain or the anchors have no item; OSError, TypeError, BadHost, BadMoment,
    BadItem and OutOfMemory as `load` and `find` raise them, and certpath.openssl.Missing if there is
    no libcrypto of OpenSSL 3.
    """
    files = loaded_from(chain)
    anchor_files = loaded_from(trust_store() if anchors is None else anchors)
    limit = max((it.items.limit for it in (*files, *anchor_files)), default=LIMIT)
    bundle, trusted = joined(files, "the chain", limit), joined(anchor_files, "the anchors", limit)
    at = datetime.now(timezone.utc) if at is None else at
    vouchers = vouch(bundle, trusted, weak=weak).vouchers
    answer = find(bundle, trusted, vouchers, 0, at, demand_lists, host=host, purpose=purpose)
    if not check(answer):
        raise library.Error("the check doesn't agree with the answer that was found")
    path = tuple(bundle[it] for it in answer.positions)
    left = tuple(it for it in [*files, *anchor_files] if it.left)
    return Verified(answer, path, trusted[answer.anchor] if answer.found else None, left)
