"""Answers questions of signatures by libcrypto of OpenSSL 3, which reads and verifies the items.

    >>> import certpath.openssl
    >>> bundle, anchors = (certpath.load(it).items for it in ("samples/fullchain.pem",
    ...                                                       "samples/root.pem"))
    >>> found = certpath.openssl.vouch(bundle, anchors)
    >>> found.vouchers, [it.is_verified for it in found.verdicts]
    (<Vouchers(2 pairs)>, [True, True])
    >>> certpath.openssl.vouch(bundle, bundle).verdicts[0]
    Verdict(question=Question(item=0, holder=1, is_anchor=False), is_verified=True, \
weaknesses=(), why=None)

Of this nothing is proved: what is vouched for is what OpenSSL says.
"""
from contextlib import contextmanager
from itertools import chain, groupby
from typing import Callable, Dict, Iterable, Iterator, List, NamedTuple, Optional, Tuple

from . import algorithms, arguments, libcrypto
from .fixed import kept
from .items import Certificate, Given, Item, Kind, both
from .questions import Question, item_at, questions
from .vouchers import Vouchers

WORDS = {Kind.CERTIFICATE: libcrypto.CERTIFICATE, Kind.LIST: libcrypto.LIST}
# How many keys are tried for an item, at most, if no number is given.
MOST_TRIES = 16
NOT_TRIED, UNREAD = "not tried", "openssl cannot read it"
TWO_ALGORITHMS = "its two algorithms differ"


class Missing(ImportError):
    """There is no libcrypto of OpenSSL 3."""


class Verdict(NamedTuple):
    """What OpenSSL says of a question."""
    question: Question
    is_verified: bool
    """Whether the key verifies the signature."""
    weaknesses: Tuple[str, ...]
    """Of a verified signature: in which words it is weak, as "sha1" or "1024-bit RSA key"."""
    why: Optional[str]
    """Why the key doesn't verify it; None if it does."""

    def is_taken(self, weak: bool = False) -> bool:
        """Whether the key vouches for the item: weak signatures only if `weak` is true."""
        return self.is_verified and (weak or not self.weaknesses)


class Vouched(NamedTuple):
    """Vouchers, and what they were made of."""
    vouchers: Vouchers
    verdicts: List[Verdict]
    """A Verdict for each question, in their order."""


class Tried(NamedTuple):
    """What OpenSSL says of an item and a key."""
    holder: int
    """Which of the holders has the key."""
    key: bytes
    weaknesses: Tuple[str, ...]
    """Of a verified signature: in which words it is weak."""
    why: Optional[str]
    """Why the key doesn't verify the signature; None if it does."""


class Judged(NamedTuple):
    """What OpenSSL says of an item."""
    why: Optional[str]
    """Why no key can be tried; None if keys were, or there is none."""
    tried: List[Tried]
    """The keys that were tried, in the order in which they were."""


def verifier() -> libcrypto.Verifier:
    """What asks OpenSSL; Missing if it isn't there. Each thread needs its own. Its `close` frees
    the keys that it keeps, as does the end of a `with` block."""
    try:
        return libcrypto.Verifier()
    except ImportError as error:
        raise Missing(str(error)) from error


@contextmanager
def closing(openssl: Optional[libcrypto.Verifier] = None) -> Iterator[libcrypto.Verifier]:
    """What asks OpenSSL: the one that is given, or else one of its own, which is closed then."""
    if openssl is not None:
        yield openssl
        return
    with verifier() as made:
        yield made


def unknown(identifier: str) -> str:
    """Why an algorithm isn't known."""
    of_parameters = " with its parameters" if identifier == algorithms.PSS else ""
    return f"algorithm {identifier} not known{of_parameters}"


# What gives the identifier that a certificate gives its key.
KeyId = Callable[[Certificate], Optional[bytes]]


class KeyHolders:
    """The certificates whose keys may have signed an item, and which of them are tried first."""

    def __init__(self, certificates: List[Certificate], key_id: KeyId):
        self.certificates, self.key_id = certificates, key_id

    @kept
    def _by_id(self) -> Dict[Optional[bytes], List[int]]:
        found: Dict[Optional[bytes], List[int]] = {}
        for place, it in enumerate(self.certificates):
            found.setdefault(self.key_id(it), []).append(place)
        return found

    @kept
    def _by_key(self) -> Dict[bytes, int]:
        return {it.public_key_bytes: place for place, it in enumerate(self.certificates)}

    def chosen(self, item: Item, named: Callable[[], Optional[bytes]], most: int) -> List[int]:
        """Which are tried, at most so many: first those of the key identifier that the item names,
        then its own key if it is self-issued, then the others in their order."""
        every = range(len(self.certificates))
        if len(every) < 2:
            return [*every[:most]]
        named_id, own = named(), None
        if isinstance(item, Certificate) and item.subject == item.issuer:
            own = self._by_key.get(item.public_key_bytes)
        first = self._by_id.get(named_id, ()) if named_id is not None else ()
        found: Dict[int, None] = {}
        for place in chain(first, () if own is None else (own,), every):
            if len(found) == most:
                break
            found[place] = None
        return [*found]


class Judge:
    """Asks OpenSSL about items, with at most `tries` keys each."""

    def __init__(self, openssl: Optional[libcrypto.Verifier] = None, tries: int = MOST_TRIES):
        self.tries = arguments.number(tries, "tries", None)
        self.openssl = openssl or verifier()
        self._ids: Dict[Certificate, Optional[bytes]] = {}

    def holders(self, certificates: List[Certificate]) -> KeyHolders:
        """Certificates whose keys are tried; made once for all items that they may have issued."""
        return KeyHolders(certificates, self.key_id)

    def judged(self, item: Item, holders: KeyHolders) -> Judged:
        """What OpenSSL says of a certificate or a list, by the keys of certificates."""
        if item.kind not in WORDS:
            raise ValueError("a certificate or a list is needed, not another item")
        if is_slow(item):
            return Judged(algorithms.UNNAMED, [])
        with self.openssl.reading(WORDS[item.kind], item.public_bytes()) as read:
            if read is None:
                return Judged(UNREAD, [])
            if not read.has_one_algorithm():
                return Judged(TWO_ALGORITHMS, [])
            identifier, digest = read.algorithm()
            if digest is None:
                return Judged(unknown(identifier), [])
            chosen = holders.chosen(item, read.authority_key_id, self.tries)
            keys = [holders.certificates[it].public_key_bytes for it in chosen]
            refusals = read.refusals(keys)
            return Judged(None, [Tried(it, key, () if why else self.weaknesses(digest, key), why)
                                 for it, key, why in zip(chosen, keys, refusals)])

    def key_id(self, holder: Certificate) -> Optional[bytes]:
        """The identifier that a certificate gives its key, read once."""
        if holder not in self._ids:
            shown = None if is_slow(holder) else holder.public_bytes()
            self._ids[holder] = None if shown is None else self.openssl.subject_key_id(shown)
        return self._ids[holder]

    def weaknesses(self, digest: str, key: bytes) -> Tuple[str, ...]:
        """In which words a signature is weak."""
        found = digest if digest in algorithms.WEAK else None, self.openssl.key(key).weak
        return tuple(filter(None, found))


def is_slow(item: Item) -> bool:
    """Whether OpenSSL isn't shown an item, since it would take long to read its key."""
    if not isinstance(item, Certificate):
        return False
    # (a field of an item of many parts takes long, and most items have no such octets)
    octets = item.public_bytes()
    return (any(it in octets for it in algorithms.ON_CURVES)
            and algorithms.is_on_unnamed_curve(item.public_key_bytes))


def verdicts_on(asked: List[Question], judged: Judged) -> Iterator[Verdict]:
    """The verdicts on the questions of one item, in their order."""
    tried = {it.holder: it for it in judged.tried}
    for place, question in enumerate(asked):
        it = tried.get(place)
        if it is None:
            yield Verdict(question, False, (), judged.why or NOT_TRIED)
        else:
            yield Verdict(question, it.why is None, it.weaknesses, it.why)


def item_asked(question: Question) -> int:
    """Which item a question is on."""
    if not isinstance(question, Question):
        raise TypeError(f"asked: a Question is needed, not {arguments.type_name(question)}")
    return question.item


def answers(bundle: Given, anchors: Given, asked: Optional[Iterable[Question]] = None,
            tries: int = MOST_TRIES,
            openssl: Optional[libcrypto.Verifier] = None) -> Iterator[Verdict]:
    """What OpenSSL says of each question, by default of all of a bundle and anchors (Items or
    octets). For each item at most `tries` keys are tried: first those of the key identifier that
    the item names, then its own. The questions of an item have to be side by side, as
    `questions` gives them."""
    bundle, anchors = both(bundle, anchors)
    asked = questions(bundle, anchors) if asked is None else asked
    with closing(openssl) as own:
        judge = Judge(own, tries)
        for item, group in groupby(asked, key=item_asked):
            of_item = [*group]
            holders = judge.holders([it.key_holder(bundle, anchors) for it in of_item])
            yield from verdicts_on(of_item, judge.judged(item_at(bundle, item), holders))


def vouch(bundle: Given, anchors: Given, weak: bool = False,
          tries: int = MOST_TRIES) -> Vouched:
    """Vouchers for all that OpenSSL verifies; weak signatures (MD5, SHA-1, keys worth fewer than
    112 bits of security) only if `weak` is true.

    `bundle` and `anchors` are Items or octets; errors are those of `questions`. Missing if there
    is no libcrypto of OpenSSL 3.
    """
    bundle, anchors = both(bundle, anchors)
    weak, vouchers, verdicts = arguments.flag(weak, "weak"), Vouchers(), []
    for verdict in answers(bundle, anchors, tries=tries):
        verdicts.append(verdict)
        if verdict.is_taken(weak):
            holder = verdict.question.key_holder(bundle, anchors)
            vouchers.add(holder.public_key_bytes, bundle.octets(verdict.question.item))
    return Vouched(vouchers, verdicts)
