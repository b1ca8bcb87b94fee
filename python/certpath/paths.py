"""Paths from a certificate to an anchor."""
import enum
import mmap
from array import array
from ctypes import Array, byref, c_size_t, c_uint32, c_uint64, sizeof
from datetime import datetime
from typing import Any, NamedTuple, Optional, Sequence, Tuple, Union, overload

from . import arguments, library
from .items import Given, Items, both
from .moments import moment_of
from .purposes import identifier_of
from .serving import octets_of_host, refuse_host
from .vouchers import VouchersGiven, vouchers_of

# How many positions of a path, and rows of a table, are asked for at first.
ROOM = 16
# Room of so many octets is taken from the system, which gives memory when it is written.
LARGE = 1 << 20


class Outcome(enum.Enum):
    """What an answer says.

    >>> import certpath
    >>> from datetime import datetime
    >>> answer = certpath.find(b"", b"", "", 0, datetime(2027, 1, 1))
    >>> answer.outcome is certpath.Outcome.NO_TARGET, bool(answer)
    (True, False)
    """
    PATH = 0
    """There is a path."""
    NO_PATH = 1
    """The target is a certificate, and there is no path."""
    NO_TARGET = 2
    """The target is no certificate, or there is no such item."""


class Asked(NamedTuple):
    """What was asked of `find`.

    >>> import certpath
    >>> from datetime import datetime
    >>> asked = certpath.find(b"", b"", "", 3, datetime(2027, 1, 1), host="www.example.test").asked
    >>> asked.target, asked.demand_lists, asked.host, asked.purpose
    (3, False, b'www.example.test', None)
    """
    bundle: Items
    anchors: Items
    vouchers: bytes
    """The vouchers, pairs of digests one after another."""
    target: int
    at: datetime
    demand_lists: bool
    host: Optional[bytes] = None
    """The host that the target has to serve; None if any host is."""
    purpose: Optional[bytes] = None
    """The purpose that each certificate of the path has to allow, as the content octets of its
    OBJECT IDENTIFIER; None if any purpose is."""


class Numbers(NamedTuple):
    """What an answer consists of."""
    outcome: Outcome
    positions: Tuple[int, ...]
    """Of a path: the target's position in the bundle, then its issuers' up to the last."""
    anchor: int
    """Of a path: the anchor's position among the anchors; otherwise 0."""
    table: Tuple[int, ...]
    """Numbers, as `certpath_find` of certpath.h describes them; `check` reads them."""


class Answer(Numbers):
    """An answer, with the table that shows that it is right. It is true if there is a path.

    Answers are equal if their numbers are. One of `find` holds what was asked, which is pickled
    with it: the octets of bundle, anchors and vouchers. `Answer(*answer)` is without.

    >>> import certpath
    >>> from datetime import datetime
    >>> bundle, anchors = (certpath.load(it).items for it in ("samples/fullchain.pem",
    ...                                                       "samples/root.pem"))
    >>> asked = bundle, anchors, open("samples/vouchers.txt").read(), 0, datetime(2027, 1, 1)
    >>> certpath.find(*asked)
    Answer(outcome=<Outcome.PATH: 0>, positions=(0, 1), anchor=0, table=(0, 1))
    >>> certpath.check(*asked, certpath.Answer(certpath.Outcome.NO_PATH, (), 0, (0, 0)))
    False
    """
    asked: Optional[Asked] = None
    """What was asked of `find`; None of an answer that was made otherwise."""

    @property
    def found(self) -> bool:
        """Whether there is a path."""
        return self.outcome is Outcome.PATH

    def __bool__(self) -> bool:
        return self.found

    def _replace(self, **changed: Any) -> "Answer":
        made = super()._replace(**changed)
        made.asked = self.asked
        return made

    __replace__ = _replace


# What a call takes as a host and as a purpose.
HostGiven = Optional[Union[str, bytes]]
PurposeGiven = Optional[Union[str, bytes]]


def host_asked(host: HostGiven) -> Optional[bytes]:
    """The host that the target has to serve, in octets; BadHost if it is none."""
    if host is None:
        return None
    refuse_host(host)
    return octets_of_host(host)


def purpose_asked(purpose: PurposeGiven) -> Optional[bytes]:
    """The purpose that each certificate has to allow, as the octets of its identifier; ValueError
    if it is none."""
    if purpose is None:
        return None
    identifier = identifier_of(purpose)
    if not identifier:
        raise ValueError("the purpose: no octets; None stands for any purpose")
    return identifier


def settings_of(bundle: Items, target: int, at: datetime, demand_lists: bool,
                host: Optional[bytes] = None, purpose: Optional[bytes] = None) -> library.Settings:
    """What is asked, as a call takes it."""
    target = arguments.number(target, "the target", arguments.MOST_64)
    return library.Settings(target, bundle.limit, arguments.flag(demand_lists, "demand_lists"),
                            moment_of(at), *library.octets_of(purpose or b""),
                            *library.octets_of(host or b""))


def given(asked: Asked) -> Tuple[Any, ...]:
    """The arguments that the calls to find and to check share."""
    settings = settings_of(asked.bundle, asked.target, asked.at, asked.demand_lists, asked.host,
                           asked.purpose)
    return (*library.octets_of(asked.bundle.data), *library.octets_of(asked.anchors.data),
            asked.vouchers, len(asked.vouchers) // library.PAIR, byref(settings))


def room_for(count: int) -> "Array[c_uint64]":
    """Room for so many numbers of a table."""
    numbers, size = c_uint64 * count, count * sizeof(c_uint64)
    if size < LARGE:
        return numbers()
    try:
        return numbers.from_buffer(mmap.mmap(-1, size))
    except OSError:
        raise library.OutOfMemory(f"out of memory: the system gave no {size} octets") from None


def find(bundle: Given, anchors: Given, vouchers: VouchersGiven, target: int, at: datetime,
         demand_lists: bool = False, *, host: HostGiven = None,
         purpose: PurposeGiven = None) -> Answer:
    """The first of the shortest valid paths from an item of the bundle to an anchor, or that there
    is none, with a table that shows it. The answer is true if there is a path.

    >>> import certpath
    >>> from datetime import datetime, timezone
    >>> bundle, anchors = (certpath.load(it).items for it in ("samples/fullchain.pem",
    ...                                                       "samples/root.pem"))
    >>> vouchers = open("samples/vouchers.txt").read()
    >>> at = datetime(2027, 1, 1, tzinfo=timezone.utc)
    >>> answer = certpath.find(bundle, anchors, vouchers, 0, at, host="www.example.test")
    >>> bool(answer), answer.positions, answer.anchor, certpath.check(answer)
    (True, (0, 1), 0, True)
    >>> bool(certpath.find(bundle, anchors, vouchers, 0, at, host="other.test"))
    False

    `bundle` and `anchors` are Items or octets, `vouchers` are Vouchers, their octets, or the text
    of a voucher file, `target` is a position in the bundle. `at` is a datetime, of the years 1 to
    9999; one without a time zone is taken as UTC. With `demand_lists` each certificate of the path
    needs a revocation list that is used. With a `host` the target has to serve it, as `serves` says,
    and with a `purpose` each certificate of the path has to allow it, as `allows` says.

    TypeError of an argument of another type. BadItem of octets that aren't DER items to their last
    one, BadLine of text of vouchers, BadMoment, BadHost; other ValueErrors of numbers that are out
    of range, two limits, no purpose, and vouchers that aren't pairs. OutOfMemory if the C library
    gives no memory.
    """
    asked = Asked(*both(bundle, anchors), vouchers_of(vouchers), target, at, demand_lists,
                  host_asked(host), purpose_asked(purpose))
    arguments_of_call = given(asked)
    row, room, table_room = library.AnswerRow(), ROOM, ROOM * len(asked.bundle)
    while True:
        positions, table = (c_size_t * room)(), room_for(table_room)
        status = library.loaded().certpath_find(*arguments_of_call, positions, room, table,
                                                table_room, byref(row))
        if status != library.TOO_SMALL:
            break
        room, table_room = row.length, row.entries
    library.refuse(status)
    answer = Answer(Outcome(row.outcome), tuple(positions[:row.length]), row.anchor,
                    tuple(table[:row.entries]))
    answer.asked = asked
    return answer


def numbers_of(values: Sequence[int], what: str) -> "array[int]":
    """Numbers of an answer; BadAnswer if one is no uint64_t, TypeError if it is no int."""
    if isinstance(values, (str, bytes, bytearray)) or not isinstance(values, Sequence):
        raise TypeError(f"the answer's {what}: a tuple of ints is needed, not "
                        f"{arguments.type_name(values)}")
    try:
        return array("Q", [*values])
    except OverflowError:
        raise library.BadAnswer(f"the answer's {what}: a number isn't from 0 to "
                                f"{arguments.MOST_64}") from None
    except TypeError:
        raise TypeError(f"the answer's {what}: each is an int") from None


def is_right(asked: Asked, answer: Answer) -> bool:
    """Whether an answer is right."""
    if not isinstance(answer.outcome, Outcome):
        raise TypeError("the answer's outcome: an Outcome is needed, not "
                        f"{arguments.type_name(answer.outcome)}")
    positions = numbers_of(answer.positions, "positions")
    table = numbers_of(answer.table, "table")
    anchor = arguments.number(answer.anchor, "the answer's anchor", arguments.MOST_64,
                              library.BadAnswer)
    row = library.AnswerRow(answer.outcome.value, len(positions), anchor, len(table))
    says_yes = c_uint32()
    library.refuse(library.loaded().certpath_check(
        *given(asked), byref(row), (c_size_t * len(positions)).from_buffer_copy(positions),
        len(positions), (c_uint64 * len(table)).from_buffer_copy(table), len(table),
        byref(says_yes)))
    return bool(says_yes.value)


NOT_GIVEN = object()


@overload
def check(answer: Answer, /) -> bool: ...


@overload
def check(bundle: Given, anchors: Given, vouchers: VouchersGiven, target: int, at: datetime,
          answer: Answer, demand_lists: bool = False, *, host: HostGiven = None,
          purpose: PurposeGiven = None) -> bool: ...


def check(bundle: Any, anchors: Any = NOT_GIVEN, vouchers: Any = NOT_GIVEN,
          target: Any = NOT_GIVEN, at: Any = NOT_GIVEN, answer: Any = NOT_GIVEN,
          demand_lists: Any = NOT_GIVEN, *, host: HostGiven = None,
          purpose: PurposeGiven = None) -> bool:
    """Whether an answer of `find`, or of anybody, is right, as its table shows.

    >>> import certpath
    >>> from datetime import datetime
    >>> answer = certpath.find(b"", b"", "", 0, datetime(2027, 1, 1))
    >>> certpath.check(answer), certpath.check(b"", b"", "", 0, datetime(2027, 1, 1), answer)
    (True, True)

    It reads the items by another reader than `find`, and searches for nothing. `check(answer)`
    repeats the question that an answer of `find` holds. Whoever got the answer from elsewhere asks
    by his own: `check(bundle, anchors, vouchers, target, at, answer)`, with `demand_lists`, `host`
    and `purpose` as `find` had them.

    BadAnswer if the numbers of the answer can't be one's: out of range, or a table without
    whole rows. Other errors are those of `find`.
    """
    further = anchors, vouchers, target, at
    if isinstance(bundle, Answer):
        if any(it is not NOT_GIVEN for it in (*further, answer, demand_lists)) or host or purpose:
            raise TypeError("check takes an answer alone, or what was asked and then the answer")
        if bundle.asked is None:
            raise TypeError("the answer doesn't hold what was asked: give check the bundle, the "
                            "anchors, the vouchers, the target and the moment before it")
        return is_right(bundle.asked, bundle)
    if any(it is NOT_GIVEN for it in (*further, answer)):
        raise TypeError("check takes an answer of find, or a bundle, anchors, vouchers, a target, "
                        "a moment and an answer")
    if not isinstance(answer, Answer):
        raise TypeError(f"answer: an Answer is needed, not {arguments.type_name(answer)}")
    demand_lists = False if demand_lists is NOT_GIVEN else demand_lists
    return is_right(Asked(*both(bundle, anchors), vouchers_of(vouchers), target, at, demand_lists,
                          host_asked(host), purpose_asked(purpose)), answer)
