"""The shared library: its functions, its structures, and the errors that its statuses are."""
import ctypes
import functools
import os
from ctypes import (POINTER, byref, c_char_p, c_int8, c_int16, c_int32, c_size_t, c_uint8, c_uint32,
                    c_uint64)
from typing import Any, Callable, Dict, List, Tuple, Type

# The version of the calls that this package makes (CERTPATH_VERSION in certpath.h).
VERSION = 6
NAME = "libcertpath.so"
# The library is in the package, or in dist/ if this is a checkout of the repository.
FOLDERS = (os.path.dirname(os.path.abspath(__file__)),
           os.path.join(os.path.dirname(os.path.abspath(__file__)), "..", "..", "dist"))


class Error(Exception):
    """A call that was refused; each reason has a class of its own.

    >>> import certpath
    >>> try:
    ...     certpath.serves(b"", "www.example.test")
    ... except certpath.Error as error:
    ...     print(type(error).__name__, error)
    BadItem the octets are no certificate in its one spelling; certpath.load() says what is left \
out of them
    """


class LibraryMissing(Error):
    """libcertpath.so isn't there, can't be loaded, or is of another version."""


class OutOfMemory(Error, MemoryError):
    """The C library gave no memory."""


class NoField(Error, LookupError):
    """An item has no such field.

    >>> import certpath
    >>> certpath.Item(b"text").field(0)
    Traceback (most recent call last):
    ...
    certpath.library.NoField: the item has no such field
    """


class BadName(Error, ValueError):
    """The octets of a name can't be read.

    >>> import certpath
    >>> certpath.Name(b"text").text
    Traceback (most recent call last):
    ...
    certpath.library.BadName: the octets are no name
    """


class BadMoment(Error, ValueError):
    """A moment is no date and time.

    >>> import certpath
    >>> from datetime import datetime, timedelta, timezone
    >>> at = datetime(1, 1, 1, tzinfo=timezone(timedelta(hours=1)))
    >>> certpath.find(b"", b"", "", 0, at)
    Traceback (most recent call last):
    ...
    certpath.library.BadMoment: at: in UTC its year isn't from 1 to 9999
    """


class BadAnswer(Error, ValueError):
    """The numbers of an answer that is to be checked can't be an answer's.

    >>> import certpath
    >>> from datetime import datetime
    >>> answer = certpath.Answer(certpath.Outcome.PATH, (-1,), 0, ())
    >>> certpath.check(b"", b"", "", 0, datetime(2027, 1, 1), answer)
    Traceback (most recent call last):
    ...
    certpath.library.BadAnswer: the answer's positions: a number isn't from 0 to \
18446744073709551615
    """


class BadItem(Error, ValueError):
    """Octets are no items, or an item of another class, if items or such an item are needed.

    >>> import certpath
    >>> certpath.questions(open("samples/fullchain.pem", "rb").read(), b"")
    Traceback (most recent call last):
    ...
    certpath.library.BadItem: the bundle: the octets are no DER items; this is PEM, which \
certpath.load() reads
    """


class BadHost(Error, ValueError):
    """A text is no host; `reason` says why.

    >>> import certpath
    >>> certpath.serves(open("samples/leaf.der", "rb").read(), "https://www.example.test")
    Traceback (most recent call last):
    ...
    certpath.library.BadHost: the host: it is a URL or has a path
    """

    def __init__(self, reason: str):
        super().__init__(f"the host: {reason}")
        self.reason = reason

    def __reduce__(self) -> Tuple[Type["BadHost"], Tuple[str]]:
        return BadHost, (self.reason,)


class BadLine(Error, ValueError):
    """A line of a voucher file is neither empty nor two digests; `line` is its number, from 1.

    >>> import certpath
    >>> certpath.Vouchers.from_text(open("samples/vouchers.txt").read() + "and more")
    Traceback (most recent call last):
    ...
    certpath.library.BadLine: vouchers line 5: it is neither empty nor two digests of 64 hex digits \
with one space between them
    """

    def __init__(self, line: int):
        super().__init__(f"vouchers line {line}: it is neither empty nor two digests of 64 hex "
                         "digits with one space between them")
        self.line = line

    def __reduce__(self) -> Tuple[Type["BadLine"], Tuple[int]]:
        return BadLine, (self.line,)


DONE, TOO_SMALL, BAD_LINE, NOT_CERTIFICATE, BAD_HOST = 0, 2, 7, 8, 9
NO_FIELD = "the item has no such field"
# What each status that refuses a call is, and what is said of it.
ERRORS: Dict[int, Tuple[Type[Exception], str]] = {
    1: (OutOfMemory, "out of memory: the C library gave none"),
    3: (NoField, NO_FIELD),
    4: (BadName, "the octets are no name"),
    5: (BadMoment, "the calendar has no such date, a clock no such time, or the year is negative"),
    6: (BadAnswer, "the numbers are no answer: an entry of the table stands for nothing, the table "
                   "has no whole rows, or there is a path where the outcome isn't PATH"),
    8: (BadItem, "the octets are no certificate in its one spelling"),
    9: (BadHost, "the text is no host"),
}
# The octets of a SHA-256 digest, and of a voucher, which is two.
DIGEST, PAIR = 32, 64


class Span(ctypes.Structure):
    _fields_ = [("offset", c_size_t), ("length", c_size_t)]


class Framed(ctypes.Structure):
    _fields_ = [("count", c_size_t), ("at", c_size_t), ("end", c_uint32)]


class Moment(ctypes.Structure):
    _fields_ = [("year", c_int16), ("month", c_int8), ("day", c_int8), ("hour", c_int8),
                ("minute", c_int8), ("second", c_int8)]


class Validity(ctypes.Structure):
    _fields_ = [("first", Moment), ("last", Moment), ("has_last", c_uint32)]


class Extent(ctypes.Structure):
    _fields_ = [("length", c_size_t), ("is_there", c_uint32)]


# The fields of an item, in the order in which a call writes them.
FIELDS = ("issuer", "subject", "key", "serial", "algorithm", "subject_key_id", "authority_key_id")


class Contents(ctypes.Structure):
    _fields_ = [("item_class", c_uint32), ("validity", Validity),
                *((name, Extent) for name in FIELDS), ("length", c_size_t),
                ("item_digest", c_uint8 * DIGEST), ("key_digest", c_uint8 * DIGEST)]


class ExtensionRow(ctypes.Structure):
    _fields_ = [("identifier", c_size_t), ("value", c_size_t), ("is_critical", c_uint32)]


class ExtensionSizes(ctypes.Structure):
    _fields_ = [("count", c_size_t), ("length", c_size_t)]


class LeftOut(ctypes.Structure):
    _fields_ = [("line", c_size_t), ("position", c_size_t), ("before", c_size_t),
                ("label", c_uint32), ("set", c_uint32), ("number", c_size_t), ("reason", c_uint32),
                ("count", c_size_t), ("to_end", c_size_t)]


class Loaded(ctypes.Structure):
    _fields_ = [("form", c_uint32), ("length", c_size_t), ("count", c_size_t), ("left", c_size_t)]


class QuestionRow(ctypes.Structure):
    _fields_ = [("item", c_size_t), ("holder", c_size_t), ("is_anchor", c_uint32)]


class Settings(ctypes.Structure):
    _fields_ = [("target", c_size_t), ("limit", c_uint32), ("demands_lists", c_uint32),
                ("moment", Moment), ("purpose", c_char_p), ("purpose_length", c_size_t),
                ("host", c_char_p), ("host_length", c_size_t)]


class AnswerRow(ctypes.Structure):
    _fields_ = [("outcome", c_uint32), ("length", c_size_t), ("anchor", c_size_t),
                ("entries", c_size_t)]


class Report(ctypes.Structure):
    _fields_ = [("length", c_size_t), ("bad_line", c_size_t)]


# Octets are handed over as they lie in a `bytes`, which is never written.
OCTETS, SIZE, SIZES = c_char_p, c_size_t, POINTER(c_size_t)
INPUT = [OCTETS, SIZE]
TEXT = [OCTETS, SIZE, SIZES]
ASKED = [*INPUT, *INPUT, *INPUT, POINTER(Settings)]
REPORT = [OCTETS, SIZE, POINTER(Report)]
POSITIONS, TABLE = [SIZES, SIZE], [POINTER(c_uint64), SIZE]
# What each function takes; all but the last answer a status.
FUNCTIONS: Dict[str, List[Any]] = {
    "certpath_frame": [*INPUT, c_uint32, POINTER(Span), SIZE, POINTER(Framed)],
    "certpath_load": [*INPUT, OCTETS, SIZE, POINTER(LeftOut), SIZE, POINTER(Loaded)],
    "certpath_item": [*INPUT, OCTETS, SIZE, POINTER(Contents)],
    "certpath_extensions": [*INPUT, OCTETS, SIZE, POINTER(ExtensionRow), SIZE,
                            POINTER(ExtensionSizes)],
    "certpath_tbs": [*INPUT, *INPUT, *TEXT],
    "certpath_class": [*INPUT, POINTER(c_uint32)],
    "certpath_classes": [*INPUT, c_uint32, POINTER(c_uint32), SIZE, SIZES],
    "certpath_shape": [*INPUT, POINTER(c_uint32)],
    "certpath_shapes": [*INPUT, c_uint32, POINTER(c_uint32), SIZE, SIZES],
    "certpath_name": [*INPUT, *TEXT],
    "certpath_allows": [*INPUT, *INPUT, POINTER(c_uint32)],
    "certpath_serves": [*INPUT, *INPUT, POINTER(c_uint32)],
    "certpath_questions": [*INPUT, *INPUT, c_uint32, POINTER(QuestionRow), SIZE, SIZES],
    "certpath_find": [*ASKED, *POSITIONS, *TABLE, POINTER(AnswerRow)],
    "certpath_check": [*ASKED, POINTER(AnswerRow), *POSITIONS, *TABLE, POINTER(c_uint32)],
    "certpath_path": [*ASKED, *REPORT],
    "certpath_why": [*ASKED, *REPORT],
    "certpath_paths": [*ASKED, *REPORT],
    "certpath_version": [],
}


# A call that takes a buffer, its room and a place for its result, and gives a status.
Call = Callable[[Any, int, Any], int]


@functools.lru_cache(maxsize=None)
def loaded() -> Any:
    """The library, with its functions typed."""
    paths = [os.path.join(folder, NAME) for folder in FOLDERS]
    path = next(filter(os.path.exists, paths), None)
    if path is None:
        raise LibraryMissing(f"{NAME} is in none of {', '.join(map(os.path.dirname, paths))}")
    try:
        library = ctypes.CDLL(path)
        for name, takes in FUNCTIONS.items():
            function = getattr(library, name)
            function.argtypes, function.restype = takes, c_int32
    except (OSError, AttributeError) as error:
        raise LibraryMissing(f"{path} can't be loaded: {error}") from error
    if library.certpath_version() != VERSION:
        raise LibraryMissing(f"{path} has version {library.certpath_version()} of the calls, and "
                             f"this package makes those of version {VERSION}")
    return library


def version() -> int:
    """The version of the library's calls.

    >>> import certpath
    >>> certpath.version()
    6
    """
    return int(loaded().certpath_version())


def refuse(status: int) -> None:
    """Raises the error that a status is, unless the call was done."""
    if status != DONE:
        error, said = ERRORS.get(status, (Error, f"the library refuses a call, status {status}"))
        raise error(said)


def octets_of(octets: bytes) -> Tuple[bytes, int]:
    """Octets as a call takes them, and their length."""
    return octets, len(octets)


def part_of(octets: bytes, offset: int, length: int) -> Tuple[Any, int]:
    """A part of a `bytes` as a call takes it, which isn't copied. It is there as long as somebody
    holds the `bytes`."""
    begin = ctypes.cast(OCTETS(octets), ctypes.c_void_p).value or 0
    return OCTETS(begin + offset), length


def buffer_of(room: int) -> Any:
    """Room for so many octets."""
    return ctypes.create_string_buffer(room)


def spans_at(address: int) -> Any:
    """The spans that lie at an address, as a call takes them."""
    return ctypes.cast(address, POINTER(Span))


def text_of(call: Call, guess: int) -> str:
    """Makes a call that writes a report, with more room if it asks for it; gives the text.

    `call` takes a buffer, its room and a place for a Report, and gives the status.
    """
    report = Report()
    buffer, status = filled(call, guess, report, lambda: int(report.length))
    if status == BAD_LINE:
        raise BadLine(report.bad_line)
    refuse(status)
    return str(memoryview(buffer)[:report.length], "utf-8")


def contents_of(octets: bytes) -> Tuple[Contents, Any]:
    """What an item holds: the structure, and a buffer that begins with its fields, one after
    another. These have fewer octets than the item."""
    found = Contents()
    buffer = buffer_of(len(octets))
    refuse(loaded().certpath_item(octets, len(octets), buffer, len(octets), byref(found)))
    return found, buffer


def sized(call: Call, guess: int) -> bytes:
    """Makes a call that writes octets, with more room if it asks for it; gives the octets.

    `call` takes a buffer, its room and a place for the length, and gives the status.
    """
    length = c_size_t()
    buffer, status = filled(call, guess, length, lambda: length.value)
    refuse(status)
    return bytes(memoryview(buffer)[:length.value])


def filled(call: Call, room: int, result: Any, needed: Callable[[], int]) -> Tuple[Any, int]:
    """Makes a call, again with the room that its result needs if there was too little; gives the
    buffer and the status."""
    while True:
        buffer = buffer_of(room)
        status = call(buffer, room, byref(result))
        if status != TOO_SMALL:
            return buffer, status
        room = needed()
