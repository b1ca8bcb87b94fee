"""Files: how they are cut into spans, and the entries of a span. A file that isn't any more what it
was when it was cut is never taken for it."""
import errno
import hashlib
import os
import re
import stat
import zlib
from typing import BinaryIO, Iterator, List, NamedTuple, Optional

from ..items import frame
from . import logs
from .entries import CUT, FAULT, ITEM, Entry, Place, unread

CAUSES = {CUT: "the file ends within the item that begins here",
          FAULT: "no item begins here; nothing after it in this file is read"}
EMPTY, NOT_REGULAR = "the file is empty", "it is no regular file"
GZIP = b"\x1f\x8b"
# How many octets say what a file is, and how many a compressed file may have once unpacked.
FRONT, MOST_UNPACKED = 64, 1 << 30
# How many octets are read at once for a digest.
PIECE = 1 << 20
# The range of entries by the name of an answer: as the request has it, or as two numbers.
REQUEST, RANGE = re.compile(r"start=(\d+)&end=(\d+)"), re.compile(r"(\d+)-(\d+)(?:\.\w+)*")


class Changed(Exception):
    """A file isn't what it was when it was read first."""

    def __str__(self):
        return "the file changed while it was read"


class Span(NamedTuple):
    """Octets of a file: some of its items, or the whole file, if it is an answer or compressed."""
    file: str
    begin: int
    end: int
    size: int
    """How many octets the file had."""
    is_answer: bool = False
    is_packed: bool = False
    sha256: str = ""
    """The digest of its octets, in hex; empty where they weren't read yet."""
    first: Optional[int] = None
    """Of an answer: the log's number of its first entry, where the file's name says it."""
    last: Optional[int] = None
    """Likewise of its last entry."""

    @property
    def length(self) -> int:
        return self.end - self.begin


class Cut(NamedTuple):
    """A file as it was cut."""
    spans: List[Span]
    sha256: str
    """The digest of the file, in hex; empty where it wasn't read yet."""


class TooLarge(ValueError):
    """A compressed file has too many octets once it is unpacked."""


def digest(octets: bytes) -> str:
    return hashlib.sha256(octets).hexdigest()


def unpacked(octets: bytes) -> bytes:
    """The octets that were compressed; TooLarge, zlib.error or EOFError where there are none."""
    found, room = [], MOST_UNPACKED
    while octets:
        unpacking = zlib.decompressobj(16 + zlib.MAX_WBITS)
        found.append(unpacking.decompress(octets, room + 1))
        room -= len(found[-1])
        if room < 0:
            raise TooLarge
        if not unpacking.eof:
            raise EOFError
        octets = unpacking.unused_data.lstrip(b"\0")
    return b"".join(found)


def opened(file: str) -> BinaryIO:
    """A regular file, opened; OSError of any other, so that none is waited for."""
    number = os.open(file, os.O_RDONLY | os.O_NONBLOCK | os.O_CLOEXEC)
    if not stat.S_ISREG(os.fstat(number).st_mode):
        os.close(number)
        raise OSError(errno.EINVAL, NOT_REGULAR, file)
    return open(number, "rb")


def octets_of(span: Span) -> bytes:
    """The octets of a span as they stand in the file; Changed where they aren't those."""
    with opened(span.file) as file:
        if os.fstat(file.fileno()).st_size != span.size:
            raise Changed(span.file)
        file.seek(span.begin)
        octets = file.read(span.length)
    if len(octets) != span.length or span.sha256 not in ("", digest(octets)):
        raise Changed(span.file)
    return octets


def range_of(file: str, by_names: bool) -> tuple:
    """The log's numbers of an answer's first and last entry, by its name. None twice
    where the name has none."""
    name = os.path.basename(file)
    found = REQUEST.search(name) or (RANGE.search(name) if by_names else None)
    return (int(found[1]), int(found[2])) if found else (None, None)


def item_spans(file: str, at: BinaryIO, size: int, blocksize: int, limit: int) -> Iterator[Span]:
    """A file of items, cut where items begin, into spans of about `blocksize` octets.

    The file is framed window by window. A window that ends within an item is a front of the items
    of the file, and the next one begins where that item does.
    """
    begin, room = 0, blocksize
    while begin < size:
        at.seek(begin)
        octets = at.read(min(room, size - begin))
        end = frame(octets, limit).end
        is_last = begin + len(octets) >= size or end.word == FAULT or not octets
        if not is_last and end.at == 0:
            room *= 2
            continue
        octets = octets if is_last else octets[:end.at]
        yield Span(file, begin, begin + len(octets), size, sha256=digest(octets))
        if is_last:
            return
        begin, room = begin + len(octets), blocksize


def digest_of(at: BinaryIO) -> str:
    """The digest of a file, in hex."""
    summed = hashlib.sha256()
    at.seek(0)
    for octets in iter(lambda: at.read(PIECE), b""):
        summed.update(octets)
    return summed.hexdigest()


def spans_of(file: str, blocksize: int, limit: int, by_names: bool = False) -> Cut:
    """The spans of a file. Of an answer of a log and of a compressed file there is one."""
    with opened(file) as at:
        size, front = os.fstat(at.fileno()).st_size, at.read(FRONT)
        first, last = range_of(file, by_names)
        whole = Span(file, 0, size, size, first=first, last=last)
        if front.startswith(GZIP):
            return Cut([whole._replace(is_packed=True)], "")
        if front.lstrip()[:1] == b"{":
            return Cut([whole._replace(is_answer=True)], "")
        if not size:
            return Cut([whole._replace(sha256=digest(b""))], digest(b""))
        spans = [*item_spans(file, at, size, blocksize, limit)]
        return Cut(spans, spans[0].sha256 if spans[0].length == size else digest_of(at))


def read_items(span: Span, octets: bytes, limit: int) -> Iterator[Entry]:
    """The items of a span, then an entry that says so where something else follows them."""
    items, offset = frame(octets, limit), 0
    for position in range(len(items)):
        item = items.octets(position)
        yield Entry(Place(span.file, span.begin + offset), ITEM, item)
        offset += len(item)
    if not items.end.is_clean:
        yield unread(Place(span.file, span.begin + items.end.at), CAUSES[items.end.word],
                     items.end.word)


def unpacked_or_cause(octets: bytes) -> tuple:
    """The octets of a compressed file, and what is wrong where there are none."""
    try:
        return unpacked(octets), EMPTY
    except (zlib.error, EOFError):
        return b"", "it can't be unpacked: damaged or cut"
    except TooLarge:
        return b"", f"it has more than {MOST_UNPACKED} octets once it is unpacked"


def read_octets(span: Span, octets: bytes, limit: int) -> Iterator[Entry]:
    """The entries of a span, by its octets; one that says so where there is none."""
    is_answer, cause = span.is_answer, EMPTY
    if span.is_packed:
        octets, cause = unpacked_or_cause(octets)
        is_answer = octets[:FRONT].lstrip()[:1] == b"{"
    if not octets:
        yield unread(Place(span.file, span.begin), cause)
    elif is_answer:
        yield from logs.read_entries(span.file, octets, span.first)
    else:
        yield from read_items(span, octets, limit)
