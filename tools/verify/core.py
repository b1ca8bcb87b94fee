"""The package `certpath` of this repository, and what it shows of items."""
import hashlib
import sys
from collections import OrderedDict
from typing import NamedTuple

from program import installed, programs, streams
from verify import waiting
from verify.faults import MEMORY, NO_PROGRAM, OUTDATED, Fault

if installed.FOLDER not in sys.path:
    sys.path.insert(1, installed.FOLDER)
import certpath
import certpath.libcrypto
import certpath.openssl

Kind = certpath.Kind
# So many certificates are kept as they are shown.
MOST_SHOWN = 10_000
# So many characters of a name are in a reason, of which there may be many.
MOST_OF_NAME = 300


def need():
    """Ends the run if the library isn't there, or is older than the sources."""
    if programs.is_library_old():
        raise Fault(OUTDATED, programs.OLDER)
    try:
        certpath.version()
    except certpath.LibraryMissing as error:
        raise Fault(NO_PROGRAM, f"the library of certpath is missing: {error}") from error


class Shown(NamedTuple):
    """What is shown of a certificate: its place, its file, and its fields. Names are fit for a terminal."""
    position: int
    is_anchor: bool
    file: str
    subject: str
    issuer: str
    begin: object
    end: object
    serial: str
    sha256: str

    @property
    def place(self):
        return f"anchor {self.position}" if self.is_anchor else f"item {self.position}"

    @property
    def name(self):
        """The subject as it is in a reason."""
        return shortened(self.subject)


def name_of(name):
    """A name as text, in which what isn't printable is escaped; its octets if it has no text."""
    try:
        return escaped(name.text) or "(empty)"
    except certpath.BadName:
        return f"#{name.public_bytes().hex().upper()}"


def shortened(name):
    """A name as it is in a reason."""
    return name if len(name) <= MOST_OF_NAME else f"{name[:MOST_OF_NAME]}.."


def escaped(text):
    """A name's text in one line: what isn't printable, as ends of lines and what changes the direction of text, is a backslash and
    two hex digits for each octet (RFC 4514, 2.4)."""
    if text.isprintable():
        return text
    return "".join(letter if letter.isprintable() else "".join(f"\\{octet:02X}" for octet in letter.encode(errors="backslashreplace")) for letter in text)


def fingerprint(octets):
    return hashlib.sha256(octets).hexdigest()


def serial_of(number):
    """A serial number in hex, two digits an octet."""
    digits = f"{abs(number):x}"
    return ("-" if number < 0 else "") + digits.zfill(len(digits) + len(digits) % 2)


class Side:
    """The items of the bundle or the anchors, with the file of each."""

    def __init__(self, items, is_anchors, limit=None):
        self.is_anchors, self.limit = is_anchors, certpath.LIMIT if limit is None else int(limit)
        self.given, self.too_large = items, []
        self.items = self.framed(items)
        if not self.items.end.is_clean:
            self.given = [item for item in items if self.framed([item]).end.is_clean]
            self.too_large = [item for item in items if not self.framed([item]).end.is_clean]
            self.items = self.framed(self.given)
        self.of_kind = {kind: [] for kind in Kind}
        for position, item in enumerate(waiting.counted("reading items", self.items, len(self.items))):
            self.of_kind[item.kind].append(position)
        self.shown = OrderedDict()

    def framed(self, items):
        return certpath.frame(b"".join(item.octets for item in items), self.limit)

    def left_out(self):
        """What is said of the items that are above the limit."""
        return [f"{entry.file}: an item of {len(entry.octets)} octets, above the limit; left out" for entry in self.too_large]

    def file(self, position):
        """The file of an item, fit for a terminal."""
        return streams.shown(self.given[position].file)

    def certificate(self, position):
        """What is shown of a certificate. The last ones are kept."""
        if position not in self.shown:
            item = self.items[position]
            self.shown[position] = Shown(position, self.is_anchors, self.file(position), name_of(item.subject), name_of(item.issuer),
                                         item.not_valid_before_utc, item.not_valid_after_utc, serial_of(item.serial_number), fingerprint(item.public_bytes()))
            if len(self.shown) > MOST_SHOWN:
                self.shown.popitem(last=False)
        return self.shown[position]


def run_of(call):
    """What a call gives; the run ends if there is no memory."""
    try:
        return call()
    except Exception as error:
        if not streams.lacks_memory(error):
            raise
        raise Fault(MEMORY, "out of memory") from error
