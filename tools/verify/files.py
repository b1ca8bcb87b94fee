"""The items of the caller's files: of PEM, DER and PKCS #7 by the proved library; `openssl` unpacks
PKCS #12."""
import re
import shlex
from typing import NamedTuple

from pki import reading
from program import streams
from verify import children, waiting
from verify.core import certpath
from verify.faults import NO_PROGRAM, UNREAD, Fault

# No file has more octets, so that an endless one ends.
MOST_OCTETS = 1 << 28
# The library's words: forms, shapes, labels of blocks that may hold certificates or lists, members
# of SignedData, what isn't read as it isn't DER, and what isn't whole.
PEM, DER, DER_OF_SEVEN, LIST = "PEM", "DER", "PKCS #7", "revocation list"
SEVEN = ("PKCS7", "CMS", "PKCS #7 SIGNED DATA")
OF_CERTIFICATES = {"CERTIFICATE", "X509 CERTIFICATE", "X.509 CERTIFICATE", "TRUSTED CERTIFICATE",
                   *SEVEN}
OF_LISTS = {"X509 CRL", *SEVEN}
MEMBER = re.compile(r"(certificate|revocation list) \d+ of the SignedData: ", re.ASCII)
NOT_IN_DER, NOT_WHOLE = ("(BER)", "no SignedData in DER"), " of it missing"
# What `openssl pkcs12` says of a file that is PKCS #12, and that it can't unpack.
NOT_UNPACKED = (b"Mac verify error", b"Error outputting keys and certificates")
REMEDY = "mend the file, or leave it out"


class Item(NamedTuple):
    """An item: its octets, the file that it comes from, and whether it has a list's shape."""
    octets: bytes
    file: str
    is_list: bool


class LeftOut(NamedTuple):
    """What was left out of a file: where it was, why, the label of the PEM block that it was, none
    if it was none or isn't known, and how many items are before it."""
    where: str
    why: str
    label: "str | None" = None
    before: int = 0

    def __str__(self):
        return f"{self.where}: {self.why}; left out"

    def member(self):
        """As which member of SignedData it was there, none if it wasn't."""
        found = MEMBER.match(self.why)
        return found and found[1]

    def is_list(self):
        """Whether it was to be a revocation list."""
        return self.member() == LIST if self.member() else self.label in OF_LISTS

    def is_certificate(self):
        """Whether it may have been a certificate."""
        if self.member():
            return self.member() != LIST
        return self.label is None or self.label in OF_CERTIFICATES

    def remedy(self, file):
        """What to do if nothing else is in its file."""
        may_be_seven = self.label is None or self.label in SEVEN
        if not may_be_seven or not any(entry in self.why for entry in NOT_IN_DER):
            return REMEDY
        words = f"{'' if self.label else '-inform DER '}-in {in_shell(file)} -print_certs"
        command = f"openssl pkcs7 {words} -out {in_shell(file, '.pem')}"
        return f"{REMEDY}; if it is PKCS #7, this makes PEM of it: {command}"


class FileContents(NamedTuple):
    """What a file holds, what was left out of it, and its form in the library's words."""
    items: list
    left_out: list
    form: "str | None" = None


def octets_of(file):
    """What a file holds; - is standard input."""
    try:
        found = reading.octets_of(file, MOST_OCTETS + 1)
    except reading.Unreadable as error:
        raise Fault(UNREAD, str(error)) from error
    if len(found) > MOST_OCTETS:
        raise Fault(UNREAD, f"{file}: it has more than {MOST_OCTETS} octets; split it")
    waiting.BUDGET.octets += len(found)
    return found


def read(file, octets):
    """What the octets of a file hold, by the library."""
    title = f"reading {streams.shown(file)}"
    waiting.LINE.begin(title)
    found = certpath.load(octets, file)
    waiting.BUDGET.check(title)
    items = [Item(found.items.octets(number), file, shape == LIST)
             for number, shape in enumerate(found.shapes)]
    left_out = [LeftOut(" ".join(filter(None, (file, entry.place, entry.label))), entry.reason, entry.label,
                        entry.before) for entry in found.left]
    return FileContents(items, left_out, found.form)


def in_shell(file, tail=""):
    """A file's name as a word of the shell."""
    return shlex.quote(f"{file}{tail}")


def unpacked(file, octets, said, *words):
    """How a run of `openssl pkcs12` ended that takes the certificates out of a file without a
    password."""
    words = ["openssl", "pkcs12", "-nokeys", "-passin", "pass:", *words]
    try:
        return children.ran(words, f"openssl pkcs12 unpacks {streams.shown(file)}", octets)
    except OSError as error:
        raise Fault(NO_PROGRAM, f"{said}; the command openssl, which unpacks PKCS #12, isn't "
                    "there: install it, or give PEM or DER") from error


def of_twelve(file, octets, said):
    """The PEM text of a PKCS #12 file without a password, the certificate of its key first; none if
    openssl says that it is no such file. `said` is what the library says of it."""
    further = []
    own = unpacked(file, octets, said, "-clcerts")
    if own.status:
        if not any(entry in own.errors for entry in NOT_UNPACKED):
            return None
        further = ["-legacy"]
        own = unpacked(file, octets, said, "-clcerts", *further)
    others = own if own.status else unpacked(file, octets, said, "-cacerts", *further)
    if others.status:
        command = f"openssl pkcs12 -in {in_shell(file)} -nokeys -out {in_shell(file, '.pem')}"
        raise Fault(UNREAD, f"{file}: PKCS #12 with a password, or damaged; unpack it: {command}")
    return own.output + others.output


def taken_from(file):
    """What a file holds, if anything. A whole element of DER that is no item may be PKCS #12."""
    octets = octets_of(file)
    found = read(file, octets)
    if found.items or found.form != DER or NOT_WHOLE in found.left_out[0].why:
        return found
    first, *after = found.left_out
    text = of_twelve(file, octets, f"{first.where}: {first.why}")
    if text is None:
        return found
    held = read(file, text) if text else FileContents([], [])
    after = [entry._replace(before=len(held.items)) for entry in after]
    return held._replace(left_out=[*held.left_out, *after])


def contents_of(file):
    """What a file holds; the run ends if that is nothing that can be read."""
    found = taken_from(file)
    fault = next((part for part in found.left_out if part.is_certificate() or part.is_list()), None)
    if fault and not found.items:
        raise Fault(UNREAD, f"{fault.where}: {fault.why}; {fault.remedy(file)}")
    return found


def once(items):
    """The items, each once."""
    found = {}
    for item in items:
        found.setdefault(item.octets, item)
    return [*found.values()]
