"""How OpenSSL reads names: the string type of each attribute, and the subject of a certificate that the proved reader calls other.

An answer never depends on this; it says more of what is wrong.
"""
import ctypes
from ctypes import c_char_p, c_int, c_long, c_ulong, c_void_p
from functools import lru_cache
from typing import NamedTuple

from verify.core import certpath

POINTED = ctypes.POINTER(c_void_p)
FUNCTIONS = {
    "d2i_X509_NAME": (c_void_p, [c_void_p, POINTED, c_long]),
    "X509_NAME_free": (None, [c_void_p]),
    "X509_get_subject_name": (c_void_p, [c_void_p]),
    "X509_NAME_print_ex": (c_int, [c_void_p, c_void_p, c_int, c_ulong]),
    "BIO_s_mem": (c_void_p, []),
    "BIO_new": (c_void_p, [c_void_p]),
    "BIO_read": (c_int, [c_void_p, c_char_p, c_int]),
    "BIO_free": (c_int, [c_void_p]),
}
# Flags of X509_NAME_print_ex: all but printable ASCII is escaped (RFC 2253), and strings of all types are read as text; an attribute a
# line with the name of its string type, or one line, the last attribute first.
ESCAPED, SHOW_TYPE = 1 | 2 | 4 | 0x10, 0x40
LINES, ONE_LINE = 4 << 16 | ESCAPED | SHOW_TYPE, 1 << 16 | 1 << 20 | ESCAPED
# So many octets of a name are shown, and so many characters of a value.
MOST_OCTETS, MOST_SHOWN = 4096, 60
TYPES = {"PRINTABLESTRING": "PrintableString", "UTF8STRING": "UTF8String", "T61STRING": "TeletexString", "IA5STRING": "IA5String",
         "BMPSTRING": "BMPString", "UNIVERSALSTRING": "UniversalString", "NUMERICSTRING": "NumericString"}


class Difference(NamedTuple):
    """The first attribute in which two names differ, and what either has there: the types if these differ, else the values."""
    attribute: str
    one: str
    other: str


class Attribute(NamedTuple):
    """An attribute of a name: as CN, the name of its string type, its value."""
    attribute: str
    type: str
    value: str


class Reader:
    """Reads names by OpenSSL."""

    def __init__(self):
        self.verifier = certpath.openssl.verifier()
        self.library = self.verifier.library
        for function, (answer, takes) in FUNCTIONS.items():
            called = getattr(self.library, function)
            called.restype, called.argtypes = answer, takes

    def printed(self, name, flags):
        """The text of a name that OpenSSL has read."""
        room, made = ctypes.create_string_buffer(MOST_OCTETS), self.library.BIO_new(self.library.BIO_s_mem())
        try:
            self.library.X509_NAME_print_ex(made, name, 0, flags)
            count = self.library.BIO_read(made, room, MOST_OCTETS)
            return room.raw[:max(count, 0)].decode("ascii", errors="replace")
        finally:
            self.library.BIO_free(made)

    def attributes(self, name):
        """The attributes of a name, in their order; none if OpenSSL can't read it."""
        read, _ = self.verifier.read("d2i_X509_NAME", name.public_bytes())
        if not read:
            return []
        try:
            return [attribute_of(word) for word in self.printed(read, LINES).split("\n")]
        finally:
            self.library.X509_NAME_free(read)

    def difference(self, one, other):
        """The first difference of two names that read alike; none if OpenSSL sees none."""
        for mine, theirs in zip(self.attributes(one), self.attributes(other)):
            if mine.type != theirs.type:
                return Difference(mine.attribute, mine.type, theirs.type)
            if mine != theirs:
                return Difference(mine.attribute, shown(mine.value), shown(theirs.value))
        return None

    def subject(self, octets):
        """The subject of a certificate's octets; none if OpenSSL can't read them."""
        with self.verifier.reading("certificate", octets) as read:
            return self.printed(self.library.X509_get_subject_name(read.handle), ONE_LINE) if read else None


def attribute_of(line):
    """An attribute, of its line: CN=UTF8STRING:Example Root."""
    attribute, _, rest = line.strip().partition("=")
    name, _, value = rest.partition(":")
    return Attribute(attribute, TYPES.get(name, name), value)


def shown(value):
    """A value in quotes, as far as there is room."""
    return f"'{value}'" if len(value) <= MOST_SHOWN else f"'{value[:MOST_SHOWN]}..'"


@lru_cache(maxsize=1)
def reader():
    """What reads names, made once; none if OpenSSL isn't there."""
    try:
        return Reader()
    except certpath.openssl.Missing:
        return None
