"""Files of any form: PEM, DER and PKCS #7, and what is left out of them."""
import os
from ctypes import byref, c_size_t, c_uint32
from typing import List, NamedTuple, Optional, Union

from . import arguments, library
from .forms import FORMS, path_of
from .items import Items, Octets

# The labels of PEM blocks that are known, by the numbers of certpath.h.
LABELS = ("CERTIFICATE", "X509 CRL", "X509 CERTIFICATE", "X.509 CERTIFICATE",
          "TRUSTED CERTIFICATE", "PKCS7", "CMS", "PKCS #7 SIGNED DATA", "PRIVATE KEY",
          "ENCRYPTED PRIVATE KEY", "PUBLIC KEY", "OPENSSH PRIVATE KEY", "RSA PRIVATE KEY",
          "EC PRIVATE KEY", "DSA PRIVATE KEY", "RSA PUBLIC KEY", "CERTIFICATE REQUEST",
          "NEW CERTIFICATE REQUEST", "ATTRIBUTE CERTIFICATE", "X509 ATTRIBUTE CERTIFICATE",
          "EC PARAMETERS", "DSA PARAMETERS", "DH PARAMETERS", "X9.42 DH PARAMETERS")
# Why something is left out, by the numbers of certpath.h; {} is how many octets are meant.
REASONS = ("the file is empty", "the file is neither PEM nor DER", "the file is a text in UTF-16",
           "neither certificate nor revocation list", "{} after the item", "its END is missing",
           "header lines within", "there is nothing in it", "not base64",
           "the block holds neither certificate nor revocation list", "the label isn't known",
           "an END that ends no block", "a BEGIN or an END that is no line of its own "
           "(are newlines missing?)", "octets around the blocks that are no text",
           "no SignedData in DER", "SignedData without certificates and revocation lists",
           "neither certificate nor revocation list", "its length is indefinite (BER) or cut",
           "its length is above 16777216", "{} of it missing",
           "its length is not in the shortest form (BER)")
# What an item is by its shape, and an element of SignedData by its set; by the numbers of
# certpath.h.
SHAPES = {1: "certificate", 2: "revocation list"}
# How many things that are left out there is room for at first.
ROOM = 16


class LeftOut(NamedTuple):
    """Something that is left out of a file. No octet of it is here.

    >>> import certpath
    >>> left, = certpath.load("samples/keys/leaf.pem").left
    >>> left.place, left.label, left.reason
    ('line 1', 'PRIVATE KEY', 'the block holds neither certificate nor revocation list')
    """
    line: Optional[int]
    """The line of a PEM file, from 1: its own, or that of the block's BEGIN; None if it has none."""
    position: Optional[int]
    """The octet of a DER file at which it begins, from 0; None if it has none."""
    label: Optional[str]
    """The block's label, if that is a known one: another one may be part of a key."""
    reason: str
    """Why it is left out, in words."""
    before: int
    """How many items of the file come before it."""

    @property
    def place(self) -> str:
        """Where it is, as `line 3` or `octet 120`; empty of a file as a whole."""
        if self.line is not None:
            return f"line {self.line}"
        return "" if self.position is None else f"octet {self.position}"

    def __str__(self) -> str:
        label = "" if self.label is None else f" {self.label}"
        return f"{self.place}{label}: {self.reason}".lstrip(": ")


class Loaded(NamedTuple):
    """What a file holds, and what is left out of it.

    >>> import certpath
    >>> loaded = certpath.load(open("samples/list.der", "rb").read() + b"text")
    >>> loaded.name, loaded.form, loaded.items, loaded.shapes
    (None, 'DER', <Items(1 of 433 octets, clean)>, ['revocation list'])
    >>> print(*loaded.left)
    octet 433: neither certificate nor revocation list, 4 octets to the file's end
    """
    name: Optional[str]
    """The file's name; None of octets without one."""
    form: str
    """"PEM", "DER", "PKCS #7", "empty" or "other"."""
    items: Items
    """Its certificates and revocation lists, in its order, with what else has the shape of one."""
    left: List[LeftOut]
    """What is left out, in its order."""
    shapes: List[str]
    """What each item is by its shape, "certificate" or "revocation list". By its `kind`, which
    goes by all of its octets, it may be neither."""


def octet_count(number: int) -> str:
    return f"{number} octet" if number == 1 else f"{number} octets"


def reason_of(row: library.LeftOut) -> str:
    """Why something is left out, in words."""
    said = REASONS[row.reason].format(octet_count(row.count))
    if row.to_end:
        end = "set" if row.set else "file"
        said = f"{said}, {octet_count(row.to_end)} to the {end}'s end"
    if row.set:
        said = f"{SHAPES[row.set]} {row.number} of the SignedData: {said}"
    return said


def left_out(row: library.LeftOut, form: str) -> LeftOut:
    """What is left out, of a file of this form."""
    has_position = form in ("DER", "PKCS #7")
    label = LABELS[row.label - 1] if row.label else None
    position = row.position if has_position else None
    return LeftOut(row.line or None, position, label, reason_of(row), row.before)


def shape_of(data: Octets) -> Optional[str]:
    """What octets are by their shape, which is all that `load` goes by: "certificate",
    "revocation list", or None where their parts begin otherwise, or they aren't one DER item.

    >>> import certpath
    >>> certpath.shape_of(open("samples/list.der", "rb").read())
    'revocation list'
    >>> print(certpath.shape_of(b"0\\0"))
    None

    TypeError of what is no octets. What an item is by all of its octets, `class_of` says.
    """
    octets, found = arguments.octets(data, "an item"), c_uint32()
    library.refuse(library.loaded().certpath_shape(*library.octets_of(octets), byref(found)))
    return SHAPES.get(found.value)


def shapes_of(items: Items) -> List[str]:
    """What each item of a file is by its shape."""
    found, count = (c_uint32 * len(items))(), c_size_t()
    library.refuse(library.loaded().certpath_shapes(*library.octets_of(items.data), items.limit,
                                                    found, len(items), byref(count)))
    return [*map(SHAPES.__getitem__, found)]


def octets_in(source: Union[str, "os.PathLike[str]", Octets]) -> bytes:
    """The octets of a file by its path, or octets that are given."""
    if isinstance(source, (str, os.PathLike)):
        with open(path_of(source), "rb") as file:
            return file.read()
    return arguments.octets(source, "the source", "a path or octets are needed")


def name_of(source: Union[str, "os.PathLike[str]", Octets]) -> Optional[str]:
    """The name of a file by its path."""
    return os.fsdecode(source) if isinstance(source, (str, os.PathLike)) else None


def load(source: Union[str, "os.PathLike[str]", Octets], name: Optional[str] = None) -> Loaded:
    """The certificates and revocation lists of a file, of PEM (RFC 7468), DER or PKCS #7 (RFC 5652,
    5.1), and what is left out of it.

    >>> import certpath
    >>> loaded = certpath.load("samples/fullchain.pem")
    >>> loaded.form, len(loaded.items), loaded.left
    ('PEM', 2, [])
    >>> for it in certpath.load("samples/keys/leaf.pem").left:
    ...     print(it)
    line 1 PRIVATE KEY: the block holds neither certificate nor revocation list

    `source` is a path, as a str or a PathLike, or octets. What is left out raises nothing, and is
    in `left`: a private key, a block that is cut, text without a block. An item has the shape of a
    certificate or of a revocation list; what else is wrong with it, its `kind` says.

    OSError if the file can't be read, TypeError of another source, ValueError of a text that is no
    path but PEM. OutOfMemory if the C library gives no memory.
    """
    octets = octets_in(source)
    found, room, left_room = library.Loaded(), len(octets), ROOM
    while True:
        items = library.buffer_of(room)
        left = (library.LeftOut * left_room)()
        status = library.loaded().certpath_load(*library.octets_of(octets), items, room, left,
                                                left_room, byref(found))
        if status != library.TOO_SMALL:
            break
        room, left_room = found.length, found.left
    library.refuse(status)
    form, its = FORMS[found.form], Items(bytes(memoryview(items)[:found.length]))
    return Loaded(name_of(source) if name is None else name, form, its,
                  [left_out(it, form) for it in left[:found.left]], shapes_of(its))
