"""Items: the certificates and revocation lists of a file, and what they hold."""
import enum
import hashlib
import operator
from array import array
from collections.abc import Sequence
from ctypes import byref, c_size_t, c_uint32
from datetime import datetime
from typing import (Any, Dict, Iterator, List, NamedTuple, Optional, Tuple, Type, TypeVar, Union,
                    overload)

from . import arguments, library
from .cutting import Cutter, End
from .extensions import Extension, extensions_of, tbs_of
from .fixed import Fixed, kept
from .forms import remedy_for
from .identifiers import IdentifierGiven, identifier_of
from .moments import datetime_of
from .names import Name
from .pem import block_of

LIMIT = 16777216
# What a call takes as octets.
Octets = Union[bytes, bytearray, memoryview]
# Stands for the class of an item that isn't known yet.
UNKNOWN = 255
T = TypeVar("T", bound="Item")
# How many items are classed in one call.
MANY = 1 << 16
# An item of more octets takes long to be classed, and then as long to be read.
LARGE = 1 << 20


class Kind(enum.Enum):
    """What an item is.

    >>> import certpath
    >>> certpath.class_of(open("samples/list.der", "rb").read()) is certpath.Kind.LIST
    True
    """
    OTHER = 0
    CERTIFICATE = 1
    LIST = 2


class Field(enum.IntEnum):
    """Fields of items, by the numbers of certpath.h."""
    ISSUER = 0
    SUBJECT = 1
    KEY = 2
    SERIAL = 3
    ALGORITHM = 4


# The numbers of fields.
FIELDS = range(len(Field))


KINDS = tuple(Kind)
# The labels of PEM blocks (RFC 7468, 5 and 6).
LABELS = {Kind.CERTIFICATE: "CERTIFICATE", Kind.LIST: "X509 CRL"}


class Contents(NamedTuple):
    """What an item is, its two times, and its fields in octets; None is what it doesn't have.

    >>> import certpath
    >>> contents = certpath.item_of(open("samples/list.der", "rb").read()).read()
    >>> contents.kind.name, contents.first.isoformat(), contents.subject, contents.algorithm.hex()
    ('LIST', '2026-11-22T00:00:00+00:00', None, '2a864886f70d01010b')
    """
    kind: Kind
    first: Optional[datetime]
    """A certificate's notBefore, a list's thisUpdate."""
    last: Optional[datetime]
    """A certificate's notAfter, a list's nextUpdate."""
    issuer: Optional[bytes]
    subject: Optional[bytes]
    key: Optional[bytes]
    serial: Optional[bytes]
    algorithm: Optional[bytes]
    subject_key_id: Optional[bytes]
    authority_key_id: Optional[bytes]
    item_digest: bytes
    """SHA-256 of all octets."""
    key_digest: Optional[bytes]
    """SHA-256 of the key."""


def contents_of(octets: bytes) -> Contents:
    """What the octets of an item are and hold, by one reading."""
    found, buffer = library.contents_of(octets)
    view, at = memoryview(buffer), 0
    fields: Dict[str, Optional[bytes]] = {}
    for name in library.FIELDS:
        extent = getattr(found, name)
        end = at + extent.length
        fields[name] = bytes(view[at:end]) if extent.is_there else None
        at = end
    times = found.validity
    first = datetime_of(times.first) if found.item_class else None
    last = datetime_of(times.last) if times.has_last else None
    key_digest = bytes(found.key_digest) if found.key.is_there else None
    return Contents(KINDS[found.item_class], first, last, **fields,
                    item_digest=bytes(found.item_digest), key_digest=key_digest)


def class_number(octets: bytes, length: int) -> int:
    """The number of what the octets of an item are."""
    found = c_uint32()
    library.refuse(library.loaded().certpath_class(octets, length, byref(found)))
    return found.value


def class_of(data: Octets) -> Kind:
    """What the octets of an item are.

    >>> import certpath
    >>> certpath.class_of(open("samples/leaf.der", "rb").read()), certpath.class_of(b"text")
    (<Kind.CERTIFICATE: 1>, <Kind.OTHER: 0>)

    TypeError of what is no octets. It makes no Item: to be asked for more, `item_of` does.
    """
    return KINDS[class_number(*library.octets_of(arguments.octets(data, "an item")))]


def there(at: Optional[datetime]) -> datetime:
    """A time that an item of this class has."""
    if at is None:
        raise library.NoField(library.NO_FIELD)
    return at


class Item(Fixed):
    """A certificate, a revocation list, or other octets. Items are equal if their octets are.

    An item is read when it is first asked for something, and once. `item_of` gives one of the class
    that its octets are.

    >>> import certpath
    >>> octets = open("samples/leaf.der", "rb").read()
    >>> item = certpath.Item(octets)
    >>> item, item.kind, item == certpath.Certificate(octets), item.public_bytes() == octets
    (<Item(884 octets)>, <Kind.CERTIFICATE: 1>, True, True)
    """

    _octets: bytes

    def __init__(self, octets: Octets) -> None:
        self._set(_octets=arguments.octets(octets, "an item"))

    @classmethod
    def _known(cls: Type[T], octets: bytes) -> T:
        """An item whose octets are known to be of its class."""
        made = cls.__new__(cls)
        made.__dict__["_octets"] = octets
        return made

    @kept
    def _contents(self) -> Contents:
        return contents_of(self._octets)

    def read(self) -> Contents:
        """What the item is and holds. It is read once, whatever is asked of it afterwards."""
        return self._contents

    @property
    def kind(self) -> Kind:
        """What the item is."""
        return self._contents.kind

    def public_bytes(self) -> bytes:
        """The item's DER."""
        return self._octets

    def pem(self) -> str:
        """The item as a PEM block (RFC 7468, 5 and 6), ended by a line end; BadItem of what is
        neither a certificate nor a list.

        >>> import certpath
        >>> text = certpath.load("samples/root.pem").items[0].pem()
        >>> text == open("samples/root.pem").read()
        True
        """
        label = LABELS.get(self.kind)
        if label is None:
            raise library.BadItem("neither a certificate nor a list: PEM has no label for it")
        return block_of(label, self._octets)

    def fingerprint(self, algorithm: str = "sha256") -> bytes:
        """The digest of all octets, by a name that `hashlib` knows: 32 octets of SHA-256 by default.

        >>> import certpath
        >>> leaf = certpath.load("samples/leaf.der").items[0]
        >>> leaf.fingerprint() == leaf.read().item_digest, len(leaf.fingerprint("sha1"))
        (True, 20)

        ValueError of a name that it doesn't know.
        """
        if not isinstance(algorithm, str):
            raise TypeError(f"algorithm: a name is needed, as 'sha256', not "
                            f"{arguments.type_name(algorithm)}")
        try:
            return hashlib.new(algorithm, self._octets, usedforsecurity=False).digest()
        except (TypeError, ValueError):
            # (a TypeError: of an algorithm whose digests are of any length)
            raise ValueError("algorithm: hashlib makes no digest of one length by "
                             f"{algorithm!r:.40}, as it does by 'sha256'") from None

    def field(self, field: Field) -> bytes:
        """A field's octets; NoField if the item has no such field."""
        number = arguments.number(field, "the field", arguments.MOST_32)
        found = getattr(self._contents, library.FIELDS[number]) if number in FIELDS else None
        if found is None:
            raise library.NoField(library.NO_FIELD)
        return bytes(found)

    def __eq__(self, other: object) -> bool:
        return isinstance(other, Item) and self._octets == other._octets

    def __hash__(self) -> int:
        return hash(self._octets)

    def __repr__(self) -> str:
        return f"<{type(self).__name__}({len(self._octets)} octets)>"

    def __reduce__(self) -> Tuple[Type["Item"], Tuple[bytes]]:
        return type(self), (self._octets,)


class OfKind(Item):
    """An item of one class. Octets of another one are refused: BadItem."""

    def __init__(self, octets: Octets) -> None:
        super().__init__(octets)
        found = self._contents.kind
        if found is not self.kind:
            remedy = (remedy_for(self._octets) if found is Kind.OTHER
                      else f"certpath.{CLASSES[found].__name__} or certpath.item_of() takes them")
            raise library.BadItem(f"the octets of a {type(self).__name__} are needed, and these are "
                                  f"Kind.{found.name}; {remedy}")


class Other(OfKind):
    """Octets that are neither a certificate nor a list in its one spelling.

    >>> import certpath
    >>> certpath.item_of(b"text"), certpath.Other(b"text").kind
    (<Other(4 octets)>, <Kind.OTHER: 0>)
    """
    kind = Kind.OTHER


class Signed(OfKind):
    """What certificates and lists share."""

    @kept
    def issuer(self) -> Name:
        """The name under which it was issued."""
        return Name(self.field(Field.ISSUER))

    @kept
    def signature_algorithm(self) -> bytes:
        """The identifier of the signature's algorithm, the content of its OBJECT IDENTIFIER."""
        return self.field(Field.ALGORITHM)

    @kept
    def extensions(self) -> Tuple[Extension, ...]:
        """Its extensions, in their order."""
        return extensions_of(self._octets)

    def extension(self, identifier: IdentifierGiven) -> Optional[Extension]:
        """The first extension of an identifier, or None if there is none.

        >>> import certpath
        >>> leaf = certpath.load("samples/leaf.der").items[0]
        >>> leaf.extension("2.5.29.15")
        Extension(identifier=b'U\\x1d\\x0f', is_critical=True, value=b'\\x03\\x02\\x07\\x80')

        ValueError of a text that isn't the numbers of one, as `2.5.29.15` is.
        """
        wanted = identifier_of(identifier, "the identifier")
        return next((it for it in self.extensions if it.identifier == wanted), None)


class Certificate(Signed):
    """A certificate (RFC 5280, 4.1).

    >>> import certpath
    >>> leaf = certpath.Certificate(open("samples/leaf.der", "rb").read())
    >>> print(leaf.issuer, leaf.not_valid_before_utc.date(), leaf.authority_key_id.hex()[:16])
    C=CZ, O=Example, CN=Example Intermediate 2026-11-22 3dd4286a36919da2
    >>> certpath.Certificate(open("samples/leaf.der", "rb").read() + b"0")
    Traceback (most recent call last):
    ...
    certpath.library.BadItem: the octets of a Certificate are needed, and these are Kind.OTHER; \
certpath.load() says what is left out of them
    """
    kind = Kind.CERTIFICATE

    @kept
    def subject(self) -> Name:
        """Whose certificate it is."""
        return Name(self.field(Field.SUBJECT))

    @kept
    def serial_number(self) -> int:
        return int.from_bytes(self.field(Field.SERIAL), "big", signed=True)

    @property
    def not_valid_before_utc(self) -> datetime:
        """From when it is valid."""
        return there(self._contents.first)

    @property
    def not_valid_after_utc(self) -> datetime:
        """Until when it is valid."""
        return there(self._contents.last)

    @kept
    def public_key_bytes(self) -> bytes:
        """The key's DER, a SubjectPublicKeyInfo."""
        return self.field(Field.KEY)

    @property
    def subject_key_id(self) -> Optional[bytes]:
        """The identifier of its key (RFC 5280, 4.2.1.2), or None if it names none."""
        return self._contents.subject_key_id

    @property
    def authority_key_id(self) -> Optional[bytes]:
        """The identifier of its issuer's key (RFC 5280, 4.2.1.1), or None if it names none."""
        return self._contents.authority_key_id

    def tbs(self, without: Optional[IdentifierGiven] = None) -> bytes:
        """The part that is signed, in DER; `certpath.tbs` has more."""
        return tbs_of(self._octets, without)


class RevocationList(Signed):
    """A certificate revocation list (RFC 5280, 5.1).

    >>> import certpath
    >>> found = certpath.RevocationList(open("samples/list.der", "rb").read())
    >>> print(found.issuer, found.last_update_utc.date(), found.next_update_utc.date())
    C=CZ, O=Example, CN=Example Intermediate 2026-11-22 2031-11-22
    """
    kind = Kind.LIST

    @property
    def last_update_utc(self) -> datetime:
        """When it was issued."""
        return there(self._contents.first)

    @property
    def next_update_utc(self) -> Optional[datetime]:
        """When the next list is due, or None if it doesn't say so."""
        return self._contents.last


CLASSES: Dict[Kind, Type[Item]] = {
    Kind.OTHER: Other, Kind.CERTIFICATE: Certificate, Kind.LIST: RevocationList}


def item_of(data: Octets) -> Item:
    """The item that octets are, which are read once: a Certificate, a RevocationList or an Other.

    >>> import certpath
    >>> item = certpath.item_of(open("samples/leaf.der", "rb").read())
    >>> print(item.subject, item.serial_number, item.not_valid_after_utc.date())
    C=CZ, O=Example, CN=www.example.test 3 2031-11-22
    >>> certpath.item_of(b"text").kind
    <Kind.OTHER: 0>
    """
    return read_item(arguments.octets(data, "an item"))


def read_item(octets: bytes) -> Item:
    """The item that a `bytes` is, with what it holds."""
    contents = contents_of(octets)
    made = CLASSES[contents.kind]._known(octets)
    made.__dict__["_contents"] = contents
    return made


def tbs(item: Union[Item, Octets], without: Optional[IdentifierGiven] = None) -> bytes:
    """The TBSCertificate of a certificate, in DER (RFC 5280, 4.1), without the extensions that have
    the identifier `without`: its numbers, or the content octets of its OBJECT IDENTIFIER.

    >>> import certpath
    >>> leaf = open("samples/leaf.der", "rb").read()
    >>> certpath.tbs(leaf) in leaf, certpath.tbs(leaf, certpath.SCT_LIST) == certpath.tbs(leaf)
    (True, True)
    >>> len(certpath.tbs(leaf)) - len(certpath.tbs(leaf, "2.5.29.15"))
    16

    A log's entry for a precertificate has `tbs(precertificate, certpath.POISON)`, unless another
    certificate than the issuer's own signed that, and `tbs(certificate, certpath.SCT_LIST)` of the
    certificate that followed it (RFC 6962, 3.2).

    BadItem if the item is no certificate, ValueError of a text that isn't the numbers of an
    identifier.
    """
    octets = item.public_bytes() if isinstance(item, Item) else arguments.octets(item, "an item")
    return tbs_of(octets, without)


class Items(Fixed, Sequence[Item]):
    """The items of octets in their order, each classed when it is first asked for.

    `data` are the octets, `limit` is the most content octets of an item, and `end` says how the
    octets end after the items. Items are never changed. They may be pickled, and are framed anew
    when they are loaded.

    >>> import certpath
    >>> items = certpath.load("samples/fullchain.pem").items
    >>> len(items), items, items[-1]
    (2, <Items(2 of 1741 octets, clean)>, <Certificate(857 octets)>)
    >>> for it in items:
    ...     print(it.subject, it.serial_number)
    C=CZ, O=Example, CN=www.example.test 3
    C=CZ, O=Example, CN=Example Intermediate 2
    """
    data: bytes
    limit: int
    end: End
    _starts: "array[int]"
    _kinds: bytearray
    _items: Dict[int, Item]

    def __init__(self, data: Octets, limit: int = LIMIT) -> None:
        octets = arguments.octets(data, "data")
        limit = arguments.number(limit, "the limit", arguments.MOST_32)
        cutter = Cutter(octets, limit)
        end = cutter.all()
        # (the starts: where each item begins, and where the last one ends)
        self._set(data=octets, limit=limit, end=end, _starts=cutter.starts,
                  _kinds=bytearray([UNKNOWN]) * (len(cutter.starts) - 1), _items={})

    def _at(self, position: int) -> int:
        """A position from 0 on; it may be given from the end, as of a list."""
        count = len(self)
        try:
            return range(count)[operator.index(position)]
        except IndexError:
            raise IndexError(f"there are {count} items, and none at position "
                             f"{arguments.shown(position)}") from None

    def octets(self, position: int) -> bytes:
        """The octets of the item at a position."""
        position = self._at(position)
        return self.data[self._starts[position]:self._starts[position + 1]]

    def kind(self, position: int) -> Kind:
        """What the item at a position is; its octets aren't copied."""
        position = self._at(position)
        if self._kinds[position] == UNKNOWN:
            self._kinds[position] = class_number(*self._part(position, position + 1))
        return KINDS[self._kinds[position]]

    def kinds(self) -> Iterator[Kind]:
        """What each item is, in their order: for all items this costs least."""
        for first in range(0, len(self), MANY):
            end = min(first + MANY, len(self))
            while (first := self._kinds.find(UNKNOWN, first, end)) >= 0:
                rest = self._kinds[first:end]
                unknown = len(rest) - len(rest.lstrip(bytes([UNKNOWN])))
                self._class(first, first + unknown)
                first += unknown
        return map(KINDS.__getitem__, self._kinds)

    def read_large(self) -> None:
        """Reads the large items, for a caller who asks for all that certificates and lists hold:
        `kinds` doesn't class them before."""
        for first in range(0, len(self), MANY):
            starts = self._starts[first:first + MANY + 1]
            if starts[-1] - starts[0] > LARGE:
                for position, (at, end) in enumerate(zip(starts, starts[1:]), first):
                    if end - at > LARGE:
                        self[position]

    def _part(self, first: int, end: int) -> Tuple[Any, int]:
        """The octets of the items from a position up to another one, as a call takes them."""
        offset = self._starts[first]
        return library.part_of(self.data, offset, self._starts[end] - offset)

    def _class(self, first: int, end: int) -> None:
        """Classes the items from a position up to another one, by one call."""
        room = end - first
        found, count = (c_uint32 * room)(), c_size_t()
        library.refuse(library.loaded().certpath_classes(*self._part(first, end), self.limit,
                                                         found, room, byref(count)))
        self._kinds[first:end] = bytes(found[:])

    def __len__(self) -> int:
        return len(self._starts) - 1

    @overload
    def __getitem__(self, position: int) -> Item: ...

    @overload
    def __getitem__(self, position: slice) -> List[Item]: ...

    def __getitem__(self, position: Any) -> Any:
        if isinstance(position, slice):
            return [self[it] for it in range(*position.indices(len(self)))]
        position = self._at(position)
        if position not in self._items:
            item = self._item(position)
            if item.kind is Kind.OTHER:
                # (it has nothing that is read but once, and a file may have millions of them)
                return item
            return self._items.setdefault(position, item)
        return self._items[position]

    def _item(self, position: int) -> Item:
        """The item at a position. One that isn't classed yet is read."""
        octets, kind = self.octets(position), self._kinds[position]
        if kind != UNKNOWN:
            return CLASSES[KINDS[kind]]._known(octets)
        item = read_item(octets)
        self._kinds[position] = item.kind.value
        return item

    def __repr__(self) -> str:
        return f"<Items({len(self)} of {len(self.data)} octets, {self.end.word})>"

    def __reduce__(self) -> Tuple[Type["Items"], Tuple[bytes, int]]:
        return Items, (self.data, self.limit)


# What a call takes as a bundle or anchors.
Given = Union[Items, Octets]


def frame(data: Octets, limit: int = LIMIT) -> Items:
    """Cuts octets into items: DER SEQUENCEs one after another, each of at most `limit` content
    octets. `items.end` says how the octets end after them. `load` reads PEM and PKCS #7 too.

    >>> import certpath
    >>> items = certpath.frame(open("samples/bundle.der", "rb").read())
    >>> [it.kind.name for it in items], items.end.is_clean
    (['CERTIFICATE', 'CERTIFICATE', 'CERTIFICATE', 'LIST'], True)

    TypeError of what is no octets, such as a path or a number; ValueError of a limit that isn't
    from 0 to 4294967295.
    """
    return Items(data, limit)


def are_no_items(items: Items) -> bool:
    """Whether octets are there, and begin with no item, however large one may be."""
    if items.end != ("fault", 0):
        return False
    return items.limit == arguments.MOST_32 or are_no_items(Items(items.data, arguments.MOST_32))


def items_of(data: Given, what: str, limit: int = LIMIT) -> Items:
    """Items that are given as such, or as octets that are items to their last one; BadItem of octets
    that aren't."""
    if isinstance(data, Items):
        return data
    items = Items(arguments.octets(data, what), limit)
    refuse_text(items, what)
    at, length = items.end.at, len(items.data)
    if items.end.word == "cut":
        raise library.BadItem(f"{what}: the item at octet {at} of {length} is cut off; "
                              "certpath.frame() takes the items before it")
    if not items.end.is_clean:
        raise library.BadItem(f"{what}: no item of at most {limit} content octets begins at octet "
                              f"{at} of {length}; certpath.frame() takes the items before it, and "
                              "another limit")
    return items


def refuse_text(items: Items, what: str) -> None:
    """BadItem of Items that PEM or other text was framed to."""
    if are_no_items(items):
        raise library.BadItem(f"{what}: the octets are no DER items; {remedy_for(items.data)}")


def under_one_limit(bundle: Given, anchors: Given) -> Tuple[Items, Items]:
    """A bundle and anchors, each Items or octets, under one limit: that of Items that are given.

    BadItem as for `items_of`; ValueError of Items with two limits.
    """
    if isinstance(bundle, Items) or not isinstance(anchors, Items):
        bundle = items_of(bundle, "the bundle")
        anchors = items_of(anchors, "the anchors", bundle.limit)
    else:
        bundle = items_of(bundle, "the bundle", anchors.limit)
    if bundle.limit != anchors.limit:
        raise ValueError(f"the bundle has the limit {bundle.limit}, and the anchors "
                         f"{anchors.limit}; frame both with one")
    return bundle, anchors


def both(bundle: Given, anchors: Given) -> Tuple[Items, Items]:
    """A bundle and anchors under one limit. Items are refused too that have nothing but text, which
    would be a file without items in silence."""
    bundle, anchors = under_one_limit(bundle, anchors)
    refuse_text(bundle, "the bundle")
    refuse_text(anchors, "the anchors")
    return bundle, anchors
