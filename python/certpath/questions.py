"""Questions: which keys may have signed which items."""
from ctypes import byref, c_size_t
from typing import Container, Dict, List, NamedTuple, cast

from . import arguments, library
from .items import (Certificate, Given, Item, Items, Kind, Signed, both, frame,
                    under_one_limit)
from .names import Name


def item_at(items: Items, position: int) -> Item:
    """The item at a position from 0; IndexError if there is none."""
    position = arguments.number(position, "a position", arguments.MOST_64, IndexError)
    if position >= len(items):
        raise IndexError(f"there are {len(items)} items, and none at position {position}")
    return items[position]


class Holder(NamedTuple):
    """A certificate whose key is meant.

    >>> import certpath
    >>> bundle, anchors = (certpath.load(it).items for it in ("samples/fullchain.pem",
    ...                                                       "samples/root.pem"))
    >>> print(certpath.Holder(is_anchor=True, position=0).certificate(bundle, anchors).subject)
    C=CZ, O=Example, CN=Example Root
    """
    is_anchor: bool
    """Whether the certificate is an anchor."""
    position: int
    """Its position in the bundle, or among the anchors."""

    def certificate(self, bundle: Items, anchors: Items) -> Certificate:
        """The certificate; IndexError if there is no such item, ValueError if it is none."""
        found = item_at(anchors if self.is_anchor else bundle, self.position)
        if not isinstance(found, Certificate):
            raise ValueError(f"{self} is no certificate, but Kind.{found.kind.name}")
        return found


class Question(NamedTuple):
    """Whether the key of a certificate verifies the signature of an item of the bundle.

    >>> import certpath
    >>> bundle, anchors = (certpath.load(it).items for it in ("samples/fullchain.pem",
    ...                                                       "samples/root.pem"))
    >>> question = certpath.questions(bundle, anchors)[1]
    >>> question, str(question.key_holder(bundle, anchors).subject)
    (Question(item=1, holder=0, is_anchor=True), 'C=CZ, O=Example, CN=Example Root')
    """
    item: int
    """The item's position in the bundle."""
    holder: int
    """The certificate's position in the bundle, or among the anchors."""
    is_anchor: bool
    """Whether the certificate is an anchor."""

    def key_holder(self, bundle: Items, anchors: Items) -> Certificate:
        """The certificate whose key is meant."""
        return Holder(self.is_anchor, self.holder).certificate(bundle, anchors)


def questions(bundle: Given, anchors: Given) -> List[Question]:
    """All questions of a bundle and anchors (Items or octets), each once, by their items' order.

    >>> import certpath
    >>> bundle, anchors = (certpath.load(it).items for it in ("samples/fullchain.pem",
    ...                                                       "samples/root.pem"))
    >>> certpath.questions(bundle, anchors)[0]
    Question(item=0, holder=1, is_anchor=False)

    Of signatures nothing else is ever asked: whoever answers these alike has the same paths. Of n
    items of one name there may be n times n questions; `holders_by_issuer` has each name once.
    BadItem of octets that aren't DER items, ValueError of Items with two limits.
    """
    bundle, anchors = both(bundle, anchors)
    one, other = library.octets_of(bundle.data), library.octets_of(anchors.data)
    count, room = c_size_t(), 4 * len(bundle) + len(anchors) + 16
    while True:
        rows = (library.QuestionRow * room)()
        status = library.loaded().certpath_questions(*one, *other, bundle.limit, rows, room,
                                                     byref(count))
        if status != library.TOO_SMALL:
            break
        room = count.value
    library.refuse(status)
    return [Question(it.item, it.holder, bool(it.is_anchor)) for it in rows[:count.value]]


def signed_at(items: Items, position: int) -> Signed:
    """The certificate or the list at a position."""
    return cast(Signed, items[position])


def certificate_at(items: Items, position: int) -> Certificate:
    """The certificate at a position."""
    return cast(Certificate, items[position])


def first_issued(bundle: Items) -> Dict[Name, int]:
    """The names under which items were issued, and for each the first of its items."""
    found: Dict[Name, int] = {}
    for position, kind in enumerate(bundle.kinds()):
        if kind is not Kind.OTHER:
            found.setdefault(signed_at(bundle, position).issuer, position)
    return found


def certificates_under(names: Container[Name], items: Items, is_anchor: bool) -> List[Holder]:
    """The certificates whose subject is one of the names."""
    return [Holder(is_anchor, it) for it, kind in enumerate(items.kinds())
            if kind is Kind.CERTIFICATE and certificate_at(items, it).subject in names]


def holders_by_issuer(bundle: Given, anchors: Given) -> Dict[Name, List[Holder]]:
    """The questions of a bundle and anchors (Items or octets), each name of an issuer once: whose
    keys have to be tried on the items that were issued under it, in the order of the files.

    >>> import certpath
    >>> bundle, anchors = (certpath.load(it).items for it in ("samples/fullchain.pem",
    ...                                                       "samples/root.pem"))
    >>> certpath.holders_by_issuer(bundle, anchors)[bundle[1].issuer]
    [Holder(is_anchor=True, position=0)]

    Since an item's questions depend on its issuer's name alone, it asks those of one item a name.
    Items are taken however their octets end; errors are those of `questions` else.
    """
    bundle, anchors = under_one_limit(bundle, anchors)
    for items in (bundle, anchors):
        items.read_large()
    first = first_issued(bundle)
    names, asking = [*first], [Holder(False, it) for it in first.values()]
    holding = certificates_under(first, bundle, False) + certificates_under(first, anchors, True)
    found: Dict[Name, List[Holder]] = {it: [] for it in names}
    for question in questions(joined(asking, bundle, anchors), joined(holding, bundle, anchors)):
        side = holding if question.is_anchor else asking
        found[names[question.item]].append(side[question.holder])
    return {name: sorted(holders) for name, holders in found.items()}


def joined(holders: List[Holder], bundle: Items, anchors: Items) -> Items:
    """Items by their places, as a file of their own."""
    octets = ((anchors if it.is_anchor else bundle).octets(it.position) for it in holders)
    return frame(b"".join(octets), bundle.limit)
