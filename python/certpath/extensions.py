"""Extensions of certificates and revocation lists, and what is signed without some of them."""
from ctypes import byref
from typing import NamedTuple, Optional, Tuple

from . import library
from .forms import no_certificate
from .identifiers import IdentifierGiven, identifier_of

# The poison of a precertificate, and the list of SCTs of a certificate (RFC 6962, 3.1 and 3.3).
POISON, SCT_LIST = "1.3.6.1.4.1.11129.2.4.3", "1.3.6.1.4.1.11129.2.4.2"
# How many extensions there is room for at first.
ROOM = 16


class Extension(NamedTuple):
    """An extension of a certificate or of a revocation list (RFC 5280, 4.2 and 5.2).

    >>> import certpath
    >>> leaf = certpath.load("samples/leaf.der").items[0]
    >>> [(it.identifier.hex(), it.is_critical) for it in leaf.extensions]
    [('551d13', True), ('551d0f', True), ('551d11', False), ('551d0e', False), ('551d23', False)]
    """
    identifier: bytes
    """The content octets of its OBJECT IDENTIFIER."""
    is_critical: bool
    value: bytes
    """The content octets of its OCTET STRING, of which nothing was read."""


def extensions_of(octets: bytes) -> Tuple[Extension, ...]:
    """The extensions of an item; NoField if it is neither a certificate nor a list."""
    sizes, count, room = library.ExtensionSizes(), ROOM, len(octets)
    while True:
        buffer, rows = library.buffer_of(room), (library.ExtensionRow * count)()
        status = library.loaded().certpath_extensions(*library.octets_of(octets), buffer, room, rows,
                                                      count, byref(sizes))
        if status != library.TOO_SMALL:
            break
        count, room = sizes.count, max(room, sizes.length)
    library.refuse(status)
    view, at, found = memoryview(buffer), 0, []
    for row in rows[:sizes.count]:
        value, end = at + row.identifier, at + row.identifier + row.value
        found.append(Extension(bytes(view[at:value]), bool(row.is_critical), bytes(view[value:end])))
        at = end
    return tuple(found)


def tbs_of(octets: bytes, without: Optional[IdentifierGiven]) -> bytes:
    """The TBSCertificate of a certificate without the extensions of an identifier."""
    left_out = b"" if without is None else identifier_of(without, "without")
    given = *library.octets_of(octets), *library.octets_of(left_out)
    call = library.loaded().certpath_tbs
    try:
        return library.sized(lambda *room: call(*given, *room), len(octets))
    except library.BadItem:
        raise no_certificate(octets) from None
