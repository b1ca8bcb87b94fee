"""Whether a certificate is for a purpose, and whether it serves a host."""
from ctypes import byref, c_uint32
from typing import Callable, Union

from . import arguments, library
from .forms import no_certificate
from .items import Item, Octets
from .purposes import identifier_of

# Why a text is no host, by the numbers of certpath.h.
REFUSALS = ("it is empty", "it is a URL or has a path", "it is an e-mail address",
            "it has a wildcard", "it has a zone", "it has a port", "it is no IPv6 address",
            "it has a character outside ASCII; such a label is written xn--..",
            "it has a character that no name has", "it has more than 253 octets",
            "it has an empty label", "it has a label of more than 63 octets",
            "it has a label with a hyphen at an end",
            "its last label is a number, and it is no IPv4 address")


def octets_of_item(item: Union[Item, Octets]) -> bytes:
    """The octets of an item, or of such octets."""
    return item.public_bytes() if isinstance(item, Item) else arguments.octets(item, "the item")


def octets_of_host(host: Union[str, bytes]) -> bytes:
    """A host's text in octets. What isn't ASCII stays so, and the library refuses it."""
    if isinstance(host, str):
        return host.encode(errors="surrogatepass")
    return arguments.octets(host, "the host", "a text is needed, or its octets")


def answer(call: Callable[..., int], item: bytes, asked: bytes) -> bool:
    """What a call says of an item and of what is asked of it."""
    says = c_uint32()
    status = call(*library.octets_of(item), *library.octets_of(asked), byref(says))
    if status == library.BAD_HOST:
        known = says.value < len(REFUSALS)
        raise library.BadHost(REFUSALS[says.value] if known else f"reason {says.value}")
    if status == library.NOT_CERTIFICATE:
        raise no_certificate(item)
    library.refuse(status)
    return bool(says.value)


def allows(item: Union[Item, Octets], purpose: Union[str, bytes]) -> bool:
    """Whether a certificate is for a purpose (RFC 5280, 4.2.1.12): it has no extKeyUsage, or one
    that names the purpose or anyExtendedKeyUsage.

    >>> import certpath
    >>> certpath.allows(open("samples/leaf.der", "rb").read(), "serverAuth")
    True

    `item` is a Certificate or its DER; `purpose` is a name as `serverAuth` or `sslserver`, a number
    as `1.3.6.1.5.5.7.3.1`, or the content octets of an OBJECT IDENTIFIER. A certificate is for no
    purpose where its extKeyUsage is no DER of object identifiers, names none, or occurs twice.
    BadItem if the octets are no certificate, ValueError if the purpose is none.
    """
    return answer(library.loaded().certpath_allows, octets_of_item(item), identifier_of(purpose))


def serves(item: Union[Item, Octets], host: Union[str, bytes]) -> bool:
    """Whether a certificate serves a host (RFC 9525, 6): among the names of its one subjectAltName
    is a dNSName that matches the host's name, or an iPAddress of the host's octets.

    >>> import certpath
    >>> leaf = open("samples/leaf.der", "rb").read()
    >>> certpath.serves(leaf, "www.example.test"), certpath.serves(leaf, "example.test")
    (True, False)

    `item` is a Certificate or its DER; `host` is the name of a host, an IPv4 address or an IPv6
    address. `*.example.test` matches one label in the place of the star, and `*.test` matches
    nothing. The subject's common name is never used. BadHost if the text is no host, with the
    reason; BadItem if the octets are no certificate.
    """
    return answer(library.loaded().certpath_serves, octets_of_item(item), octets_of_host(host))


def refuse_host(host: Union[str, bytes]) -> None:
    """BadHost if a text is no host, as `serves` says it of any item."""
    try:
        serves(b"", host)
    except library.BadItem:
        pass


def refuse_purpose(purpose: Union[str, bytes]) -> None:
    """ValueError if a purpose is none, as `allows` says it of any item."""
    try:
        allows(b"", purpose)
    except library.BadItem:
        pass
