"""A model of hosts and purposes, written apart from the proved code: it knows what a certificate
was made of, and reads no octets of one.

Names are pairs of a kind and octets: `dns` and `ip`, and other kinds that name no host.
"""
import ipaddress
import re

LABEL = re.compile(rb"[A-Za-z0-9_-]+")
HOST_LABEL = re.compile(r"[A-Za-z0-9_](?:[A-Za-z0-9_-]{0,61}[A-Za-z0-9_])?")
MOST_HOST = 253
# Stands for a value of an extension that isn't well written.
MALFORMED = "malformed"
ANY = "2.5.29.37.0"


def address_of(text):
    """The octets of the address that a text writes; None if it writes none."""
    inner = text[1:-1] if text[:1] == "[" and text[-1:] == "]" else text
    if "%" in inner:
        return None
    try:
        found = ipaddress.ip_address(inner)
    except ValueError:
        return None
    return None if found.version == 4 and inner != text else found.packed


def host_of(text):
    """What a text asks for: `ip` with octets, `dns` with the name, or None if it is no host."""
    packed = address_of(text)
    if packed is not None:
        return "ip", packed
    name = text[:-1] if text.endswith(".") else text
    labels = name.split(".")
    if len(name) > MOST_HOST or not name.isascii() or not all(map(HOST_LABEL.fullmatch, labels)):
        return None
    return None if labels[-1].isdigit() else ("dns", name.encode())


def matches(presented, host):
    """Whether a presented name matches the name of a host (RFC 9525, 6.3)."""
    one, other = presented.lower().split(b"."), host.lower().split(b".")
    if len(one) != len(other):
        return False
    if one[0] == b"*" and len(one) >= 3:
        one, other = one[1:], other[1:]
    return one == other and all(map(LABEL.fullmatch, one))


def serves(alternatives, host):
    """Whether a certificate serves a host, by the values of its subjectAltName extensions, each a
    list of names."""
    if len(alternatives) != 1 or alternatives[0] == MALFORMED or not alternatives[0]:
        return False
    kind, octets = host
    return any(one == kind and (matches(value, octets) if kind == "dns" else value == octets)
               for one, value in alternatives[0])


def allows(usages, purpose):
    """Whether a certificate is for a purpose, by the values of its extKeyUsage extensions, each a
    list of numbers."""
    if not usages:
        return True
    if len(usages) > 1 or usages[0] == MALFORMED:
        return False
    return purpose in usages[0] or ANY in usages[0]


def has_path(chain, host, purpose):
    """Whether a chain of sound certificates, the target first, is a path if these are asked for;
    each certificate is a pair of its alternatives and its usages."""
    if host is not None and not serves(chain[0][0], host):
        return False
    return purpose is None or all(allows(usages, purpose) for _, usages in chain)
