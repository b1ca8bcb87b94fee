"""Signatures: which keys verify those of which items, by OpenSSL."""
from typing import NamedTuple

from verify import waiting
from verify.core import Kind, certpath
from verify.faults import NO_PROGRAM, Fault

# If there are no more pairs of an item and a key than these, each is tried; else at most so many keys of an item.
FEW_PAIRS, MOST_TRIES = 20_000, certpath.openssl.MOST_TRIES
NOT_TRIED = f"not tried: more than {MOST_TRIES} keys have its issuer's name"


class Signatures(NamedTuple):
    """What OpenSSL says: vouchers; by an item's position and a key's octets in which words a verified signature is weak, and why others
    aren't verified; which items it was asked about; and what asks it."""
    vouchers: object
    weak: dict
    refused: dict
    asked: set
    openssl: object

    def weak_key(self, certificate):
        """In which words the key of a certificate is weak, none if it isn't."""
        return self.openssl.key(certificate.public_key_bytes).weak

    def weak_by_any(self, item):
        """In which words an item's signature is weak by the first key that verifies it, none if it isn't."""
        return next(iter(self.weak.get(item, {}).values()), None)

    def why_refused(self, item, key):
        """Why a key doesn't verify an item's signature, none if that isn't known."""
        if item not in self.asked:
            return None
        found = self.refused.get(item, {})
        return found if isinstance(found, str) else found.get(key, NOT_TRIED)


class Checked(certpath.libcrypto.Verifier):
    """Asks OpenSSL as long as seconds are left."""

    def key(self, octets):
        waiting.BUDGET.check("verifying signatures")
        return super().key(octets)


class Holders:
    """Whose keys may have signed the items, by their issuers' names, each name once."""

    def __init__(self, bundle, anchors):
        self.bundle, self.anchors = bundle.items, anchors.items
        self.by_name = certpath.holders_by_issuer(self.bundle, self.anchors)
        self.signed = [*bundle.of_kind[Kind.CERTIFICATE], *bundle.of_kind[Kind.LIST]]

    def certificates(self, name):
        """The certificates whose subject is a name of an issuer."""
        return [entry.certificate(self.bundle, self.anchors) for entry in self.by_name[name]]

    def pairs(self, positions):
        """How many pairs there are of items and keys that may have signed them."""
        return sum(len(self.by_name[self.bundle[position].issuer]) for position in positions)


def take(found, position, judged, item, takes_weak):
    """Takes what OpenSSL says of an item."""
    if judged.why:
        found.refused[position] = judged.why
    for reason in judged.tried:
        if reason.why is not None:
            found.refused.setdefault(position, {})[reason.key] = f"OpenSSL: {reason.why}"
        elif reason.weaknesses:
            found.weak.setdefault(position, {})[reason.key] = ", ".join(reason.weaknesses)
        if reason.why is None and (takes_weak or not reason.weaknesses):
            found.vouchers.add(reason.key, item.public_bytes())


def signatures(holders, positions, takes_weak):
    """Asks OpenSSL about the items at positions."""
    pairs = holders.pairs(positions)
    tries = max(pairs, 1) if pairs <= FEW_PAIRS else MOST_TRIES
    try:
        found = Signatures(certpath.Vouchers(), {}, {}, {*positions}, Checked())
    except ImportError as error:
        raise Fault(NO_PROGRAM, f"OpenSSL, which verifies signatures, cannot be called: {error}") from error
    judge, of_name = certpath.openssl.Judge(found.openssl, tries), {}
    for position in waiting.counted("verifying signatures", positions, len(positions)):
        item = holders.bundle[position]
        if item.issuer not in of_name:
            of_name[item.issuer] = judge.holders(holders.certificates(item.issuer))
        take(found, position, judge.judged(item, of_name[item.issuer]), item, takes_weak)
    return found
