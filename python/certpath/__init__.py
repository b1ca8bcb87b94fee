"""X.509 certificates and revocation lists, read and judged by proved code.

    >>> import certpath
    >>> from datetime import datetime, timezone
    >>> bundle = certpath.load("samples/fullchain.pem").items
    >>> anchors = certpath.load("samples/root.pem").items
    >>> for item in bundle:
    ...     if item.kind is certpath.Kind.CERTIFICATE:
    ...         print(item.subject, item.not_valid_after_utc.date())
    C=CZ, O=Example, CN=www.example.test 2031-11-22
    C=CZ, O=Example, CN=Example Intermediate 2036-11-22
    >>> vouchers = open("samples/vouchers.txt").read()
    >>> at = datetime(2027, 1, 1, tzinfo=timezone.utc)
    >>> answer = certpath.find(bundle, anchors, vouchers, target=0, at=at)
    >>> bool(answer), certpath.check(answer)
    (True, True)

`certpath.openssl.vouch` makes vouchers, and `certpath.verify` does all of it by one call.
Everything is read in a shared library, whose functions are proved; this package hands octets over
and gives names to what comes back. It reads no DER and no PEM. No call keeps anything, so any
number of threads may call at once.
"""
from .cutting import End
from .extensions import POISON, SCT_LIST, Extension
from .items import (LIMIT, Certificate, Contents, Item, Items, Kind, Other, RevocationList,
                    class_of, frame, item_of, tbs)
from .library import (BadAnswer, BadHost, BadItem, BadLine, BadMoment, BadName, Error,
                      LibraryMissing, NoField, OutOfMemory, version)
from .loading import LeftOut, Loaded, load, shape_of
from .names import Name
from .paths import Answer, Asked, Outcome, check, find
from .questions import Holder, Question, holders_by_issuer, questions
from .reports import path, paths, why
from .serving import allows, serves
from .stores import trust_store
from .verifying import Verified, verify
from .vouchers import Vouchers

__all__ = [
    "Answer", "Asked", "BadAnswer", "BadHost", "BadItem", "BadLine", "BadMoment", "BadName",
    "Certificate", "Contents", "End", "Error", "Extension", "Holder", "Item", "Items", "Kind", "LIMIT",
    "LeftOut", "LibraryMissing", "Loaded", "Name", "NoField", "Other", "OutOfMemory", "Outcome",
    "POISON", "Question", "RevocationList", "SCT_LIST", "Verified", "Vouchers", "allows", "check",
    "class_of", "find", "frame", "holders_by_issuer", "item_of", "load", "path", "paths",
    "questions", "serves", "shape_of", "tbs", "trust_store", "verify", "version", "why",
]
