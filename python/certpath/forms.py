"""The forms of files, and what to do with octets of another form than a call takes."""
import os
from ctypes import byref
from typing import Union

from . import library

# The forms, by the numbers of certpath.h.
FORMS = ("empty", "PEM", "DER", "PKCS #7", "other")
# Those that only `load` reads.
LOADED = ("PEM", "PKCS #7")
# No path has so many characters.
LONGEST = 4096


def form_of(octets: bytes) -> str:
    """The form of a file, as `certpath_load` says it."""
    found = library.Loaded()
    status = library.loaded().certpath_load(*library.octets_of(octets), None, 0, None, 0,
                                            byref(found))
    if status != library.TOO_SMALL:
        library.refuse(status)
    return FORMS[found.form]


def remedy_for(octets: bytes) -> str:
    """What to do with octets that aren't the item or the items that a call takes."""
    form = form_of(octets)
    if form in LOADED:
        return f"this is {form}, which certpath.load() reads"
    return "certpath.load() says what is left out of them"


def path_of(given: Union[str, "os.PathLike[str]"]) -> str:
    """A path; ValueError of a text that is none but what a file holds. Nothing of it is said, since
    it may be a private key."""
    path = os.fsdecode(given)
    if len(path) >= LONGEST or form_of(os.fsencode(path)) in LOADED:
        raise ValueError("the source: a path is needed, and this is text; its encode() gives "
                         "octets, which are taken too")
    return path


def no_certificate(octets: bytes) -> library.BadItem:
    """The error of octets that are no certificate."""
    return library.BadItem("the octets are no certificate in its one spelling; "
                           f"{remedy_for(octets)}")
