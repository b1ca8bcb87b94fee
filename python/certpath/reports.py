"""The reports of the program, as text."""
from ctypes import byref
from datetime import datetime

from . import library
from .items import Given, both
from .paths import HostGiven, PurposeGiven, host_asked, purpose_asked, settings_of
from .vouchers import VouchersGiven, voucher_file

# How many octets of a report are asked for at first, and for each item of the bundle.
ROOM, ROOM_OF_ITEM = 1 << 14, 16


def report(name: str, bundle: Given, anchors: Given, vouchers: VouchersGiven, target: int,
           at: datetime, demand_lists: bool, room: int = 0, host: HostGiven = None,
           purpose: PurposeGiven = None) -> str:
    """The text that a call of the library writes. It is asked for a second time where it has more
    octets than `room`, which is some for a report of usual length at least."""
    bundle, anchors = both(bundle, anchors)
    call, lines = getattr(library.loaded(), name), library.octets_of(voucher_file(vouchers))
    settings = settings_of(bundle, target, at, demand_lists, host_asked(host),
                           purpose_asked(purpose))
    given = (*library.octets_of(bundle.data), *library.octets_of(anchors.data), *lines)
    return library.text_of(lambda *room: call(*given, byref(settings), *room),
                           max(room, ROOM + ROOM_OF_ITEM * len(bundle)))


def path(bundle: Given, anchors: Given, vouchers: VouchersGiven, target: int, at: datetime,
         demand_lists: bool = False, *, host: HostGiven = None,
         purpose: PurposeGiven = None) -> str:
    """What `certpath path` prints: the class of each item, and the first of the shortest valid
    paths from the target to an anchor, found and checked.

    >>> import certpath
    >>> from datetime import datetime, timezone
    >>> bundle, anchors = (certpath.load(it).items for it in ("samples/fullchain.pem",
    ...                                                       "samples/root.pem"))
    >>> vouchers = open("samples/vouchers.txt").read()
    >>> at = datetime(2027, 1, 1, tzinfo=timezone.utc)
    >>> print(certpath.path(bundle, anchors, vouchers, 0, at, host="www.example.test"), end="")
    0 cert
    1 cert
    end clean
    anchors 1 of 1, clean
    host www.example.test
    path 0 1 anchor 0
    check yes

    Arguments and errors are those of `find`, and BadLine if a line of the text of a voucher file
    is neither empty nor two digests. What is demanded has a line before the answer: the purpose by
    its name in RFC 5280 or its numbers, the host as it is given.
    """
    return report("certpath_path", bundle, anchors, vouchers, target, at, demand_lists, host=host,
                  purpose=purpose)


def why(bundle: Given, anchors: Given, vouchers: VouchersGiven, target: int, at: datetime,
        demand_lists: bool = False, *, host: HostGiven = None,
        purpose: PurposeGiven = None) -> str:
    """What `certpath why` prints: the answer for the target, and each reason why there is no path;
    docs/REASONS.md has them.

    >>> import certpath
    >>> from datetime import datetime, timezone
    >>> bundle, anchors = (certpath.load(it).items for it in ("samples/fullchain.pem",
    ...                                                       "samples/root.pem"))
    >>> vouchers = open("samples/vouchers.txt").read()
    >>> at = datetime(2027, 1, 1, tzinfo=timezone.utc)
    >>> print(certpath.why(bundle, anchors, vouchers, 0, at, host="www.example.org"), end="")
    host www.example.org
    none
    check yes
    at 0 C=CZ, O=Example, CN=www.example.test
    at 0 doesn't serve www.example.org: it names www.example.test
    at 0 to 1 linked
    at 1 C=CZ, O=Example, CN=Example Intermediate
    at 1 to anchor 0 linked

    Arguments and errors are those of `path`.
    """
    return report("certpath_why", bundle, anchors, vouchers, target, at, demand_lists, host=host,
                  purpose=purpose)


def paths(bundle: Given, anchors: Given, vouchers: VouchersGiven, at: datetime,
          demand_lists: bool = False, *, purpose: PurposeGiven = None) -> str:
    """What `certpath paths` prints: the first of the shortest valid paths of every item at once.

    >>> import certpath
    >>> from datetime import datetime, timezone
    >>> bundle, anchors = (certpath.load(it).items for it in ("samples/fullchain.pem",
    ...                                                       "samples/root.pem"))
    >>> vouchers = open("samples/vouchers.txt").read()
    >>> at = datetime(2027, 1, 1, tzinfo=timezone.utc)
    >>> print(certpath.paths(bundle, anchors, vouchers, at, purpose="serverAuth"), end="")
    0 path 0 1 anchor 0
    1 path 1 anchor 0
    end clean
    anchors 1 of 1, clean
    purpose serverAuth
    check yes

    Arguments and errors are those of `path`; a host is that of one target, so it takes none.
    """
    return report("certpath_paths", bundle, anchors, vouchers, 0, at, demand_lists, purpose=purpose)
