#!/usr/bin/env python3
"""Prints what a shared library answers by the calls of include/certpath.h, on the worked cases of crates/rows_check/stdin:

    python3 tools/gate/answers.py FOLDER      FOLDER has a libcertpath.so

The package of python/ makes the calls. Two libraries that print the same here answer alike on these cases.
"""
import os
import sys
from datetime import datetime, timezone

sys.dont_write_bytecode = True
sys.path.insert(0, os.path.dirname(os.path.dirname(os.path.abspath(__file__))))
from pki import package  # noqa: F401 (it puts the package on the path)
from trials import paths

import certpath
from certpath import library


def fields_of(item):
    """What the package shows of an item."""
    names = ("kind", "subject", "issuer", "serial_number", "not_valid_before_utc", "not_valid_after_utc", "last_update_utc", "next_update_utc")
    return [f"{name} {getattr(item, name)!s:.500}" for name in names if hasattr(item, name)]


def answers(case, octets):
    """Lines of what is answered in a case, for each target."""
    at = datetime.fromisoformat(case.moment).replace(tzinfo=timezone.utc)
    bundle, anchors = (certpath.frame(b"".join(octets[name] for name in names)) for names in (case.items, case.anchors))
    vouchers = paths.vouchers((octets[key], octets[item]) for key, item in case.vouching)
    pairs = bytes.fromhex(vouchers.decode())
    yield from (line for anchor in (*bundle, *anchors) for line in fields_of(anchor))
    yield from map(str, certpath.questions(bundle, anchors))
    yield certpath.paths(bundle, anchors, vouchers.decode(), at, case.demand)
    for target in range(len(bundle)):
        found = certpath.find(bundle, anchors, pairs, target, at, case.demand)
        yield f"{found} {certpath.check(bundle, anchors, pairs, target, at, found, case.demand)}"
        yield certpath.path(bundle, anchors, vouchers.decode(), target, at, case.demand)
        yield certpath.why(bundle, anchors, vouchers.decode(), target, at, case.demand)


def main(words):
    if len(words) != 1:
        sys.exit(__doc__)
    library.FOLDERS = (os.path.abspath(words[0]),)
    octets, cases = paths.worked()
    for title, case in cases.items():
        print(f"# {title}")
        try:
            for line in answers(case, octets):
                print(line)
        except (certpath.Error, ValueError) as error:
            print(f"{type(error).__name__} {error}")


if __name__ == "__main__":
    main(sys.argv[1:])
