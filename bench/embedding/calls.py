"""Times frame, class and find of python/certpath on files: processor seconds, the least of some rounds, a line each.

    calls.py BUNDLE ANCHORS VOUCHERS ROUNDS     VOUCHERS: 64 octets a pair
"""
import os
import sys
import time
from datetime import datetime

sys.path.insert(0, os.path.join(os.path.dirname(os.path.abspath(__file__)), os.pardir, os.pardir, "python"))
import certpath

AT = datetime(2026, 12, 1)


def octets_of(path):
    with open(path, "rb") as file:
        return file.read()


class Least:
    """The least time of each call."""

    def __init__(self):
        self.seconds = {}

    def of(self, name, call):
        """Times a call, and gives what it answers."""
        start = time.process_time()
        found = call()
        self.seconds[name] = min(time.process_time() - start, self.seconds.get(name, float("inf")))
        return found


def main(bundle, anchors, pairs, rounds):
    bundle, anchors, pairs = map(octets_of, (bundle, anchors, pairs))
    least = Least()
    for _ in range(int(rounds)):
        items = least.of("frame", lambda: certpath.frame(bundle))
        kinds = least.of("class", lambda: [*items.kinds()])
        answer = least.of("find", lambda: certpath.find(items, anchors, pairs, 0, AT))
    for name, seconds in least.seconds.items():
        print(f"{name} {seconds:.6f}")
    print("found", kinds.count(certpath.Kind.CERTIFICATE), len(answer.positions))


if __name__ == "__main__":
    main(*sys.argv[1:])
