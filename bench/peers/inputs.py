"""Files that all peers read: certificates of samples/, their names, a list, values, and a web of
certificates that are signed."""
import hashlib
import os
import random
import sys
from typing import NamedTuple

BENCH = os.path.dirname(os.path.dirname(os.path.abspath(__file__)))
TOP = os.path.dirname(BENCH)
sys.path[:0] = [os.path.join(TOP, "tools"), *(os.path.join(BENCH, entry) for entry in ("", "asn1"))]
import values
from trials import synthetic

SAMPLES = ("leaf.der", "intermediate.der", "root.der")
SEED = 1
# A web has so many levels; each name of one is certified by each of the next.
LEVELS = 10


class Sizes(NamedTuple):
    """How many certificates, names and entries of a list there are; and names on a level of a web."""
    items: int
    entries: int
    width: int


FULL, SMALL = Sizes(10_000, 100_000, 35), Sizes(30, 100, 3)


def certificates(count):
    octets = []
    for sample in SAMPLES:
        with open(os.path.join(TOP, "samples", sample), "rb") as file:
            octets.append(file.read())
    return b"".join(octets[number % len(octets)] for number in range(count))


def name(number):
    """A name of five attributes."""
    texts = ((6, "CZ"), (8, "Praha"), (10, "Example s.r.o."), (11, f"Unit {number}"),
             (3, f"host-{number}.example.test"))
    return synthetic.sequence(*(
        synthetic.element(0x31, synthetic.sequence(
            synthetic.element(0x06, bytes([0x55, 0x04, kind])),
            synthetic.element(0x13 if kind == 6 else 0x0C, text.encode()))) for kind, text in texts))


def web(width):
    """A leaf, and on each level each name certified by each of the next one, the last by the root;
    the root; and which key signed which item."""
    root = synthetic.Authority("root")
    levels = [[synthetic.Authority(f"{level}.{index}") for index in range(width)] for level in range(LEVELS)]
    above = [*levels[1:], [root]]
    pairs = [(subject, issuer) for level, issuers in zip(levels, above)
             for subject in level for issuer in issuers]
    leaf = synthetic.certificate(1, levels[0][0], synthetic.name("leaf"), synthetic.LEAF.public, [])
    made = [leaf, *(synthetic.authority(number, issuer, subject)
                    for number, (subject, issuer) in enumerate(pairs, 2))]
    vouchers = "".join(f"{digest(entry.signer)} {digest(entry.octets)}\n" for entry in made)
    anchor = synthetic.authority(1, root, root).octets
    return b"".join(entry.octets for entry in made), anchor, vouchers.encode()


def digest(octets):
    return hashlib.sha256(octets).hexdigest()


def written(room, sizes):
    """Writes all files into a folder; gives the paths of each input."""
    bundle, anchors, vouchers = web(sizes.width)
    files = {"certificates": certificates(sizes.items),
             "names": b"".join(map(name, range(sizes.items))),
             "times": values.utc_times(random.Random(SEED)),
             "numbers": values.sequence(random.Random(SEED)),
             "list": synthetic.revocations(synthetic.LEAF, range(1, sizes.entries + 1)).octets,
             "web": bundle, "web-anchors": anchors, "web-vouchers": vouchers}
    for title, octets in files.items():
        with open(os.path.join(room, title), "wb") as file:
            file.write(octets)
    paths = {path: [os.path.join(room, path)] for path in files}
    paths["web"] += [os.path.join(room, anchor) for anchor in ("web-anchors", "web-vouchers")]
    return paths
