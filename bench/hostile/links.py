"""Families of links with lists, path lengths and rings, of several commands."""
from math import isqrt

from family import Files, also, family, of_octets
from graphs import (ANCHOR, COMMON_KEY, LEAF, NOWHERE, ROOT, ROOT_KEY, X, chain_path, lists,
                    own_keys, rising)
from kinds import EVIDENCE, ITEMS, ITEMS_OF_WHY, LISTS, LOOKED_UP, OF_ISSUERS
from parts import (certificate, element, entry, extension, integer, key, name, revocation_list,
                   voucher, vouchers_by_all)
from reports import LONG_PATHS, OF_ONE_NAME

# Sizes at which as many lists as certificates, with an entry of each, have a megabyte or more.
OF_LISTS = {"sizes": (50, 100, 200, 400), "small": (100, 400)}
ROW, BELOW, EMPTY = name("row"), name("below"), element(0x30)


def all_vouch(count, *items):
    """A line for each of so many keys and each item."""
    return [line for item in items for line in vouchers_by_all(count, item)]


def linked(count):
    """Self-issued certificates of one key, each linked to all, and their lines."""
    items = [certificate(X, X, COMMON_KEY, it + 1) for it in range(count)]
    return items, [voucher(COMMON_KEY, it) for it in items]


@family("why-links-lists", "n certificates of one name and key, and n used lists that have them all",
        "why", **OF_LISTS)
def why_links_lists(count):
    items, lines = linked(count)
    rows = b"".join(entry(integer(it + 1)) for it in range(count))
    found = [revocation_list(X, rows + entry(integer(1_000_000 + it))) for it in range(count)]
    return Files([*items, *found], [ANCHOR], lines + [voucher(COMMON_KEY, it) for it in found])


@family("why-links-entries",
        "n certificates of one name and key, and one used list of n entries of others", "why",
        **OF_ONE_NAME)
def why_links_entries(count):
    items, lines = linked(count)
    found = revocation_list(X, b"".join(entry(integer(1_000_000 + it)) for it in range(count)))
    return Files([*items, found], [ANCHOR], [*lines, voucher(COMMON_KEY, found)])


@family("why-bounds", "n/2 certificates that n/2 issuers of path length 0 hold back", "why",
        **OF_ONE_NAME)
def why_bounds(count):
    half = count // 2
    held = [certificate(X, BELOW, COMMON_KEY, it + 1) for it in range(half)]
    limited = [certificate(BELOW, ROOT, COMMON_KEY, it + 1, limit=0) for it in range(half)]
    leaf = certificate(LEAF, X, COMMON_KEY)
    lines = [voucher(COMMON_KEY, it) for it in (leaf, *held)] + [voucher(ROOT_KEY, it) for it in limited]
    return Files([leaf, *held, *limited], [ANCHOR], lines)


@family("why-unusable", "a certificate of n different extensions, the last of which is critical",
        "why")
def why_unusable(count):
    further = b"".join(extension(b"\x2a\x03" + number(it), b"") for it in range(count))
    critical = extension(b"\x2a\x04", b"", True)
    return Files([certificate(LEAF, X, COMMON_KEY, further=further + critical)], [ANCHOR])


def number(value):
    """A part of an identifier, in its one spelling (X.690, 8.19.2)."""
    digits = [value & 0x7F]
    while value := value >> 7:
        digits.append(value & 0x7F | 0x80)
    return bytes(reversed(digits))


@family("why-anchors-2", "a leaf, n/16 anchors of its issuer's name, and n items of two octets",
        "why", other=None, known=ITEMS_OF_WHY)
def why_anchors_small(count):
    return Files([certificate(LEAF, X, COMMON_KEY), *[EMPTY] * count], own_keys(count // 16))


@family("why-issuers", "a leaf and n keys of its issuer's name; no voucher", "why",
        known=OF_ISSUERS)
def why_issuers(count):
    return Files([certificate(LEAF, X, COMMON_KEY), *own_keys(count, X, ROOT)], [ANCHOR])


@family("paths-rises-chain",
        "n/2 self-issued certificates in a row, below a ladder of n/4 path lengths", "paths",
        sizes=(375, 750, 1_500, 3_000), small=(500, 2_000), known=LOOKED_UP)
def paths_rises_chain(count):
    items, lines = rising(count // 4)
    row = own_keys(count // 2, ROW, ROW)
    top = certificate(ROW, X, key(len(row)))
    lines += [voucher(key(it + 1), item) for it, item in enumerate(row)]
    lines.append(voucher(COMMON_KEY, top))
    return Files([certificate(LEAF, NOWHERE, COMMON_KEY), *items, *row, top], [ANCHOR], lines)


@family("copies-lists", "n/2 copies of one list, and n/2 keys of its issuer that all vouch for it")
def copies_lists(count):
    half = count // 2
    found, leaf = lists(1)[0], certificate(LEAF, X, COMMON_KEY)
    issuers = own_keys(half, X, ROOT)
    lines = all_vouch(half, found) + [voucher(ROOT_KEY, it) for it in issuers]
    lines.append(voucher(key(0), leaf))
    bundle = [leaf, *[found] * half, *issuers]
    return Files(bundle, [ANCHOR], lines, f"path 0 {half + 1} anchor 0")


def copies_of_both(count):
    """Copies of a leaf and of a list, so many of each, and lines of twice as many keys for both."""
    found, leaf = lists(1)[0], certificate(LEAF, X, COMMON_KEY)
    return [*[leaf] * count, *[found] * count], all_vouch(2 * count, found, leaf)


@family("copies-leaves-lists", "n/4 copies of a leaf and of a list each, and n/2 keys of their issuer "
        "that all vouch for both")
def copies_leaves_lists(count):
    quarter = count // 4
    bundle, lines = copies_of_both(quarter)
    issuers = own_keys(2 * quarter, X, ROOT)
    lines += [voucher(ROOT_KEY, it) for it in issuers]
    return Files([*bundle, *issuers], [ANCHOR], lines, f"path 0 {2 * quarter} anchor 0")


@family("copies-anchors", "n/4 copies of a leaf and of a list each, and n/2 anchors whose keys all "
        "vouch for both")
def copies_anchors(count):
    bundle, lines = copies_of_both(count // 4)
    return Files(bundle, own_keys(2 * (count // 4)), lines, "path 0 anchor 0")


@family("keys-lists", "k keys of one name that all vouch for k lists of k entries, and k leaves below "
        "each key, n = 2 k^2 lines in all", unit="lines", small=(10_000, 40_000), known=LISTS)
def keys_lists(count):
    side = isqrt(count // 2)
    issuers = own_keys(side, X, ROOT)
    numbers = range(side * side)
    entries = [entry(integer(1_000_000 + it)) for it in numbers]
    found = [revocation_list(X, b"".join(entries[it::side])) for it in range(side)]
    leaves = [certificate(LEAF, X, COMMON_KEY, it) for it in numbers]
    lines = all_vouch(side, *found) + [voucher(key(it % side), leaves[it]) for it in numbers]
    lines += [voucher(ROOT_KEY, it) for it in issuers]
    return Files([*leaves, *found, *issuers], [ANCHOR], lines, f"path 0 {side * (side + 1)} anchor 0")


def ring(count, step):
    """Certificates in a ring, each issued by the one so many places on, and an anchor of the
    name of the first."""
    names = [name(f"c{it:07}") for it in range(count)]
    items = [certificate(names[it], names[(it + step) % count], COMMON_KEY) for it in range(count)]
    return items, certificate(names[0], names[0], ROOT_KEY)


@family("ring-up", "a ring of n, each issued by the next, whose last one an anchor issued too; with "
        "its path")
def ring_up(count):
    items, anchor = ring(count, 1)
    lines = [voucher(COMMON_KEY, it) for it in items] + [voucher(ROOT_KEY, items[-1])]
    return Files(items, [anchor], lines, f"path {' '.join(map(str, range(count)))} anchor 0")


@family("ring-down", "a ring of n, each issued by the one before it, whose second one an anchor "
        "issued too; with its path")
def ring_down(count):
    items, anchor = ring(count, -1)
    lines = [voucher(COMMON_KEY, it) for it in items] + [voucher(ROOT_KEY, items[1])]
    places = " ".join(map(str, range(count - 1, 0, -1)))
    return Files(items, [anchor], lines, f"path 0 {places} anchor 0")


@family("ring-free", "a ring of n that leads to no anchor")
def ring_free(count):
    items, _ = ring(count, 1)
    return Files(items, [ANCHOR], [voucher(COMMON_KEY, it) for it in items])


also("paths", "ring-up", **LONG_PATHS)
also("paths", "ring-free")


@family("paths-evidence", "a chain of n, with its evidence", "paths", **LONG_PATHS,
        words=("--evidence", "evidence-out"))
def paths_evidence(count):
    return chain_path(count)


# What evidence begins with, and how many octets an item of two has with its verdict and a row.
HEAD, OF_ROW = b"certpath evidence 1\n", 21


@of_octets("recheck-rows-2", "items of two octets, and evidence of as many rows, which nobody needs",
           "recheck", other=None, known=ITEMS)
def recheck_rows_small(octets):
    count = octets // OF_ROW
    evidence = [HEAD, b"no certificate\n" * count, b"row\n" * count]
    return Files([EMPTY] * count, [ANCHOR], evidence=evidence)


@family("recheck-rows-links", "certificates of one name, of which all keys vouch for all, and evidence "
        "of as many rows as lines, of which every other one takes back what one said of a leaf",
        "recheck", unit="lines",
        sizes=(2_000, 4_000, 8_000, 16_000), small=(4_000, 16_000), known=EVIDENCE)
def recheck_rows_links(count):
    items, leaf = own_keys(isqrt(count)), certificate(LEAF, NOWHERE, COMMON_KEY)
    rows = f"row\n{len(items)} any\nrow\n{len(items)} no\n".encode() * (count // 2)
    evidence = [HEAD, b"none\n" * (len(items) + 1), rows]
    return Files([*items, leaf], [ANCHOR], all_vouch(len(items), *items), evidence=evidence)
