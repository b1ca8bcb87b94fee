"""Families of many small items: names, keys, key identifiers, lists, chains, ladders and copies."""
from math import isqrt

from family import UNLIMITED, Files, family
from kinds import ROWS
from parts import (certificate, element, entry, integer, key, name, revocation_list, small_certificate, voucher, vouchers_by_all)

X, LEAF, ROOT, NOWHERE = name("x"), name("leaf"), name("root"), name("nowhere")
ROOT_KEY, COMMON_KEY = key(2**40), key(2**41)
ANCHOR = certificate(ROOT, ROOT, ROOT_KEY)


def own_keys(count, subject=X, issuer=X, **further):
    """Certificates of two names, each with a key of its own."""
    return [certificate(subject, issuer, key(it), it, **further) for it in range(count)]


def vouched(items, first=0):
    """A line for each item, by the key of its number."""
    return [voucher(key(first + place), it) for place, it in enumerate(items)]


@family("keys-none", "n certificates \"x from x\", a key each; no voucher")
def keys_none(count):
    return Files(own_keys(count), [certificate(X, X, ROOT_KEY)])


@family("keys-each", "n certificates \"x from x\", a key each; each key vouches for its own")
def keys_each(count):
    items = own_keys(count)
    return Files(items, [certificate(X, X, ROOT_KEY)], vouched(items))


@family("keys-all", "certificates \"x from x\", a key each; all keys vouch for all, n lines in all", unit="lines")
def keys_all(count):
    items = own_keys(isqrt(count))
    return Files(items, [certificate(X, X, ROOT_KEY)], [voucher(key(it), item) for item in items for it in range(len(items))])


@family("issuers-none", "n/2 leaves and n/2 issuers of one name, a key each; no voucher")
def issuers_none(count):
    half = count // 2
    return Files(own_keys(half, LEAF, X) + own_keys(half, X, ROOT), [ANCHOR])


@family("issuers-each", "n/2 leaves and n/2 issuers of one name; each issuer's key vouches for one leaf")
def issuers_each(count):
    half = count // 2
    leaves, issuers = own_keys(half, LEAF, X), own_keys(half, X, ROOT)
    return Files(leaves + issuers, [ANCHOR], vouched(leaves) + [voucher(ROOT_KEY, it) for it in issuers], f"path 0 {half} anchor 0")


@family("anchors-none", "n/2 leaves and n/2 anchors of one name, a key each; no voucher")
def anchors_none(count):
    return Files(own_keys(count // 2, LEAF, X), own_keys(count // 2))


@family("anchors-each", "n/2 leaves and n/2 anchors of one name; each anchor's key vouches for one leaf")
def anchors_each(count):
    leaves = own_keys(count // 2, LEAF, X)
    return Files(leaves, own_keys(count // 2), vouched(leaves), "path 0 anchor 0")


@family("anchors-equal", "n/2 leaves and n/2 equal anchors; the anchors' key vouches for all leaves")
def anchors_equal(count):
    leaves = own_keys(count // 2, LEAF, X)
    return Files(leaves, [certificate(X, X, COMMON_KEY)] * (count // 2), [voucher(COMMON_KEY, it) for it in leaves], "path 0 anchor 0")


def with_ids(count, own, named):
    """Certificates "x from x" with key identifiers by their numbers, each vouched for by the next one's key."""
    items = [certificate(X, X, key(it), it, own=own(it).to_bytes(8, "big"), named=named(it).to_bytes(8, "big")) for it in range(count)]
    return Files(items, [certificate(X, X, ROOT_KEY)], vouched(items, 1))


@family("ids-never", "n certificates \"x from x\", keys in a row; key identifiers that never match")
def ids_never(count):
    return with_ids(count, lambda it: it, lambda it: count + it)


@family("ids-equal", "n certificates \"x from x\", keys in a row; key identifiers all equal")
def ids_equal(count):
    return with_ids(count, lambda it: 7, lambda it: 7)


@family("ids-different", "n certificates \"x from x\", keys in a row; key identifiers all different, each names the next")
def ids_different(count):
    return with_ids(count, lambda it: it, lambda it: it + 1)


def long_list(count):
    """A list of 10 n entries, none of them of a certificate here."""
    return revocation_list(X, b"".join(entry(integer(count + it)) for it in range(10 * count)))


@family("list-long", "a list of 10 n entries, and n certificates of its issuer", small=(2_000, 8_000), words=UNLIMITED)
def list_long(count):
    signed = [*own_keys(count, LEAF, X), long_list(count)]
    issuer = certificate(X, ROOT, COMMON_KEY)
    lines = [voucher(COMMON_KEY, it) for it in signed] + [voucher(ROOT_KEY, issuer)]
    return Files([*signed, issuer], [ANCHOR], lines, f"path 0 {count + 1} anchor 0")


@family("list-keys", "a list of 10 n entries, and n keys of its issuer that all vouch for it", small=(1_000, 4_000), words=UNLIMITED)
def list_keys(count):
    found = long_list(count)
    issuers = own_keys(count, X, ROOT)
    leaf = certificate(LEAF, X, ROOT_KEY)
    lines = [*vouchers_by_all(count, found), voucher(key(0), leaf)] + [voucher(ROOT_KEY, it) for it in issuers]
    return Files([leaf, found, *issuers], [ANCHOR], lines, "path 0 2 anchor 0")


@family("list-leaves", "a list of 10 n entries, n keys of its issuer that all vouch for it, and a leaf below each key",
        small=(1_000, 4_000), words=UNLIMITED)
def list_leaves(count):
    found = long_list(count)
    leaves, issuers = own_keys(count, LEAF, X), own_keys(count, X, ROOT)
    lines = vouchers_by_all(count, found) + vouched(leaves) + [voucher(ROOT_KEY, it) for it in issuers]
    return Files([*leaves, found, *issuers], [ANCHOR], lines, f"path 0 {count + 1} anchor 0")


def lists(count):
    """So many different lists of one issuer, of one entry each."""
    return [revocation_list(X, entry(integer(1000 + it))) for it in range(count)]


@family("lists-vouched", "n lists of one issuer; its one key vouches for all")
def lists_vouched(count):
    found = lists(count)
    leaf, issuer = certificate(LEAF, X, COMMON_KEY), certificate(X, ROOT, COMMON_KEY)
    lines = [voucher(COMMON_KEY, it) for it in [leaf, *found]] + [voucher(ROOT_KEY, issuer)]
    return Files([leaf, *found, issuer], [ANCHOR], lines, f"path 0 {count + 1} anchor 0")


@family("lists-none", "n/2 lists of one issuer and n/2 keys of its name; no voucher")
def lists_none(count):
    return Files(own_keys(1, LEAF, X) + lists(count // 2) + own_keys(count // 2, X, ROOT), [ANCHOR])


def chain(count, last):
    """Certificates of which each is issued by the next one's subject, the last one by a name; all under one key."""
    names = [name(f"c{it:07}") for it in range(count)] + [last]
    return [certificate(names[it], names[it + 1], COMMON_KEY) for it in range(count)]


def by_common_key(items, *others):
    return [voucher(COMMON_KEY, it) for it in items[:-1]] + [voucher(ROOT_KEY, items[-1]), *others]


@family("chain-path", "a chain of n, with its path")
def chain_path(count):
    items = chain(count, ROOT)
    return Files(items, [ANCHOR], by_common_key(items), f"path {' '.join(map(str, range(count)))} anchor 0")


@family("chain-none", "a chain of n that leads to no anchor")
def chain_none(count):
    items = chain(count, NOWHERE)
    return Files(items, [ANCHOR], by_common_key(items))


@family("chain-beside", "a target that nobody issued, beside a chain of n that leads to the anchor")
def chain_beside(count):
    items = chain(count, ROOT)
    return Files([certificate(LEAF, NOWHERE, COMMON_KEY), *items], [ANCHOR], by_common_key(items))


@family("chain-keys", "a chain of n self-issued certificates of one name, each signed by the next one's key; with its path")
def chain_keys(count):
    items = own_keys(count)
    return Files(items, [certificate(X, X, key(count))], vouched(items, 1), f"path {' '.join(map(str, range(count)))} anchor 0")


def rails(count):
    """Two certificates a step, each issued by both of the next step; the last ones by the root."""
    steps = [name(f"s{it:07}") for it in range(count)] + [ROOT]
    return [certificate(steps[it], steps[it + 1], COMMON_KEY, side) for it in range(count) for side in (1, 2)]


@family("ladder", "a target that nobody issued, beside a ladder of n/2 steps: both of a step are issued by both of the next")
def ladder(count):
    items = rails(count // 2)
    lines = [voucher(COMMON_KEY, it) for it in items[:-2]] + [voucher(ROOT_KEY, it) for it in items[-2:]]
    return Files([certificate(LEAF, NOWHERE, COMMON_KEY), *items], [ANCHOR], lines)


RISING = {"sizes": (1_500, 3_000, 6_000, 12_000), "small": (3_000, 12_000), "known": ROWS}


def rising(steps):
    """A chain of so many steps, and at each step a certificate of the subject x under one key whose path length is the step's number:
    what a certificate of x may have below it rises in each round."""
    names = [ROOT] + [name(f"c{it:07}") for it in range(steps)]
    rails_of = [certificate(names[it + 1], names[it], COMMON_KEY) for it in range(steps)]
    rungs = [certificate(X, names[it + 1], COMMON_KEY, it + 1, limit=it + 1) for it in range(steps)]
    lines = [voucher(ROOT_KEY, rails_of[0])] + [voucher(COMMON_KEY, it) for it in rails_of[1:] + rungs]
    return rails_of + rungs, lines


@family("ladder-rungs", "n/2 certificates of one subject and key, of which each round reaches one, with a greater path length each time")
def ladder_rungs(count):
    items, lines = rising(count // 2)
    return Files([certificate(LEAF, NOWHERE, COMMON_KEY), *items], [ANCHOR], lines)


@family("rises", "n/2 certificates below such a ladder of n/4 steps: the reach of each of them rises in each round",
        **RISING)
def rises(count):
    items, lines = rising(count // 4)
    below = own_keys(count // 2, LEAF, X)
    return Files([certificate(LEAF, NOWHERE, COMMON_KEY), *items, *below], [ANCHOR], lines + [voucher(COMMON_KEY, it) for it in below])


def in_row(number, place, **further):
    """A self-issued certificate that names the key identifier of a place in a row."""
    return certificate(X, X, COMMON_KEY, number, named=place.to_bytes(4, "big"), **further)


def row_of_ids(count):
    """So many self-issued certificates in a row, by key identifiers, the last one from the root; and beside each of them one that all
    are issued by, whose path length is its place. With the line of the root's key."""
    first, places = certificate(X, ROOT, COMMON_KEY, own=bytes(4)), range(1, count)
    row = [in_row(it, it - 1, own=it.to_bytes(4, "big")) for it in places]
    beside = [in_row(count + it, it - 1, limit=it) for it in places]
    return [first, *row, *beside], [voucher(ROOT_KEY, first), *(voucher(COMMON_KEY, it) for it in row + beside)]


@family("rises-ids", "n/2 self-issued certificates in a row, by key identifiers, and beside each one that all are issued by, whose path "
        "length is its place: the reach of each rises in each round up to its own", **RISING)
def rises_ids(count):
    items, lines = row_of_ids(count // 2)
    return Files([certificate(LEAF, NOWHERE, COMMON_KEY), *items], [ANCHOR], lines)


@family("stairs", "n/5 leaves below n/5 certificates in a row, and these below such a row: of n/5 path lengths none is enough for them",
        sizes=(1_000, 2_000, 4_000, 8_000), small=(1_500, 6_000), known=ROWS)
def stairs(count):
    side = count // 5
    items, lines = row_of_ids(side)
    names = [name(f"d{it:07}") for it in range(side)]
    below = [certificate(LEAF, names[0], COMMON_KEY, it) for it in range(side)]
    below += [certificate(*it, COMMON_KEY) for it in zip(names, names[1:])]
    below.append(certificate(names[-1], X, COMMON_KEY, named=(side - 1).to_bytes(4, "big")))
    places = [0, *range(side, 2 * side), *range(3 * side - 1, 2 * side - 1, -1)]
    answer = f"path {' '.join(map(str, places))} anchor 0"
    return Files([*below, *items], [ANCHOR], lines + [voucher(COMMON_KEY, it) for it in below], answer)


@family("self-copies", "n copies of one self-issued certificate")
def self_copies(count):
    item = certificate(X, X, COMMON_KEY)
    return Files([item] * count, [ANCHOR], [voucher(COMMON_KEY, item)])


@family("self-serials", "n self-issued certificates of one key, with different serial numbers")
def self_serials(count):
    items = [certificate(X, X, COMMON_KEY, it) for it in range(count)]
    return Files(items, [ANCHOR], [voucher(COMMON_KEY, it) for it in items])


@family("copies-keys", "n/2 copies of one certificate, and n/2 keys of its issuer that all vouch for it")
def copies_keys(count):
    half = count // 2
    leaf, issuers = certificate(LEAF, X, COMMON_KEY), own_keys(half, X, ROOT)
    lines = [voucher(key(it), leaf) for it in range(half)] + [voucher(ROOT_KEY, it) for it in issuers]
    return Files([leaf] * half + issuers, [ANCHOR], lines, f"path 0 {half} anchor 0")


@family("names-alike", "n/32 certificates whose names share their first 2,000 octets")
def names_alike(count):
    front = "x" * 2000
    names = [name(f"{front}{it:07}") for it in range(count // 32 + 1)]
    items = [certificate(names[it], names[it + 1], COMMON_KEY) for it in range(count // 32)]
    return Files(items, [ANCHOR], [voucher(COMMON_KEY, it) for it in items])


@family("serials-alike", "n/16 certificates and a list of as many entries, whose serial numbers share their first 1,000 octets")
def serials_alike(count):
    numbers = [(1 << 8000) + it for it in range(count // 8)]
    items = [certificate(LEAF, X, COMMON_KEY, it) for it in numbers[::2]]
    found = revocation_list(X, b"".join(entry(integer(it)) for it in numbers[1::2]))
    issuer = certificate(X, ROOT, COMMON_KEY)
    lines = [voucher(COMMON_KEY, it) for it in [*items, found]] + [voucher(ROOT_KEY, issuer)]
    return Files([*items, found, issuer], [ANCHOR], lines, f"path 0 {len(items) + 1} anchor 0")


@family("small", "n certificates of version 1 with empty names, all different; each vouched for by the anchor's key")
def small(count):
    empty = element(0x30)
    items = [small_certificate(empty, empty, COMMON_KEY, serial=it) for it in range(count)]
    return Files(items, [small_certificate(empty, empty, COMMON_KEY)], [voucher(COMMON_KEY, it) for it in items], "path 0 anchor 0")


@family("no-issuers", "n certificates whose issuers aren't there, all names different")
def no_issuers(count):
    items = [certificate(name(f"n{it}"), name(f"m{it}"), COMMON_KEY) for it in range(count)]
    name.cache_clear()
    return Files(items, [ANCHOR])

