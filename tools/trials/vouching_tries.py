"""Trials of ./vouch: which keys are tried first and how many, and how what is told is grouped."""
from contextlib import contextmanager
from typing import NamedTuple

from dev.items import element, octets
from pki import package
from pki.reporting import MOST_REASONS, OTHERS, Report
from pki.vouchers import Vouching
from trials.vouching_items import NO_KEY, Made, altered, not_verified, told
from trials.vouching_pki import DATES, ECDSA_SHA256, RSA_SHA256, name
from certpath import OutOfMemory, frame
from certpath.openssl import Judge, verifier

KINDS = ("p256", "rsa", "p521", "secp256k1", "brainpool")
SUBJECT, AUTHORITY = "06(551d0e)", "06(551d23)"
DEFAULT = 16
# What OpenSSL notes if it gets no memory: ERR_LIB_ASN1 and ERR_R_MALLOC_FAILURE.
OF_MEMORY = 13, 256 | 3 << 18


def of_certificate(*extensions):
    return element(b"\xa3", element(b"\x30", b"".join(extensions)))


def of_list(*extensions):
    return element(b"\xa0", element(b"\x30", b"".join(extensions)))


def own_id(text):
    """The extension that has a subject's key identifier."""
    return octets(f'30({SUBJECT}04(04("{text}")))')


def issuer_id(text):
    """The extension that has an issuer's key identifier, between two of another kind."""
    return octets(f'30(06(2a03)04())30({AUTHORITY}01(ff)04(30(80("{text}"))))30(06(2a04)04())')


def left(number, why):
    """What is told of an item for which so many keys weren't tried."""
    return f"{why}; {number} further {'key' if number == 1 else 'keys'} not tried (--tries)"


class Holders:
    """Certificates of one name that hold keys of several kinds, each with a key identifier or without."""

    def __init__(self, t):
        self.shop, self.made = t.shop, Made(t.shop)

    def root(self, kind, identifier=None):
        extensions = of_certificate(own_id(identifier)) if identifier else b""
        return self.shop.certificate(kind, self.made.name, self.made.name, self.shop.public(kind), extensions=extensions)

    def leaf(self, kind, identifier=None, serial=7):
        extensions = of_certificate(issuer_id(identifier)) if identifier else b""
        return self.shop.certificate(kind, self.made.name, name("leaf"), self.shop.public("p384"), serial, extensions=extensions)

    def list(self, kind, identifier):
        return self.shop.list(kind, self.made.name, extensions=of_list(issuer_id(identifier)))


def bounds(t, holders):
    """At most so many keys are tried for an item, and it is told how many are left."""
    roots, leaf = [holders.root(kind) for kind in KINDS], holders.leaf(KINDS[-1])
    pair = (t.shop.public(KINDS[-1]), leaf)
    for tries in (1, 4):
        t.vouch(f"{tries} of 5 keys", [leaf], roots, [], [left(5 - tries, not_verified(0, tries))], ["--tries", str(tries)])
    t.vouch("all of 5 keys", [leaf], roots, [pair], words=["--tries=0005"])
    first = holders.leaf(KINDS[0])
    t.vouch("a key that verifies, and further ones", [first], roots, [(t.shop.public(KINDS[0]), first)], [left(3, told(0, "vouched for"))], ["--tries", "2"])
    strange = [t.shop.certificate("p256", holders.made.name, holders.made.name, octets(f"30(30(06(2a03))03({number:04x}))")) for number in range(DEFAULT)]
    unread = [told(number, "openssl cannot read its key", "anchors") for number in range(DEFAULT)]
    t.vouch("17 keys", [leaf], [*strange, roots[-1]], [], [left(1, not_verified(0, DEFAULT)), *unread])
    t.vouch("17 keys with --tries", [leaf], [*strange, roots[-1]], [pair], unread, ["--tries", str(DEFAULT + 1)])


def identifiers(t, holders):
    """The keys come first that have the identifier that an item names, then an item's own."""
    roots = [holders.root(kind, f"id of {kind}") for kind in KINDS]
    once = ["--tries", "1"]
    for kind in KINDS:
        items = [holders.leaf(kind, f"id of {kind}"), holders.list(kind, f"id of {kind}")]
        pairs = [(t.shop.public(kind), item) for item in items]
        t.vouch(f"the identifier of {kind}", items, roots, pairs, [left(4, told(number, "vouched for")) for number in range(2)], once)
    last = holders.leaf(KINDS[-1], f"id of {KINDS[0]}")
    t.vouch("another one's identifier", [last], roots, [], [left(4, not_verified(0, 1))], once)
    t.vouch("another one's identifier, and all keys", [last], roots, [(t.shop.public(KINDS[-1]), last)])
    unnamed = holders.leaf(KINDS[0], "nobody's")
    t.vouch("nobody's identifier", [unnamed], roots, [(t.shop.public(KINDS[0]), unnamed)])
    alike = [holders.root(kind, "one") for kind in KINDS]
    second = holders.leaf(KINDS[1], "one")
    t.vouch("one identifier of all keys", [second], alike, [], [left(4, not_verified(0, 1))], once)
    t.vouch("one identifier of all keys, and two tried", [second], alike, [(t.shop.public(KINDS[1]), second)], [left(3, told(0, "vouched for"))], ["--tries", "2"])
    own = holders.root(KINDS[-1])
    t.vouch("its own key", [*roots, own], [], [(t.shop.public(kind), root) for kind, root in zip([*KINDS, KINDS[-1]], [*roots, own])],
            [left(4, told(number, "vouched for")) for number in range(6)], once)


def groups(t, holders):
    """What is told stands in one line for each reason, with the first positions; with -v in one line for each item."""
    leaves, odd = [holders.leaf("p256", serial=number + 16) for number in range(7)], octets("30(30(05))")
    t.shop.keep("many", b"".join([*leaves[:3], odd, *leaves[3:], odd]))
    t.shop.keep("root", holders.root("rsa"))
    t.shop.keep("empty", b"")
    summary = "vouch: 9 items, 0 vouched for, 0 lines, 9 unverified"
    t.same("two reasons", t.run("vouch", ["many", "empty"]),
           (0, b"", [f"bundle 0, 1, 2, 4, 5, .. (7 items): {NO_KEY}", "bundle 3, 8 (2 items): neither certificate nor list", summary]))
    each = [told(number, "neither certificate nor list" if number in (3, 8) else NO_KEY) for number in range(9)]
    for words in (["-v"], ["--verbose"]):
        t.same(f"two reasons {words}", t.run("vouch", ["many", "empty", *words]), (0, b"", [*each, summary]))
    t.shop.keep("cut", leaves[0] + leaves[1] + odd[:-1])
    t.same("an end behind the reasons", t.run("vouch", ["cut", "root"]),
           (1, b"", ["bundle 0, 1 (2 items): not verified by 1 key (..)", f"bundle: cut at {len(leaves[0] + leaves[1])}: the last item isn't whole", "vouch: 2 items, 0 vouched for, 0 lines, 2 unverified"]))


class Key(NamedTuple):
    """A key as OpenSSL's are, of which nothing is asked but its octets."""
    octets: bytes
    handle: int = 1
    weak: str = None
    why: str = None


class Counting:
    """Verifies nothing, and counts what it is asked: stands for OpenSSL and for each item that it reads."""

    def __init__(self):
        self.asked, self.read = [], None

    def key(self, key):
        return Key(key)

    def subject_key_id(self, octets):
        return None

    @contextmanager
    def reading(self, kind, octets):
        self.read = octets
        yield self

    def has_one_algorithm(self):
        return True

    def algorithm(self):
        return "of all", "sha256"

    def authority_key_id(self):
        return None

    def refusals(self, keys):
        self.asked.append((self.read, len(keys)))
        return ["wrong signature"] * len(keys)


class Kept(Report):
    """Keeps the lines that it would write."""

    def __init__(self):
        super().__init__(False)
        self.kept = []
        self.lines.add = self.kept.append


def counts(t, holders):
    """So many items and keys of one name cost at most so many questions, and equal items are asked about once."""
    title, dates = holders.made.name, element(b"\x30", DATES)

    def certificate(number):
        key = octets(f"30(30(06(2a03))03(00{number:02x}))")
        signed = element(b"\x30", octets("02(01)") + ECDSA_SHA256 + title + dates + title + key)
        return element(b"\x30", signed + ECDSA_SHA256 + octets("03(00)"))

    items, openssl, kept = [certificate(place) for place in range(100)], Counting(), Kept()
    Vouching(frame(b"".join(items * 2)), frame(b""), Judge(openssl, DEFAULT), False, kept)
    t.same("100 items and 100 keys, twice", openssl.asked, [(item, DEFAULT) for item in items])
    kept.flush()
    t.same("one line of 200 items", kept.kept, [f"bundle 0, 1, 2, 3, 4, .. (200 items): {left(100 - DEFAULT, 'not verified by 16 keys (wrong signature)')}"])
    kept = Kept()
    for index in range(MOST_REASONS + 50):
        kept.add("bundle", index, f"reason {index}")
    kept.flush()
    first = MOST_REASONS
    positions = ", ".join(str(first + place) for place in range(5))
    t.same("many reasons", kept.kept, [*(f"bundle {place}: reason {place}" for place in range(first)), f"bundle {positions}, .. (50 items): {OTHERS}"])


def long_names(t, holders):
    """What is foreign is told in few characters, all of them printable."""
    algorithm = octets(f"30(06(2a{'03' * 2000}))")
    leaf = altered(holders.made.leaf("rsa"), RSA_SHA256, algorithm, algorithm)
    t.vouch("a long identifier", [leaf], [], [], [told(0, f"algorithm of 2001 octets that begin with 2a{'03' * 31} not known")])


def exponents(t, holders):
    """No key verifies whose exponent is long, which OpenSSL would be slow with."""
    kinds = ("long-exponent", "full-exponent")
    roots = [t.shop.certificate("rsa", holders.made.name, holders.made.name, t.shop.public(kind)) for kind in kinds]
    leaves = [t.shop.certificate(kind, holders.made.name, name("leaf"), t.shop.public("p384")) for kind in kinds]
    t.vouch("exponents of 64 bits and of 65", leaves, roots, [(t.shop.public(kinds[1]), leaves[1])],
            [not_verified(0, 2), told(0, "its key has an exponent of more than 64 bits", "anchors")])


def dsa(bits):
    """A DSA key of so many bits, in its form."""
    prime = 2**bits - 1
    parameters = element(b"\x30", b"".join(map(integer, (prime, 2**255 + 1, prime - 2))))
    return public_key(octets("06(2a8648ce380401)") + parameters, integer(prime - 4))


def rsa(bits):
    """An RSA key of so many bits, in its form."""
    return public_key(octets("06(2a864886f70d010101)05()"), element(b"\x30", integer(2**bits - 1) + integer(65537)))


def public_key(algorithm, key):
    return element(b"\x30", element(b"\x30", algorithm) + element(b"\x03", b"\0" + key))


def integer(number):
    return element(b"\x02", number.to_bytes(number.bit_length() // 8 + 1, "big"))


def not_shown(t, holders):
    """OpenSSL isn't shown a key whose curve isn't named, nor an item that has one; and no key of more bits than is stated verifies."""
    made, unnamed = holders.made, "its key isn't on a named curve"
    explicit = holders.root("explicit")
    t.vouch("a curve that isn't named", [made.leaf("explicit")], [explicit], [], [not_verified(0, 1), f"anchors 0: {unnamed}"])
    leaf = t.shop.certificate("p256", made.name, name("leaf"), t.shop.public("explicit"))
    t.vouch("an item with such a key", [leaf, explicit], [holders.root("p256")], [], [f"bundle {number}: {unnamed}" for number in (0, 1, 1)])
    keys = {3072: dsa(3072), 3080: dsa(3080), 10_000: dsa(10_000), 16_384: rsa(16_384), 17_000: rsa(17_000)}
    roots, most = [made.root("rsa", key) for key in keys.values()], {1: 3072, 2: 3072, 4: 16384}
    large = [f"anchors {item}: its key has more than {bits} bits" for item, bits in most.items()]
    t.vouch("keys of many bits", [made.leaf("rsa")], roots, [], [not_verified(0, 5), *large])


def without_memory(t, _):
    """What OpenSSL gets no memory for isn't taken for what it can't read."""
    found = []
    with verifier() as openssl:
        for error in (None, OF_MEMORY):
            if error:
                openssl.library.ERR_new()
                openssl.library.ERR_set_error(*error, None)
            try:
                found.append(openssl.read("d2i_PUBKEY", b"\x30\x00"))
            except OutOfMemory as refused:
                found.append(str(refused))
    t.same("OpenSSL without memory", found, [(None, False), "out of memory: OpenSSL got none"])


def trials(t):
    """Runs them all."""
    holders = Holders(t)
    for group in (bounds, identifiers, groups, counts, long_names, exponents, not_shown, without_memory):
        group(t, holders)
