"""Trials of ./vouch: signatures that are not quite ones, algorithms that differ, keys and names by their octets, and several keys under one name."""
from dev.items import element, octets
from trials.elements import parts_of
from trials.vouching_pki import INTEGER, PRINTABLE, assembled, name, spelled

NO_KEY, NEITHER = "no key under its issuer's name", "neither certificate nor list"
NOT_NULL, ODD = octets("30(06(2a864886f70d01010b))"), octets("30(06(2a864886f70d01010b)04(00))")
# Algorithms that are not known: RSA-PSS with MD5 the third, then without parameters and with none. With no identifier, or one that
# doesn't end, an item isn't a certificate or list in its one spelling.
UNKNOWN = {
    "30(06(2a03))": "algorithm 1.2.3 not known",
    "30(02(05))": NEITHER,
    "30(06(2a864886f70d01010a)30(a0(30(06(2a864886f70d0205)05()))))": "algorithm 1.2.840.113549.1.1.10 not known with its parameters",
    "30(06(2a864886f70d01010a))": "algorithm 1.2.840.113549.1.1.10 not known with its parameters",
    "30(06(2a864886f70d01010a)05())": "algorithm 1.2.840.113549.1.1.10 not known with its parameters",
    "30(06(2a80))": NEITHER,
}


def told(number, why, where="bundle"):
    return f"{where} {number}: {why}"


def not_verified(number, keys):
    return told(number, f"not verified by {'1 key' if keys == 1 else f'{keys} keys'} (..)")


class Made:
    """Certificates under one name, by the kinds of their keys, and what they sign."""

    def __init__(self, shop):
        self.shop, self.name = shop, name("issuer")

    def root(self, kind, key=None):
        return self.shop.certificate(kind, self.name, self.name, key or self.shop.public(kind))

    def leaf(self, kind, issuer=None, outer=None):
        return self.shop.certificate(kind, issuer or self.name, name("leaf"), self.shop.public("p384"), 7, outer)

    def list(self, kind, outer=None):
        return self.shop.list(kind, self.name, outer)


def full_length(made):
    """A P-256 leaf whose signature has 72 octets, the most."""
    while True:
        leaf = made.leaf("p256")
        if len(spelled(leaf).signature) == 73:
            return leaf


def altered(octets_made, old, new, outer=None):
    """An item with other octets in the place of some in its signed part."""
    item = spelled(octets_made)
    signed = element(b"\x30", parts_of(item.signed)[0].content.replace(old, new, 1))
    return assembled(signed, outer or item.outer_algorithm, item.signature[1:])


def long_form(signature):
    """The SEQUENCE that an ECDSA signature is, with its length in the long form (BER)."""
    return signature[:1] + b"\x81" + signature[1:]


def signatures(t, made):
    """Signatures that are not quite ones get no line."""
    keys = [made.root(kind) for kind in ("rsa", "p256")]
    full = full_length(made)
    right = [("rsa", made.leaf("rsa")), ("rsa", made.list("rsa")), ("p256", full), ("p256", made.list("p256"))]
    t.vouch("right signatures", [entry for _, entry in right], keys, [(t.shop.public(kind), entry) for kind, entry in right])
    wrong = []
    for kind, octets_made in right:
        item = spelled(octets_made)
        signature = item.signature[1:]
        forms = [(signature + b"\0", 0), (signature, 1), (signature[:-1], 0), (b"", 0), (b"\0" + signature, 0)]
        forms += [(long_form(signature), 0)] if kind == "p256" else []
        wrong += [(kind, assembled(item.signed, item.outer_algorithm, *form)) for form in forms]
    t.none("signatures that are not quite ones", [entry for _, entry in wrong], keys, "--weak")
    opinions = [t.shop.is_signed(spelled(entry), t.shop.public(kind), "sha256", ()) for kind, entry in wrong]
    t.same("pkeyutl of signatures that are not quite ones", opinions, [False] * len(wrong))


def algorithms(t, made):
    """An outer algorithm other than the inner one is told, of certificates and lists."""
    wrong = [make("rsa", outer=outer) for make in (made.leaf, made.list) for outer in (NOT_NULL, ODD)]
    t.vouch("two algorithms", wrong, [made.root("rsa")], [], [told(number, "its two algorithms differ") for number in range(4)])
    made_of = [altered(value, spelled(value).inner_algorithm, octets(other), octets(other)) for value in (made.leaf("rsa"), made.list("rsa")) for other in UNKNOWN]
    why = [*UNKNOWN.values()] * 2
    t.vouch("unknown algorithms", made_of, [made.root("rsa")], [], [told(*entry) for entry in enumerate(why)], ["--weak"])


def spellings(t, made):
    """Keys and names count by the octets that they have in the item."""
    public = t.shop.public("rsa")
    plain = element(b"\x30", octets("30(06(2a864886f70d010101))") + public[public.index(b"\x03\x82"):])
    root, leaf = made.root("rsa", plain), made.leaf("rsa")
    t.same("a key without NULL stands there", plain in root and public not in root, True)
    t.vouch("a key without NULL", [leaf, root], [], [(plain, leaf), (plain, root)])
    t.vouch("a key in two spellings", [leaf], [root, made.root("rsa")], [(plain, leaf), (public, leaf)])
    other = made.leaf("rsa", name("issuer", PRINTABLE))
    t.vouch("a name in another type", [other], [root], [], [told(0, NO_KEY)])


def several(t, made):
    """All keys under a name are tried, and no others."""
    public = t.shop.public
    leaves = [made.leaf(kind) for kind in ("p256", "rsa", "p521")]
    two, three = [made.root(kind) for kind in ("p256", "rsa")], [made.root(kind) for kind in ("p256", "rsa", "p521")]
    pairs = [(public(kind), leave) for kind, leave in zip(("p256", "rsa", "p521"), leaves)]
    t.vouch("two keys under one name", leaves, two, pairs[:2], [not_verified(2, 2)])
    t.vouch("three keys under one name", leaves, three, pairs)
    t.vouch("one key", leaves, two[:1], pairs[:1], [not_verified(1, 1), not_verified(2, 1)])
    t.vouch("no key", leaves, [], [], [told(number, NO_KEY) for number in range(3)])
    second = name("second")
    named = [t.shop.certificate("p256", second, second, public("p256")), made.leaf("p256", second), leaves[0]]
    t.vouch("one key under two names", named, two, [(public("p256"), entry) for entry in named])
    root = (public("p256"), two[0])
    t.vouch("an anchor in the anchors alone", leaves[:1], two[:1], pairs[:1])
    t.vouch("an anchor in the bundle alone", [two[0], leaves[0]], [], [root, pairs[0]])
    t.vouch("an anchor in both", [two[0], leaves[0]], two[:1], [root, pairs[0]])
    t.vouch("items and anchors twice", [*leaves[:1] * 2, two[0], *leaves[:1]], two[:1] * 2, [root, pairs[0]])


def unreadable(t, made):
    """What OpenSSL cannot read is told, and never vouched for."""
    leaf = made.leaf("rsa")
    no_key = octets("30(30(06(2a03))03(00))")
    broken, good = made.root("rsa", no_key), made.root("rsa")
    t.vouch("a key that cannot be read", [leaf], [broken], [], [not_verified(0, 1), told(0, "openssl cannot read its key", "anchors")])
    t.vouch("and another one", [leaf], [broken, good], [(t.shop.public("rsa"), leaf)], [told(0, "openssl cannot read its key", "anchors")])
    t.vouch("a key that nobody asks for", [good], [t.shop.certificate("rsa", name("x"), name("x"), no_key)], [(t.shop.public("rsa"), good)])
    neither = [altered(leaf, octets("02(07)"), octets("04(07)")), altered(made.list("rsa"), octets("02(01)"), octets("02(01)02(01)")), octets("30()")]
    t.vouch("no certificate nor list", neither, [octets("30()"), good, made.list("rsa")], [],
            [*(told(index, NEITHER) for index in range(3)), *(told(index, "no certificate", "anchors") for index in (0, 2))])
    odd = [altered(leaf, octets("02(07)"), octets("02()")), altered(leaf, octets("a0(02(02))"), octets("a0(05(02))")),
           altered(made.list("rsa"), octets("02(01)"), octets("02()"))]
    t.vouch("items in another spelling", odd, [good], [], [told(index, NEITHER) for index in range(3)])
    number = name("number", INTEGER)
    unread = [altered(leaf, made.name, number), altered(leaf, name("leaf"), number), altered(made.list("rsa"), made.name, number)]
    t.vouch("items that cannot be read", unread, [good], [], [told(index, "openssl cannot read it") for index in range(3)])


def trials(t):
    """Runs them all."""
    made = Made(t.shop)
    for group in (signatures, algorithms, spellings, several, unreadable):
        group(t, made)
