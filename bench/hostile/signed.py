"""Families for ./vouch: keys that OpenSSL can read, and signatures that it finds wrong."""
import slow_keys
from family import UNLIMITED, Files, family, of_octets
from kinds import BINARY_CURVES, ELEMENTS, LARGE_KEYS, VERIFICATIONS
from one_item import MANY, ONE_ITEM, attribute, identifier
from parts import (ECDSA_SHA256, FIRST, LAST, VALIDITY, VERSION_3, element, entry, extension, integer, key_ids, name, p256_keys,
                   small_certificate, wrong_signature)

X, LEAF, ROOT = name("x"), name("leaf"), name("root")
KEY = next(p256_keys(1))
# Each item costs up to 16 verifications of some 0.1 ms, so that a file of 1 MB takes more than 2 seconds.
FREE = {"sizes": (1_250, 2_500, 5_000, 10_000), "small": (200, 800)}
SIGNED = {**FREE, "known": VERIFICATIONS}


def signed_by_none(subject, issuer, public, number):
    """A certificate of version 1 with a signature in its form."""
    return small_certificate(subject, issuer, public, ECDSA_SHA256, wrong_signature(number), number)


def of_version_3(subject, public, number, extensions):
    """A certificate "from x" with extensions."""
    signed = element(0x30, VERSION_3, integer(number), ECDSA_SHA256, X, VALIDITY, subject, public, element(0xA3, element(0x30, extensions)))
    return ended(signed, number)


def ended(signed, number):
    return element(0x30, signed, ECDSA_SHA256, element(0x03, b"\0", wrong_signature(number)))


def issuers(count):
    """Certificates of the subject x, a P-256 key each."""
    return [signed_by_none(X, ROOT, it, number) for number, it in enumerate(p256_keys(count))]


@family("vouch-keys", "n certificates \"x from x\", a P-256 key each, signed by none", "vouch", **SIGNED)
def vouch_keys(count):
    return Files([signed_by_none(X, X, it, number) for number, it in enumerate(p256_keys(count))])


@family("vouch-issuers", "n/2 leaves and n/2 issuers of one name, a P-256 key each, signed by none", "vouch", **SIGNED)
def vouch_issuers(count):
    return Files([signed_by_none(LEAF, X, KEY, it) for it in range(count // 2)], issuers(count // 2))


def with_ids(count, own, named):
    """Certificates "x from x" with key identifiers by their numbers."""
    def ids(number):
        return key_ids(own(number).to_bytes(8, "big"), named(number).to_bytes(8, "big"))

    return Files([of_version_3(X, it, number, ids(number)) for number, it in enumerate(p256_keys(count))])


@family("vouch-ids-equal", "n certificates \"x from x\", key identifiers all equal, signed by none", "vouch", **SIGNED)
def vouch_ids_equal(count):
    return with_ids(count, lambda it: 7, lambda it: 7)


@family("vouch-ids-never", "n certificates \"x from x\", key identifiers that never match, signed by none", "vouch", **SIGNED)
def vouch_ids_never(count):
    return with_ids(count, lambda it: it, lambda it: count + it)


@family("vouch-copies", "n/2 copies of a leaf, and n/2 issuers of one name, a P-256 key each", "vouch", **FREE)
def vouch_copies(count):
    return Files([signed_by_none(LEAF, X, KEY, 1)] * (count // 2), issuers(count // 2))


@family("vouch-lists", "n/2 lists of one issuer and n/2 keys of its name, signed by none", "vouch", **SIGNED)
def vouch_lists(count):
    def signed(number):
        return ended(element(0x30, ECDSA_SHA256, X, FIRST, LAST, element(0x30, entry(integer(number)))), number)

    return Files([signed(it) for it in range(count // 2)], issuers(count // 2))


@family("vouch-no-keys", "n certificates whose issuers aren't there", "vouch")
def vouch_no_keys(count):
    return Files([signed_by_none(LEAF, name("nowhere"), KEY, it) for it in range(count)])


@family("vouch-entries", "one list with n entries, signed by none", "vouch", **MANY, words=UNLIMITED)
def vouch_entries(count):
    rows = element(0x30, b"".join(entry(integer(it)) for it in range(count)))
    signed = element(0x30, ECDSA_SHA256, X, FIRST, LAST, rows)
    return Files([ended(signed, 1)], [signed_by_none(X, X, KEY, 1)])


@family("vouch-extensions", "one certificate with n extensions, signed by none", "vouch", **MANY, known=ELEMENTS)
def vouch_extensions(count):
    item = of_version_3(LEAF, KEY, 1, b"".join(extension(identifier(it), b"") for it in range(count)))
    return Files([item], [signed_by_none(X, X, KEY, 1)])


@family("vouch-attributes", "one certificate with n attributes in one set of its subject", "vouch", **MANY)
def vouch_attributes(count):
    subject = element(0x30, element(0x31, *map(attribute, range(count))))
    return Files([signed_by_none(subject, X, KEY, 1)], [signed_by_none(X, X, KEY, 1)])


@of_octets("vouch-algorithm", "a certificate whose algorithm's identifier is one long number", "vouch", sizes=ONE_ITEM)
def vouch_algorithm(size):
    algorithm = element(0x30, element(0x06, b"\x2a" + b"\xff" * (size // 2 - 200) + b"\1"))
    return Files([small_certificate(LEAF, X, KEY, algorithm, b"\0")], [signed_by_none(X, X, KEY, 1)])


@of_octets("vouch-2", "items of two octets", "vouch")
def vouch_2(size):
    return Files([b"\x30\x00" * (size // 2)])


@of_octets("vouch-parts", "an item of NULLs alone", "vouch", sizes=ONE_ITEM)
def vouch_parts(size):
    return Files([element(0x30, b"\x05\x00" * (size // 2 - 100))])


def with_compressed(subject, issuer, count):
    """Certificates that have a key each on a curve of its own."""
    return [signed_by_none(subject, issuer, slow_keys.compressed(it), it) for it in range(count)]


@family("vouch-ec-compressed", "n certificates \"x from x\", a key each on a curve of its own",
        "vouch", **FREE)
def vouch_ec_compressed(count):
    return Files(with_compressed(X, X, count))


@family("vouch-ec-idle", "n certificates on curves of their own, whose issuers aren't there",
        "vouch", **FREE)
def vouch_ec_idle(count):
    return Files(with_compressed(LEAF, name("nowhere"), count))


@family("vouch-many-names", "n/2 leaves, and n/2 issuers of a name each", "vouch", **FREE)
def vouch_many_names(count):
    names = [name(f"x{it}") for it in range(count // 2)]
    keys = zip(names, p256_keys(len(names)))
    roots = [signed_by_none(one, ROOT, it, 1) for one, it in keys]
    return Files([*(signed_by_none(LEAF, it, KEY, 1) for it in names), *roots])


@family("vouch-rsa", "16 issuers of one name, RSA keys of 16,384 bits, and n leaves", "vouch",
        sizes=(25, 50, 100, 200), small=(2, 8), known=LARGE_KEYS)
def vouch_rsa(count):
    roots = [signed_by_none(X, ROOT, slow_keys.large_rsa(it), it) for it in range(16)]
    algorithm, signature = slow_keys.RSA_SHA256, slow_keys.signed_by_rsa
    leaves = [small_certificate(LEAF, X, KEY, algorithm, signature(it), it) for it in range(count)]
    return Files([*leaves, *roots])


@family("vouch-binary", "n leaves below a key on a binary curve of 571 bits, one try each", "vouch",
        words=("--tries", "1"), sizes=(100, 200, 400, 800), small=(50, 200), known=BINARY_CURVES)
def vouch_binary(count):
    root, signature = signed_by_none(X, ROOT, slow_keys.on_binary_curve(), 1), slow_keys.signed_on_binary_curve
    leaves = (small_certificate(LEAF, X, KEY, ECDSA_SHA256, signature(it), it) for it in range(count))
    return Files([*leaves, root])


def of_dsa(subject, number):
    """A certificate "from x" with a wrong signature of DSA in its form."""
    return small_certificate(subject, X, KEY, slow_keys.DSA_SHA256, wrong_signature(number), number)


@family("vouch-dsa", "16 issuers of one name, a DSA key of 10,000 bits each, and n leaves", "vouch",
        **FREE)
def vouch_dsa(count):
    roots = [signed_by_none(X, ROOT, slow_keys.large_dsa(it), it) for it in range(16)]
    return Files([*(of_dsa(LEAF, it) for it in range(count)), *roots])
