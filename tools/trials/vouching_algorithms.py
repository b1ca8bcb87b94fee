"""Trials of ./vouch: each algorithm, by certificates and lists that openssl makes anew, and those with one bit changed."""
from concurrent.futures import ThreadPoolExecutor
from typing import NamedTuple

from trials.vouching_pki import spelled

LANES = 2
CURVES = ("p256", "p384", "p521", "secp256k1", "brainpool", "compressed")
RIPEMD160 = "algorithm 1.3.36.3.3.1.2 not known"
# How many octets of the signed part, and of the signature, have a bit changed.
CHANGED = 3


class Row(NamedTuple):
    """A key's kind, a digest or none, options of openssl, and in which words the signature is weak, if it is."""
    title: str
    kind: str
    digest: str
    options: tuple = ()
    weak: str = None


def pss(digest, salt, generation=None):
    return "rsa_padding_mode:pss", f"rsa_pss_saltlen:{salt}", f"rsa_mgf1_md:{generation or digest}"


def rows():
    """Each algorithm that ./vouch knows, and one that it doesn't."""
    weak = {"md5": "md5", "sha1": "sha1"}
    for digest in ("md5", "sha1", "sha224", "sha256", "sha384", "sha512", "sha3-256", "ripemd160"):
        yield Row(f"rsa-{digest}", "rsa", digest, (), weak.get(digest))
    for digest, salt in (("sha1", 20), ("sha224", 28), ("sha256", 32), ("sha384", 48), ("sha512", 64), ("sha256", 0), ("sha256", 20), ("sha256", 222)):
        yield Row(f"pss-{digest}-{salt}", "rsa", digest, pss(digest, salt), weak.get(digest))
    for generation in ("sha1", "sha512"):
        yield Row(f"pss-mgf1-{generation}", "rsa", "sha256", pss("sha256", 32, generation))
    yield Row("pss-key", "rsa-pss", "sha256", pss("sha256", 32))
    yield Row("rsa1024-sha256", "rsa1024", "sha256", (), "1024-bit RSA key")
    yield Row("rsa1024-sha1", "rsa1024", "sha1", (), "sha1, 1024-bit RSA key")
    yield Row("p192-sha256", "p192", "sha256", (), "192-bit EC key")
    for curve in CURVES:
        for digest in ("sha1", "sha256", "sha384", "sha512"):
            yield Row(f"{curve}-{digest}", curve, digest, (), weak.get(digest))
    yield Row("p256-sha224", "p256", "sha224")
    for digest in ("sha1", "sha224", "sha256"):
        yield Row(f"dsa-{digest}", "dsa", digest, (), weak.get(digest))
    yield Row("ed25519", "ed25519", None)
    yield Row("ed448", "ed448", None)


def changed(octets, at):
    """The octets with a bit of one changed."""
    return octets[:at] + bytes([octets[at] ^ 1 << at % 8]) + octets[at + 1:]


def mutants(octets):
    """An item with one bit changed, in its signed part and in its signature."""
    item = spelled(octets)
    begin = octets.index(item.signed) + 4
    for at in range(CHANGED):
        yield changed(octets, begin + (2 * at + 1) * (len(item.signed) - 4) // (2 * CHANGED))
    bits = len(item.signature) - 1
    for at in range(CHANGED):
        yield changed(octets, len(octets) - 1 - at * (bits - 1) // (CHANGED - 1))


def second_opinion(shop, row, octets):
    """Whether `openssl pkeyutl` verifies an item of the row, and doesn't with a bit of its signature changed."""
    return [shop.is_signed(spelled(value), shop.public(row.kind), row.digest, row.options) for value in (octets, changed(octets, len(octets) - 5))]


def told(all_rows, takes_weak):
    """What is told of three items a row."""
    for number, row in enumerate(all_rows):
        if row.digest == "ripemd160":
            why = RIPEMD160
        elif row.weak and not takes_weak:
            why = f"weak: {row.weak} (--weak takes it)"
        else:
            continue
        yield from (f"bundle {3 * number + index}: {why}" for index in range(3))


def trials(t):
    """Runs them all."""
    all_rows = [*rows()]
    with ThreadPoolExecutor(LANES) as pool:
        made = [*pool.map(lambda row: t.shop.signed_by_openssl(row.title, row.kind, row.digest, row.options), all_rows)]
        for row, opinions in zip(all_rows, pool.map(lambda row, items: [second_opinion(t.shop, row, item) for item in items], all_rows, made)):
            t.same(f"pkeyutl of {row.title}", opinions, [[True, False]] * 3)
    items = [entry for three in made for entry in three]
    for row, (root, _, _) in zip(all_rows, made):
        t.same(f"{row.title}: its key stands in its root", t.shop.public(row.kind) in root, True)
    for words, takes_weak in ((("--weak",), True), ((), False)):
        pairs = [(t.shop.public(row.kind), entry) for row, three in zip(all_rows, made) for entry in three
                 if row.digest != "ripemd160" and (takes_weak or not row.weak)]
        t.vouch(f"each algorithm {' '.join(words)}", items, [], pairs, [*told(all_rows, takes_weak)], words)
    roots = [three[0] for three in made]
    t.none("one bit changed", [mutant for octets in items for mutant in mutants(octets)], roots, "--weak")
    # items alone, and keys from the anchors alone
    leaves = [entry for _, *two in made[5:9] for entry in two]
    pairs = [(t.shop.public(row.kind), entry) for row, (_, *two) in zip(all_rows[5:9], made[5:9]) for entry in two if row.digest != "ripemd160"]
    t.vouch("keys of anchors alone", leaves, roots, pairs, [f"bundle {number}: {RIPEMD160}" for number in (4, 5)], ("--weak",))
