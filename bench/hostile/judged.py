"""Families for ./verify in all its forms, over files that nobody has to sign for the attacker."""
import slow_keys
from family import Files, family
from kinds import OBJECTS, WHY_OF_VERIFY
from parts import element, entry, integer, name, p256_keys, revocation_list, small_certificate
from reports import ANCHOR
from signed import KEY, LEAF, ROOT, X, signed_by_none

SIZES = {"command": "verify", "sizes": (500, 1_000, 2_000, 4_000), "small": (1_000, 4_000),
         "known": OBJECTS}
TWO_SECONDS = ("--seconds", "2", "--json")
# Octets of a name beyond any that a certificate needs, and of a subject for each key of its issuer.
LONG_NAME, OF_SUBJECT = 20_000, 60
FORMS = {"lists": ("--json",), "lists-html": ("--html", "-"), "lists-text": ("--limit", "16777216")}
SHA1, DATA = bytes.fromhex("300906052b0e03021a0500"), bytes.fromhex("06092a864886f70d010701")
SIGNED_DATA = bytes.fromhex("06092a864886f70d010702")


def of_verify(title, what, *words, **further):
    """A family of ./verify, whose output must not grow faster than what is read."""
    return family(f"verify-{title}", what, **{**SIZES, "words": words, **further})


def lists(count, issuer=None):
    """Revocation lists by nobody: of names of their own, or of one name."""
    entries = (entry(integer(it + 1)) for it in range(count))
    return [revocation_list(issuer or name(f"l{it}"), one) for it, one in enumerate(entries)]


def leaves(count):
    return [signed_by_none(LEAF, X, KEY, it) for it in range(count)]


def keys_of(subject, issuer, count):
    """Certificates of one subject and issuer, a key each."""
    keys = enumerate(p256_keys(count))
    return [signed_by_none(subject, issuer, it, number) for number, it in keys]


for form, words in FORMS.items():
    @of_verify(f"all-{form}", f"n/2 targets, and n/2 lists that aren't used ({words[0]})",
               "--all", *words)
    def all_lists(count):
        return Files([*leaves(count // 2), *lists(count // 2)], [ANCHOR])

    @of_verify(f"own-{form}", f"n/2 targets, and n/2 unused lists of their issuer ({words[0]})",
               "--all", *words)
    def own_lists(count):
        return Files([*leaves(count // 2), *lists(count // 2, X)], [ANCHOR])


@of_verify("name-lists", "a leaf whose issuer has a long name, and n lists of other names")
def name_lists(count):
    return Files([signed_by_none(LEAF, name("x" * LONG_NAME), KEY, 1), *lists(count)], [ANCHOR])


for form, words in FORMS.items():
    @of_verify(form.replace("lists", "subject"),
               f"a leaf with a long name, and n keys of its issuer ({words[0]})", *words)
    def subject_issuers(count):
        leaf = signed_by_none(name('"' * (OF_SUBJECT * count)), X, KEY, 0)
        return Files([leaf, *keys_of(X, ROOT, count)], [ANCHOR])


@of_verify("name-dot", "n certificates of one name (--dot)", "--dot", known=WHY_OF_VERIFY,
           sizes=(100, 200, 400, 800), small=(50, 200), statuses=(1, 9))
def name_dot(count):
    return Files(keys_of(X, X, count), [ANCHOR])


@of_verify("all-keys", "n certificates of one name, all of them targets", "--all", "--json",
           known=WHY_OF_VERIFY, sizes=(100, 200, 400, 800), small=(50, 200), statuses=(1, 9))
def all_keys(count):
    return Files(keys_of(X, X, count), [ANCHOR])


@of_verify("chain-dot", "n certificates, each issued by the next one's subject (--dot)", "--dot")
def chain_dot(count):
    names = [name(f"c{it:07}") for it in range(count + 1)]
    return Files([signed_by_none(*it, KEY, 1) for it in zip(names, names[1:])], [ANCHOR])


@of_verify("ec-compressed", "n certificates \"x from x\", a key each on a curve of its own",
           known=WHY_OF_VERIFY, sizes=(100, 200, 400, 800), statuses=(1, 9))
def ec_compressed(count):
    items = (signed_by_none(X, X, slow_keys.compressed(it), it) for it in range(count))
    return Files([*items], [ANCHOR])


@of_verify("iterations", "a PKCS #12 file that wants 2^31-1 iterations", *TWO_SECONDS, statuses=(9,),
           sizes=(1, 2, 4, 8), small=(1, 2), known=None)
def iterations(_):
    safe = element(0x30, DATA, element(0xA0, element(0x04, element(0x30, b""))))
    digest = element(0x30, SHA1, element(0x04, bytes(20)))
    mac = element(0x30, digest, element(0x04, bytes(8)), integer(2**31 - 1))
    return Files([element(0x30, integer(3), safe, mac)], [ANCHOR])


@of_verify("few-slow", "n certificates of one name, an RSA key of 16,384 bits each, all tried", *TWO_SECONDS,
           statuses=(1, 9), sizes=(20, 40, 80, 160), small=(10, 40), known=None)
def few_slow(count):
    algorithm, signature = slow_keys.RSA_SHA256, slow_keys.signed_by_rsa
    items = (small_certificate(X, X, slow_keys.large_rsa(it), algorithm, signature(it), it)
             for it in range(count))
    return Files([*items], [ANCHOR])


@of_verify("seven", "a PKCS #7 file of n certificates, a key each on a curve of its own", "--json",
           sizes=(5, 10, 20, 40), small=(2, 8), known=None)
def seven(count):
    items = (signed_by_none(X, X, slow_keys.compressed(it), it) for it in range(count))
    signed = element(0x30, integer(1), element(0x31, b""), element(0x30, DATA),
                     element(0xA0, *items), element(0x31, b""))
    return Files([element(0x30, SIGNED_DATA, element(0xA0, signed))], [ANCHOR])
