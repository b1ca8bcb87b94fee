"""Families for `why`, `paths` and ./verify: over files that were made for `path`, and over certificates with signatures in their form."""
from family import FAMILIES, Files, also, family
from kinds import (CERTIFICATES_OF_WHY, ELEMENTS, LOOKED_UP, OBJECTS, OF_ISSUERS, PATHS, QUESTIONS, STAIRS,
                   WHY_OF_VERIFY)
from parts import name, p256_keys
from signed import KEY, ROOT, X, issuers, signed_by_none

# Sizes for commands that print a line for each pair of items.
SQUARE = {"sizes": (250, 500, 1_000, 2_000), "small": (500, 2_000)}

# Sizes at which paths that are printed whole take more than what is read.
LONG_PATHS = {"sizes": (1_000, 2_000, 4_000, 8_000), "small": (1_000, 4_000), "known": PATHS}

# Sizes of certificates of one name: at the largest a step for each pair of them shows.
OF_ONE_NAME = {"sizes": (4_000, 8_000, 16_000, 32_000), "small": (8_000, 32_000)}

also("why", "keys-none", "ids-never", **OF_ONE_NAME, known=OF_ISSUERS)
also("why", "self-serials", "ids-equal", **OF_ONE_NAME)
also("why", "lists-none", known=OF_ISSUERS)
also("why", "chain-path", "lists-vouched")
also("why", "no-issuers", known=CERTIFICATES_OF_WHY)
also("why", "copies-keys", "chain-none", "list-long", "list-keys", "names-alike")
also("why", "extensions", "attributes", known=ELEMENTS)
also("why", "entries")

also("paths", "chain-path", "chain-beside", **LONG_PATHS)
also("paths", "rises", "rises-ids", sizes=(750, 1_500, 3_000, 6_000), small=(1_500, 6_000), known=LOOKED_UP)
also("paths", "stairs", sizes=(1_000, 2_000, 4_000, 8_000), small=(1_000, 4_000), known=STAIRS)
also("paths", "copies-keys", "chain-none", "keys-each", "issuers-each", "anchors-equal", "ids-different", "list-long", "list-keys",
     "self-copies", "no-issuers")

also("questions", "keys-none", **SQUARE, known=QUESTIONS)
also("questions", "issuers-each", sizes=(1_000, 2_000, 4_000, 8_000), small=(500, 2_000), known=QUESTIONS)
also("questions", "no-issuers", "chain-none")


def without_path(count, rows):
    """Certificates whose issuers aren't there, and evidence that says so in rows without a change."""
    made = FAMILIES["no-issuers"].make(count)
    head = [b"certpath evidence 1\n", b"none\n" * len(made.bundle)]
    return made._replace(evidence=[*head, b"row\n" * rows])


@family("recheck-none", "n certificates whose issuers aren't there, and evidence of it", "recheck")
def recheck_none(count):
    return without_path(count, 2)


@family("recheck-rows", "n certificates whose issuers aren't there, and evidence of n rows",
        "recheck")
def recheck_rows(count):
    return without_path(count, count)


SIGNED = {"command": "verify", "sizes": (1_250, 2_500, 5_000, 10_000), "small": (1_250, 5_000), "known": OBJECTS}
ANCHOR = signed_by_none(ROOT, ROOT, KEY, 1)


@family("verify-keys", "n certificates \"x from x\", a P-256 key each, signed by none", "verify", sizes=(100, 200, 400, 800),
        small=(50, 200), known=WHY_OF_VERIFY, statuses=(1, 9))
def verify_keys(count):
    return Files([signed_by_none(X, X, it, number) for number, it in enumerate(p256_keys(count))], [ANCHOR])


@family("verify-issuers", "a leaf and n issuers of its issuer's name, a P-256 key each, signed by none", **SIGNED)
def verify_issuers(count):
    return Files([signed_by_none(name("leaf"), X, KEY, 1), *issuers(count)], [ANCHOR])


@family("verify-no-keys", "n certificates whose issuers aren't there", **SIGNED)
def verify_no_keys(count):
    return Files([signed_by_none(name("leaf"), name("nowhere"), KEY, it) for it in range(count)], [ANCHOR])


@family("verify-names", "n certificates, each issued by the next one's subject, signed by none", **SIGNED)
def verify_names(count):
    names = [name(f"c{it:07}") for it in range(count + 1)]
    return Files([signed_by_none(names[it], names[it + 1], KEY, it) for it in range(count)], [ANCHOR])
