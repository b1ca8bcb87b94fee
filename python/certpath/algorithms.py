"""The signature algorithms that are known, a closed table: no other one is vouched for; and which keys
OpenSSL isn't shown, since it would take long with them."""
from typing import Optional

RSA, ECDSA, DSA_WITH_SHA2, SHA_2 = "1.2.840.113549.1.1", "1.2.840.10045.4", "2.16.840.1.101.3.4.3", "2.16.840.1.101.3.4.2"
PSS = f"{RSA}.10"
# The digest of each algorithm; Ed25519 and Ed448 have their own.
DIGESTS = {
    f"{RSA}.4": "md5", f"{RSA}.5": "sha1", f"{RSA}.14": "sha224", f"{RSA}.11": "sha256", f"{RSA}.12": "sha384", f"{RSA}.13": "sha512",
    f"{DSA_WITH_SHA2}.14": "sha3-256",
    f"{ECDSA}.1": "sha1", f"{ECDSA}.3.1": "sha224", f"{ECDSA}.3.2": "sha256", f"{ECDSA}.3.3": "sha384", f"{ECDSA}.3.4": "sha512",
    "1.2.840.10040.4.3": "sha1", f"{DSA_WITH_SHA2}.1": "sha224", f"{DSA_WITH_SHA2}.2": "sha256",
    "1.3.101.112": "its own", "1.3.101.113": "its own",
}
# The digests of RSA-PSS, which its parameters name (RFC 4055, 3.1); SHA-1 if they don't.
PSS_DIGESTS = {"1.3.14.3.2.26": "sha1", f"{SHA_2}.4": "sha224", f"{SHA_2}.1": "sha256", f"{SHA_2}.2": "sha384", f"{SHA_2}.3": "sha512"}
WEAK = ("md5", "sha1")

# Identifiers of keys on curves, as elements: id-ecPublicKey (RFC 5480, 2.1.1), and that of SM2 by which
# OpenSSL reads a key likewise. OpenSSL takes 0.3 seconds to read a key whose curve it has to compute.
ON_CURVES = bytes.fromhex("06072a8648ce3d0201"), bytes.fromhex("06082a811ccf5501822d")
# What a named curve begins with: the tag of an OBJECT IDENTIFIER.
NAMED = b"\x06"
# Within so many octets of a key's element are its algorithm's identifier and what begins after it.
FRONT = 24
UNNAMED = "its key isn't on a named curve"
# The most bits of a DSA key (FIPS 186-4, 4.2) and of an RSA key, which is as many as OpenSSL verifies by.
# By identifiers of keys (RFC 3279, 2.3; RFC 4055, 1.2) also how many octets the element of such a key
# has at most.
MOST_DSA, MOST_RSA = 3072, 16384
LARGE = "its key has more than {} bits"
SIZES = ((bytes.fromhex("06072a8648ce380401"), MOST_DSA, 1240),
         (bytes.fromhex("06092a864886f70d010101"), MOST_RSA, 2100),
         (bytes.fromhex("06092a864886f70d01010a"), MOST_RSA, 2170))


def is_on_unnamed_curve(key: bytes) -> bool:
    """Whether a key, by its element's octets, is on a curve that isn't named. An item that has such a
    key isn't shown to OpenSSL either, which reads the key with it."""
    parts = (key[:FRONT].partition(it) for it in ON_CURVES)
    return any(found and not rest.startswith(NAMED) for _, found, rest in parts)


def why_refused(key: bytes) -> Optional[str]:
    """Why OpenSSL isn't shown a key, by its element's octets; None if it is."""
    if is_on_unnamed_curve(key):
        return UNNAMED
    for identifier, bits, octets in SIZES:
        if len(key) > octets and identifier in key[:FRONT]:
            return LARGE.format(bits)
    return None
