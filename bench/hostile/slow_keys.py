"""Keys that OpenSSL takes long to read, or to verify by."""
from parts import OF_KEY, element, integer

# id-ecPublicKey and prime-field (RFC 3279, 2.3.5), id-dsa (2.3.2), and dsa-with-sha256 (RFC 5758,
# 3.1).
EC, PRIME_FIELD = OF_KEY, bytes.fromhex("06072a8648ce3d0101")
DSA = bytes.fromhex("06072a8648ce380401")
DSA_SHA256 = element(0x30, bytes.fromhex("0609608648016503040302"))
# rsaEncryption and sha256WithRSAEncryption, with their NULL (RFC 4055, 1.2 and 5).
RSA = element(0x30, bytes.fromhex("06092a864886f70d0101010500"))
RSA_SHA256 = element(0x30, bytes.fromhex("06092a864886f70d01010b0500"))
# A prime of 656 bits that is one more than a multiple of a large power of two: a square root takes
# long there.
SLOW_PRIME = 1401 * 2**645 + 1
FIELD_OCTETS = (SLOW_PRIME.bit_length() + 7) // 8
# A prime of 256 bits, which a DSA key needs for its second number.
ORDER = 2**256 - 2**224 + 2**192 + 2**96 - 1
LARGE_BITS = 10_000
SECT571R1 = bytes.fromhex("06052b81040027")
BINARY_GENERATOR = bytes.fromhex(
    "04"
    "0303001d34b856296c16c0d40d3cd7750a93d1d2955fa80aa5f40fc8db7b2abdbde53950f4c0d293"
    "cdd711a35b67fb1499ae60038614f1394abfa3b4c850d927e1e7769c8eec2d19"
    "037bf27342da639b6dccfffeb73d69d78c6c27a6009cbbca1980f8533921e8a684423e43bab08a57"
    "6291af8f461bb2a8b3531d2f0485c19b16e2f1516e23dd3c1a4827af1b8ac15b")
# The most bits of an RSA key, and of its exponent, that OpenSSL verifies by.
RSA_BITS, EXPONENT = 16_384, 2**64 - 1


def bits(octets):
    """A BIT STRING of whole octets."""
    return element(0x03, b"\0", octets)


def compressed(number):
    """A key on a curve of its own: field, coefficients and generator are within it, and its points
    have to be found by square roots. Different for each number."""
    root = 3 + number
    curve = element(0x30, element(0x04, bytes(FIELD_OCTETS)),
                    element(0x04, (root * root % SLOW_PRIME).to_bytes(FIELD_OCTETS, "big")))
    point = bytes([2 + root % 2]) + bytes(FIELD_OCTETS)
    parameters = element(0x30, integer(1), element(0x30, PRIME_FIELD, integer(SLOW_PRIME)), curve,
                         element(0x04, point), integer(SLOW_PRIME - 2), integer(1))
    return element(0x30, element(0x30, EC, parameters), bits(point))


def on_binary_curve():
    """A key on sect571r1, whose signatures OpenSSL verifies most slowly of the curves that are named:
    its generator (SEC 2, 3.6.2)."""
    return element(0x30, element(0x30, EC, SECT571R1), bits(BINARY_GENERATOR))


def signed_on_binary_curve(number):
    """A signature of such a key in its form, by no key. (Small numbers take as long as others.)"""
    return element(0x30, integer(1), integer(number + 1))


def large_dsa(number, size=LARGE_BITS):
    """A DSA key of so many bits, different for each number."""
    prime = 2**size - 2 * number - 1
    parameters = element(0x30, *map(integer, (prime, ORDER, prime - 2)))
    return element(0x30, element(0x30, DSA, parameters), bits(integer(prime - 3)))


def large_rsa(number):
    """An RSA key of as many bits as OpenSSL verifies by, different for each number."""
    modulus = 2**RSA_BITS - 2 * number - 1
    return element(0x30, RSA, bits(element(0x30, integer(modulus), integer(EXPONENT))))


def signed_by_rsa(number):
    """A signature of such a key in its form, a number below the modulus."""
    return (2**(RSA_BITS - 1) + number).to_bytes(RSA_BITS // 8, "big")
