"""Families of one large item, the target: many extensions, attributes or entries, long identifiers, and deep nesting."""
from family import UNLIMITED, Files, family, of_octets
from kinds import ELEMENTS, ITEMS
from parts import (ALGORITHM, VALIDITY, VERSION_3, assembled, certificate, drawn, element, entry, extension, integer, key, name,
                   revocation_list, voucher)

KEY, X = key(1), name("x")
ANCHOR = certificate(X, X, KEY)
# What stands around the parts of a size, about.
FRAME = 200
# An item has at most so many content octets if no limit is given.
MOST = 16_777_216


def identifier(number):
    """The content of an OBJECT IDENTIFIER that is different for each number below 2 to the power of 28."""
    return bytes([0x2A, 0x81] + [0x80 | number >> bits & 0x7F for bits in (21, 14, 7)] + [number & 0x7F])


def target(item, *further):
    """The files of an item that the anchor's key vouches for, alone or with further ones after it."""
    return Files([item, *further], [ANCHOR], [voucher(KEY, item)], "path 0 anchor 0")


def with_extensions(extensions, subject=X):
    return assembled(element(0x30, VERSION_3, integer(1), ALGORITHM, X, VALIDITY, subject, KEY, element(0xA3, element(0x30, *extensions))))


def with_subject(*sets):
    return assembled(element(0x30, integer(1), ALGORITHM, X, VALIDITY, element(0x30, *sets), KEY))


MANY = {"sizes": (125_000, 250_000, 500_000, 1_000_000), "small": (40_000, 160_000), "unit": "parts"}
LONG = {"sizes": (2, 4, 8, 16), "small": (1, 4), "unit": "identifiers"}
ONE_ITEM = tuple(MOST * it // 8 for it in (1, 2, 4, 8))


@family("extensions", "one certificate with n extensions, all different", **MANY, known=ELEMENTS)
def extensions_different(count):
    return target(with_extensions(extension(identifier(it), b"") for it in range(count)))


@family("extensions-equal", "one certificate with n extensions, all equal", **MANY, known=ELEMENTS)
def extensions_equal(count):
    return target(with_extensions([extension(identifier(1), b"")] * count))._replace(answer="none")


def attribute(number):
    """An attribute with a text of four letters, which ascend with the number; up to 2 to the power of 20 are different."""
    letters = bytes(0x41 + (number >> bits & 0x1F) for bits in (15, 10, 5, 0))
    return element(0x30, bytes.fromhex("0603550403"), element(0x0C, letters))


@family("attributes", "one certificate with n attributes in one set of its subject", **MANY)
def attributes(count):
    return target(with_subject(element(0x31, *map(attribute, range(count)))))


@family("attribute-sets", "one certificate with n sets of one attribute in its subject", **MANY)
def attribute_sets(count):
    return target(with_subject(*(element(0x31, attribute(it)) for it in range(count))))


def long_identifier(size, last=1):
    """The content of an OBJECT IDENTIFIER of so many octets."""
    return b"\x2a" + b"\x03" * (size - 2) + bytes([last])


@family("identifiers", "one certificate with n extensions whose identifiers have 1 MB each and differ in their last octet", **LONG)
def identifiers(count):
    size = min(1_000_000, (MOST - FRAME) // count - FRAME)
    return target(with_extensions(extension(long_identifier(size, it), b"") for it in range(count)))


@family("components", "one certificate with n extensions whose identifiers are one number of 1 MB each", **LONG)
def components(count):
    size = min(1_000_000, (MOST - FRAME) // count - FRAME)
    return target(with_extensions(extension(b"\x2a" + b"\xff" * (size - 2) + bytes([it]), b"") for it in range(count)))


@family("identifiers-alike", "one certificate with n/512 extensions whose identifiers share their first 500 octets",
        **{**MANY, "small": (50_000, 200_000)})
def identifiers_alike(count):
    front = long_identifier(500)
    return target(with_extensions(extension(front + identifier(it)[1:], b"") for it in range(count // 512)))


@family("entries", "one list with n entries", **MANY, words=UNLIMITED)
def entries(count):
    found = revocation_list(X, b"".join(entry(integer(it)) for it in range(count)))
    leaf = certificate(name("leaf"), X, KEY, 2**40)
    return Files([leaf, found], [ANCHOR], [voucher(KEY, leaf), voucher(KEY, found)], "path 0 anchor 0")


@family("entries-equal", "one list with n equal entries", **MANY, words=UNLIMITED)
def entries_equal(count):
    found = revocation_list(X, entry(integer(7)) * count)
    leaf = certificate(name("leaf"), X, KEY, 2**40)
    return Files([leaf, found], [ANCHOR], [voucher(KEY, leaf), voucher(KEY, found)], "path 0 anchor 0")


@family("entries-reasons", "one list with n entries, each with a reason", **MANY, words=UNLIMITED)
def entries_reasons(count):
    reason = element(0x30, extension(b"\x55\x1d\x15", b"\x0a\x01\x04"))
    found = revocation_list(X, b"".join(entry(integer(it), reason) for it in range(count)), version=b"\x02\x01\x01")
    leaf = certificate(name("leaf"), X, KEY, 2**40)
    return Files([leaf, found], [ANCHOR], [voucher(KEY, leaf), voucher(KEY, found)], "path 0 anchor 0")


@of_octets("serial", "certificates with a serial number of 1 MB each")
def serial(size):
    items = [certificate(name(f"n{it}"), X, KEY, 1 << 8 * min(size, 1_000_000) - 300 * 8) for it in range(max(1, size // 1_000_000))]
    return Files(items, [ANCHOR], [voucher(KEY, it) for it in items], "path 0 anchor 0")


def nested(levels, inner=b"\x05\x00"):
    """An element of so many SEQUENCEs, one within the other."""
    for _ in range(levels):
        inner = element(0x30, inner)
    return inner


def with_value(value):
    """A certificate whose subject has an attribute of one value."""
    return with_subject(element(0x31, element(0x30, bytes.fromhex("06022a03"), value)))


@of_octets("nested-50", "certificates that are nested to 50 levels, wherever an element may stand")
def nested_50(size):
    # the value is at the sixth level
    value = nested(43, nested(1) * 1000)
    item = with_value(value)
    return Files([item] * max(1, size // len(item)), [ANCHOR], [voucher(KEY, item)], "path 0 anchor 0")


@of_octets("nested-51", "items like certificates that are nested to 51 levels", other=None)
def nested_51(size):
    item = with_value(nested(44, nested(1) * 1000))
    return Files([item] * max(1, size // len(item)), [ANCHOR], [voucher(KEY, item)], "no target")


def deep(size):
    """SEQUENCEs of about so many octets, one within the other."""
    headers, length = [], 0
    while length < size:
        header = element(0x30, b"") if length == 0 else header_of(length)
        headers.append(header)
        length += len(header)
    return b"".join(reversed(headers))


def header_of(length):
    if length < 0x80:
        return bytes([0x30, length])
    digits = length.to_bytes((length.bit_length() + 7) // 8, "big")
    return bytes([0x30, 0x80 | len(digits)]) + digits


@of_octets("nested-deep", "an item of a SEQUENCE in a SEQUENCE and so on, to its end", other=None, sizes=ONE_ITEM)
def nested_deep(size):
    return Files([deep(size - FRAME)], [ANCHOR], [], "no target")


@of_octets("nested-value", "a certificate whose extension's value is a SEQUENCE in a SEQUENCE and so on", sizes=ONE_ITEM)
def nested_value(size):
    return target(with_extensions([extension(b"\x2a\x03", deep(size - 2 * FRAME))]))


@of_octets("parts", "an item of NULLs alone", other=None, sizes=ONE_ITEM, known=ELEMENTS)
def parts(size):
    return Files([element(0x30, b"\x05\x00" * ((size - FRAME) // 2))], [ANCHOR], [], "no target")


@of_octets("parts-33", "an item of SEQUENCEs of 33 NULLs each, one more than a vector of 32 holds", other=None, sizes=ONE_ITEM)
def parts_33(size):
    return Files([sequences_of_33(size)], [ANCHOR], [], "no target")


def sequences_of_33(size):
    """An item of SEQUENCEs of 33 NULLs each, of at most so many octets."""
    one = element(0x30, b"\x05\x00" * 33)
    return element(0x30, one * ((size - FRAME) // len(one)))


@of_octets("parts-within", "a certificate with NULLs alone in an attribute's value", sizes=ONE_ITEM)
def parts_within(size):
    return target(with_value(element(0x30, b"\x05\x00" * ((size - 2 * FRAME) // 2))))


@of_octets("items-2", "items of two octets", other=None, known=ITEMS)
def items_2(size):
    return Files([b"\x30\x00" * (size // 2)], [ANCHOR], [], "no target")


@of_octets("random", "octets that look random behind a certificate", other=None)
def random(size):
    return target(ANCHOR, drawn("random", size))
