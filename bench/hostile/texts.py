"""Families of voucher files, of streams for `frame`, and of PEM and DER files for ./bundle."""
import base64

from family import Files, family, of_octets
from kinds import LEFT_OUT
from one_item import deep
from parts import certificate, drawn, drawn_lines, element, key, name, voucher

X, KEY = name("x"), key(1)
ITEM, LEAF = certificate(X, X, KEY), certificate(name("leaf"), X, key(2))
LINES = {"unit": "lines", "sizes": (125_000, 250_000, 500_000, 1_000_000), "small": (40_000, 160_000)}


def with_lines(lines):
    """One leaf below an anchor, its line, and others."""
    return Files([LEAF], [ITEM], [voucher(KEY, LEAF), *lines], "path 0 anchor 0")


@family("vouchers-equal", "a voucher file of n equal lines", **LINES)
def vouchers_equal(count):
    return with_lines([voucher(KEY, LEAF)] * count)


@family("vouchers-unsorted", "a voucher file of n different lines, in no order", **LINES)
def vouchers_unsorted(count):
    return with_lines(drawn_lines("lines", count))


@family("vouchers-sorted", "a voucher file of n different lines, in ascending order", **LINES)
def vouchers_sorted(count):
    return with_lines(sorted(drawn_lines("lines", count)))


@family("vouchers-descending", "a voucher file of n different lines, in descending order", **LINES)
def vouchers_descending(count):
    return with_lines(sorted(drawn_lines("lines", count), reverse=True))


@family("vouchers-one-item", "a voucher file of n lines of one item and unknown keys", **LINES)
def vouchers_one_item(count):
    end = voucher(KEY, LEAF)[64:]
    return with_lines(line[:64] + end for line in drawn_lines("lines", count))


@family("vouchers-one-key", "a voucher file of n lines of one key and unknown items", **LINES)
def vouchers_one_key(count):
    begin = voucher(KEY, LEAF)[:64]
    return with_lines(begin + line[64:] for line in drawn_lines("lines", count))


@family("vouchers-two", "a voucher file of n lines, two unknown keys for each item", **LINES)
def vouchers_two(count):
    items = [line[64:] for line in drawn_lines("items", count // 2)]
    return with_lines(line[:64] + items[it // 2] for it, line in enumerate(drawn_lines("keys", 2 * len(items))))


@of_octets("vouchers-empty", "a voucher file of empty lines")
def vouchers_empty(size):
    return with_lines([b"\n" * size])


@of_octets("vouchers-bad", "a voucher file whose last line, the only long one, is no line", statuses=(5,))
def vouchers_bad(size):
    return with_lines([b"0" * size])._replace(answer=None)


@of_octets("frame-items", "copies of one certificate", "frame")
def frame_items(size):
    return [ITEM * (size // len(ITEM))]


@of_octets("frame-2", "items of two octets", "frame")
def frame_2(size):
    return [b"\x30\x00" * (size // 2)]


@of_octets("frame-large", "items of 1 MB", "frame")
def frame_large(size):
    return [element(0x30, bytes(1_000_000 - 5))] * max(1, size // 1_000_000)


@of_octets("frame-cut", "an item that is cut", "frame", sizes=(2_000_000, 4_000_000, 8_000_000, 16_000_000))
def frame_cut(size):
    return [element(0x30, bytes(size))[:-1]]


@of_octets("frame-fault", "octets that look random: a fault at 0", "frame")
def frame_fault(size):
    return [drawn("fault", size)]


@of_octets("frame-deep", "SEQUENCEs one within the other", "frame", sizes=(2_000_000, 4_000_000, 8_000_000, 16_000_000))
def frame_deep(size):
    return [deep(size)]


def pem(octets, label="CERTIFICATE"):
    digits = base64.b64encode(octets)
    lines = b"".join(digits[at:at + 64] + b"\n" for at in range(0, len(digits), 64))
    return f"-----BEGIN {label}-----\n".encode() + lines + f"-----END {label}-----\n".encode()


@of_octets("bundle-pem", "PEM blocks of small certificates", "bundle")
def bundle_pem(size):
    return [pem(ITEM)] * (size // len(pem(ITEM)))


@of_octets("bundle-der", "small certificates in DER", "bundle")
def bundle_der(size):
    return [ITEM] * (size // len(ITEM))


@of_octets("bundle-broken", "PEM blocks that are no certificates", "bundle")
def bundle_broken(size):
    block = pem(b"\x30\x00")
    return [block] * (size // len(block))


@of_octets("bundle-begins", "lines that begin a PEM block, and none that ends it", "bundle")
def bundle_begins(size):
    line = b"-----BEGIN CERTIFICATE-----\n"
    return [line] * (size // len(line))


@of_octets("bundle-lines", "a PEM block in lines of two octets", "bundle")
def bundle_lines(size):
    digits = base64.b64encode(element(0x30, bytes(size // 2 - 100)))
    lines = b"".join(digits[at:at + 2] + b"\n" for at in range(0, len(digits), 2))
    return [b"-----BEGIN CERTIFICATE-----\n", lines, b"-----END CERTIFICATE-----\n"]


@of_octets("bundle-empty-lines", "a PEM file of empty lines", "bundle")
def bundle_empty_lines(size):
    return [pem(ITEM), b"\n" * size]


@of_octets("bundle-dashes", "a PEM file with a line of dashes alone", "bundle")
def bundle_dashes(size):
    return [pem(ITEM), b"-----BEGIN ", b"-" * size, b"x\n"]


@of_octets("bundle-blanks", "a PEM file with lines of blanks around dashes", "bundle")
def bundle_blanks(size):
    return [pem(ITEM), b"-----BEGIN x", (b"-----" + b" " * 1000) * (size // 2010), b"x\n", b" " * (size // 2)]


@of_octets("bundle-parts", "an item whose signed part is NULLs alone", "bundle", sizes=(2_000_000, 4_000_000, 8_000_000, 16_000_000))
def bundle_parts(size):
    return [element(0x30, element(0x30, b"\x05\x00" * (size // 2 - 20)), b"\x30\x00\x03\x00")]


@of_octets("bundle-block", "a PEM block that is no item", "bundle")
def bundle_block(size):
    return [pem(element(0x30, bytes(size * 3 // 4)))]


@of_octets("bundle-high", "a PEM block whose tag has the high form and doesn't end", "bundle")
def bundle_high(size):
    return [pem(b"\x3f" + b"\x80" * (size * 3 // 4))]


@of_octets("bundle-2", "items of two octets, each left out", "bundle", known=LEFT_OUT)
def bundle_2(size):
    return [b"\x30\x00" * (size // 2)]


@of_octets("bundle-random", "octets that look random behind a certificate", "bundle")
def bundle_random(size):
    return [ITEM, drawn("random", size)]
