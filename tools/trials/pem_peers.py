#!/usr/bin/env python3
"""Gives odd PEM and DER files to ./bundle and, where they are installed, to `openssl storeutl`,
Python's `ssl`, the package `cryptography` and Go's `pem.Decode`. Each file is a row of
tools/trials/pem_peers.txt, under its title: how many items each of them takes, and how many things
`bundle` reports as left out.

    python3 tools/trials/pem_peers.py            compares with the table
    python3 tools/trials/pem_peers.py --write    writes the table; what isn't installed keeps its column
"""
import base64
import os
import re
import shutil
import ssl
import subprocess
import sys
import tempfile

sys.dont_write_bytecode = True
sys.path.insert(0, os.path.dirname(os.path.dirname(os.path.abspath(__file__))))
from program import repo
from trials.bundling import KEY, LEAF, LIST, LONG, REQUEST, ROOT, pem

try:
    from cryptography import x509
except ImportError:
    x509 = None

TABLE = "tools/trials/pem_peers.txt"
TITLES = ("file", "storeutl", "ssl", "cryptography", "Go", "bundle", "left out")
# Between two columns, and so none within a title.
GAP = "  "
GO = shutil.which("go")
ERROR, ABSENT = "-", None
MARK = b"\xef\xbb\xbf"
COUNTER = """package main

import (
\t"encoding/pem"
\t"fmt"
\t"io"
\t"os"
)

func main() {
\trest, err := io.ReadAll(os.Stdin)
\tif err != nil {
\t\tos.Exit(1)
\t}
\tcount := 0
\tfor {
\t\tvar block *pem.Block
\t\tblock, rest = pem.Decode(rest)
\t\tif block == nil {
\t\t\tbreak
\t\t}
\t\tif block.Type == "CERTIFICATE" || block.Type == "X509 CRL" {
\t\t\tcount++
\t\t}
\t}
\tfmt.Println(count)
}
"""


def block(lines, label=b"CERTIFICATE"):
    """A block whose lines are these."""
    return b"-----BEGIN %s-----\n%s\n-----END %s-----\n" % (label, b"\n".join(lines), label)


def wrapped(symbols, width):
    return [symbols[at:at + width] for at in range(0, len(symbols), width)]


def header(tag, content):
    """An element of DER with this content."""
    size = len(content)
    digits = size.to_bytes((size.bit_length() + 7) // 8, "big")
    length = bytes([size]) if size < 128 else bytes([0x80 + len(digits)]) + digits
    return bytes([tag]) + length + content


def signed_data(certificates, lists):
    """SignedData without signers (RFC 5652, 5.1)."""
    version, digests, signers = b"\x02\x01\x01", b"\x31\x00", b"\x31\x00"
    plain = bytes.fromhex("300b06092a864886f70d010701")
    sets = header(0xA0, certificates) + header(0xA1, lists)
    inner = version + digests + plain + sets + signers
    return header(0x30, bytes.fromhex("06092a864886f70d010702") + header(0xA0, header(0x30, inner)))


ONE, TWO, SEVEN = pem(LEAF), pem(ROOT), signed_data(LEAF + ROOT, LIST)
SYMBOLS = base64.b64encode(LEAF)
# (a body of five octets, so that its padding is known)
SHORT = b"MAMCAQU="
INDEFINITE = b"\x30\x80" + SEVEN[4:] + b"\0\0"
OPENED = ONE.split(b"-----END")[0]
FILES = {
    "a certificate": ONE,
    "two certificates": ONE + TWO,
    "a certificate and a list": ONE + pem(LIST, "X509 CRL"),
    "lines that end with CR LF": pem(LEAF, end=b"\r\n"),
    "lines that end with CR alone": pem(LEAF, end=b"\r"),
    "no newline at the end": ONE.rstrip(),
    "text around the blocks": b"subject=someone\n" + ONE + b"\n# the next\n" + TWO,
    "a byte order mark": MARK + ONE,
    "UTF-16": ONE.decode().encode("utf-16"),
    "UTF-16 without a mark": ONE.decode().encode("utf-16-le"),
    "the label X509 CERTIFICATE": pem(LEAF, "X509 CERTIFICATE"),
    "the label X.509 CERTIFICATE": pem(LEAF, "X.509 CERTIFICATE"),
    "the label TRUSTED CERTIFICATE": pem(LEAF + b"\x30\x00", "TRUSTED CERTIFICATE"),
    "the label in small letters": ONE.replace(b"CERTIFICATE", b"certificate"),
    "an empty label": pem(LEAF, ""),
    "an unknown label": pem(LEAF, "SECRET") + TWO,
    "a label of 65 octets": pem(LEAF, "A" * 65) + TWO,
    "PKCS #7": pem(SEVEN, "PKCS7"),
    "the label CMS": pem(SEVEN, "CMS"),
    "PKCS #7 in BER": pem(INDEFINITE, "PKCS7"),
    "PKCS #7 under the label CERTIFICATE": pem(SEVEN),
    "PKCS #7 without certificates": pem(signed_data(b"", b""), "PKCS7"),
    "a key before a certificate": pem(KEY, "PRIVATE KEY") + ONE,
    "a key as a certificate": pem(KEY) + TWO,
    "a request": pem(REQUEST, "CERTIFICATE REQUEST") + ONE,
    "blanks around the boundaries":
        ONE.replace(b"-----BEGIN", b"  -----BEGIN").replace(b"E-----\n", b"E----- \t\n"),
    "blanks at the ends of lines": ONE.replace(b"\n", b" \n"),
    "empty lines within": ONE.replace(b"\n", b"\n\n"),
    "base64 in one line": block([SYMBOLS]),
    "lines of 76": block(wrapped(SYMBOLS, 76)),
    "lines of 5": block(wrapped(SYMBOLS, 5)),
    "header lines": ONE.replace(b"-----\n", b"-----\nSubject: leaf\n\n", 1),
    "header lines without an empty one": ONE.replace(b"-----\n", b"-----\nSubject: leaf\n", 1),
    "no END": OPENED,
    "no END before the next BEGIN": OPENED + TWO,
    "an END of another label": ONE.replace(b"END C", b"END X509 C") + TWO,
    "an END alone": b"-----END CERTIFICATE-----\n" + ONE,
    "blanks for newlines": ONE.replace(b"\n", b" ") + b"\n" + TWO,
    "a BEGIN within a line": b"see -----BEGIN CERTIFICATE-----\n" + TWO,
    "six hyphens": ONE.replace(b"-----", b"------") + TWO,
    "quoted lines": b"".join(b"> " + entry + b"\n" for entry in ONE.split(b"\n")) + TWO,
    "an octet that is no base64": ONE.replace(b"MII", b"M*I", 1) + TWO,
    "no padding": ONE.replace(b"=", b""),
    "padding too much": block([SYMBOLS.rstrip(b"=") + b"===="]),
    "a block without octets": block([b""]) + TWO,
    "bits left over": block([SHORT.replace(b"U=", b"V=")]) + TWO,
    "an octet after the certificate": pem(LEAF + b"\0"),
    "a certificate that is cut": pem(LEAF[:-1]) + TWO,
    "a length of one octet too many": pem(LONG) + TWO,
    "DER": LEAF,
    "DER, two certificates": LEAF + ROOT,
    "DER, then a newline": LEAF + b"\n",
    "DER of a list": LIST,
    "DER of PKCS #7": SEVEN,
    "DER of a key": KEY,
    "no octet": b"",
    "text alone": b"nothing here\n",
    "NULs before a block": b"\0\0\n" + ONE,
}


def of_openssl(path, _):
    """How many certificates and lists `openssl storeutl` shows."""
    ran = subprocess.run(["openssl", "storeutl", "-noout", path], stdin=subprocess.DEVNULL,
                         capture_output=True)
    count = len(re.findall(rb"^\d+: (?:Certificate|CRL)$", ran.stdout, re.M))
    return ERROR if ran.returncode and not count else str(count)


def of_ssl(_, octets):
    """Whether `ssl.PEM_cert_to_DER_cert` takes the text as a certificate."""
    try:
        ssl.PEM_cert_to_DER_cert(octets.decode("latin-1"))
    except ValueError:
        return ERROR
    return "1"


def of_cryptography(_, octets):
    """How many certificates `cryptography` reads."""
    if x509 is None:
        return ABSENT
    try:
        return str(len(x509.load_pem_x509_certificates(octets)))
    except ValueError:
        return ERROR


class Go:
    """A program that counts the blocks of certificates and lists by `encoding/pem`."""

    def __init__(self, room):
        self.program = os.path.join(room, "count") if GO else None
        if GO:
            source = os.path.join(room, "count.go")
            with open(source, "w") as file:
                file.write(COUNTER)
            cache = {"GOCACHE": os.path.join(room, "cache"), "GO111MODULE": "off"}
            environment = {**os.environ, **cache}
            subprocess.run([GO, "build", "-o", self.program, source], check=True, env=environment,
                           stdin=subprocess.DEVNULL)

    def __call__(self, _, octets):
        if self.program is None:
            return ABSENT
        ran = subprocess.run([self.program], input=octets, capture_output=True, check=True)
        return ran.stdout.decode().strip()


def of_bundle(path, _):
    """How many items ./bundle takes, and how many things it leaves out."""
    ran = subprocess.run([os.path.join(repo.TOP, "bundle"), path], stdin=subprocess.DEVNULL,
                         capture_output=True)
    last = ran.stderr.decode().splitlines()[-1]
    return re.fullmatch(r"bundle: (\d+) items? \(.*\), (\d+) left out", last).groups()


def rows():
    """What each of them answers, by the titles of the files."""
    with tempfile.TemporaryDirectory(prefix="pem-peers-") as room:
        asked = (of_openssl, of_ssl, of_cryptography, Go(room), of_bundle)
        for title, octets in FILES.items():
            path = os.path.join(room, "file")
            with open(path, "wb") as file:
                file.write(octets)
            *others, (taken, left) = [reader(path, octets) for reader in asked]
            yield title, [*others, taken, left]


def table():
    """The rows of the table, by their titles."""
    found = [re.split(rf"{GAP}+", line.strip()) for line in repo.read(TABLE).splitlines()]
    return {title: cells for title, *cells in found[1:]}


def made():
    """The lines of the table."""
    said = table()
    lines = [TITLES]
    for title, found in rows():
        old = said.get(title, ["?"] * len(found))
        lines.append((title, *(two if one is ABSENT else one for one, two in zip(found, old))))
    widths = [max(map(len, column)) for column in zip(*lines)]
    for line in lines:
        yield GAP.join(cell.ljust(width) for cell, width in zip(line, widths)).rstrip()


def write():
    """Writes the table."""
    lines = [*made()]
    with open(os.path.join(repo.TOP, TABLE), "w", encoding="utf-8") as file:
        file.writelines(f"{line}\n" for line in lines)


def faults():
    """A line for each row that answers otherwise than the table says."""
    said = table()
    for title, found in rows():
        wanted = said.pop(title, None)
        pairs = zip(found, wanted or ())
        if wanted is None or any(one is not ABSENT and one != two for one, two in pairs):
            yield f"{TABLE}: {title}: {found}, and the table has {wanted}"
    for title in said:
        yield f"{TABLE}: {title} is tried by no trial"


def main(words):
    if words == ["--write"]:
        write()
        return 0
    found = [*faults()]
    for line in found:
        print(line)
    print(f"pem_peers: {len(FILES)} files, {len(found)} otherwise than the table says")
    return 1 if found else 0


if __name__ == "__main__":
    sys.exit(main(sys.argv[1:]))
