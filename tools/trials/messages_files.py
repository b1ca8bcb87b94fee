"""The files for the trials of messages: a chain, lists, containers, damaged files, and a case for each reason."""
import base64
import os

from dev.items import element, octets
from trials import refusals
from trials.chains import AUTHORITY, ISSUER_ID, OF_AUTHORITY, OF_LEAF, OF_ROOT, OWN_ID, SIGNER, Chain
from trials.elements import parts_of
from trials.verifying_faults import damaged
from trials.verifying_large import pem
from trials.vouching_pki import DATES, ECDSA_SHA256, assembled, name

LONG = {"begin": "20200101000000Z", "end": "20490101000000Z"}
PAST, TO_COME = {"begin": "20200101000000Z", "end": "20251231235959Z"}, {"begin": "20270101000000Z", "end": "20490101000000Z"}
OLD = {"update": "20250101000000Z", "next_update": "20260201000000Z"}
POISON = "1.3.6.1.4.1.11129.2.4.3=critical,ASN1:NULL"
MANY_NAMES = "subjectAltName=" + ",".join(f"DNS:{number}.example.org" for number in range(200))
UPDATE, ENTRY = '17("260101000000Z")', '30(02(07)17("260101000000Z")30(30(06(551d15)01(ff)04(0a(01)))))'
# A program in the place of certpath: it fails, with a word and without, or its check says no.
STUBS = {"failing": "exit 9", "saying": "echo boom >&2; exit 9", "denying": "printf 'none\\ncheck no\\nat 0 #\\n'; exit 1"}


def slug(title):
    """The name of a case in the names of its files."""
    return title.replace(" ", "-").replace(",", "")


class Files:
    """Makes the files in a workshop's folder."""

    def __init__(self, shop):
        self.shop, self.made = shop, Chain(shop, "made")

    def octets(self, file):
        with open(os.path.join(self.shop.room, file), "rb") as it:
            return it.read()

    def keep(self, file, *parts):
        """A file of PEM files, or of octets."""
        self.shop.keep(file, b"".join(self.octets(it.file) if hasattr(it, "file") else it for it in parts))

    def certificate(self, file, subject, key, issuer=None, extensions=OF_LEAF, **further):
        """A certificate, in a file of that name too."""
        made = self.made.certificate(subject, key, issuer, extensions, **{**LONG, **further})
        self.keep(file, made)
        return made

    def list(self, file, issuer, serials=(), **further):
        made = self.made.list(issuer, serials, **further)
        self.keep(file, made)
        return made


def chain(files):
    """A root, what it issued, and lists."""
    root = files.certificate("root.pem", "/CN=Root", "p384", extensions=OF_ROOT)
    issuer = files.certificate("int.pem", "/CN=Between", "p256", root, OF_AUTHORITY)
    leaf = files.certificate("leaf.pem", "/CN=leaf", "p521", issuer)
    files.keep("all.pem", leaf, issuer)
    files.list("int-list.pem", issuer)
    files.list("root-list.pem", root)
    files.list("old-list.pem", issuer, [3], **OLD)
    files.list("early-list.pem", issuer, [3], update="20260701000000Z")
    files.list("big-list.pem", issuer, [*range(100, 200)])
    files.certificate("big.pem", "/CN=big", "p521", issuer, (*OF_LEAF, MANY_NAMES))
    files.certificate("poison.pem", "/CN=poison", "p521", issuer, (*OF_LEAF, POISON))
    files.certificate("small.pem", "/CN=small", "rsa1024", issuer)
    sibling = files.certificate("sibling.pem", "/CN=Between", "rsa", root, OF_AUTHORITY)
    files.list("sibling-list.pem", sibling, [3])
    spelled = files.certificate("spelled.pem", "/CN=Between", "p256", root, OF_AUTHORITY, mask="pkix")
    files.list("spelled-list.pem", spelled, [3])
    files.list("weak-list.pem", issuer, [3], digest="sha1")
    files.certificate("late.pem", "/CN=late", "p521", issuer, end="20251231235959Z")
    files.certificate("sha1-root.pem", "/CN=Old root", "rsa", extensions=OF_ROOT, digest="sha1")
    return root, issuer, leaf


def anchors(files):
    """Anchors outside their validity."""
    for title, dates in (("old", PAST), ("new", TO_COME)):
        root = files.certificate(f"{title}-root.pem", f"/CN={title}", "rsa", extensions=OF_ROOT, **dates)
        files.certificate(f"{title}-leaf.pem", "/CN=leaf", "p521", root)


def spelled(files):
    """Items that openssl's command doesn't make: extensions that stand twice or aren't DER, lists without a next update, and with a
    critical extension of an entry."""
    shop, issuer = files.shop, name("spelled")
    root = shop.certificate("p256", issuer, issuer, shop.public("p256"))
    files.keep("spelled-root.der", root)
    twice = "30(06(2a03)04())"
    extensions = {"twice.der": f"{twice}{twice}", "no-der.der": "30(06(551d13)04(30(01(01))))"}
    for file, text in extensions.items():
        of = element(b"\xa3", element(b"\x30", octets(text)))
        files.keep(file, shop.certificate("p256", issuer, name("leaf"), shop.public("p384"), 7, extensions=of))
    files.keep("plain.der", shop.certificate("p256", issuer, name("leaf"), shop.public("p384"), 7))
    for file, text in (("endless-list.der", UPDATE), ("entry-list.der", f'{UPDATE}17("270101000000Z")30({ENTRY})')):
        signed = element(b"\x30", octets("02(01)") + ECDSA_SHA256 + issuer + octets(text))
        files.keep(file, assembled(signed, ECDSA_SHA256, shop.signature("p256", signed)))


def containers(files, issuer, leaf):
    """PKCS #7, PKCS #12, keys, and what is damaged."""
    shop = files.shop
    shop.openssl("crl2pkcs7", "-nocrl", "-certfile", "all.pem", "-outform", "DER", "-out", "all.p7c")
    shop.openssl("crl2pkcs7", "-nocrl", "-certfile", "all.pem", "-out", "all.p7b")
    files.keep("cut.p7c", files.octets("all.p7c")[:-5])
    files.keep("two.p7b", files.octets("all.p7b") * 2)
    files.keep("ber.p7c", in_ber(files.octets("all.p7c")))
    files.keep("ber.p7b", block(with_inner_ber(files.octets("all.p7c")), "PKCS7"))
    files.keep("cut.p7b", files.octets("all.p7b").partition(b"-----END")[0])
    key = shop.key("p521")
    for file, password in (("open.p12", ""), ("closed.p12", "secret")):
        words = ("pkcs12", "-export", "-in", leaf.file, "-inkey", key, "-certfile", issuer.file, "-passout", f"pass:{password}")
        shop.openssl(*words, "-out", file)
    shop.openssl("pkcs12", "-export", "-nocerts", "-inkey", key, "-passout", "pass:", "-out", "keys.p12")
    files.keep("cut.p12", files.octets("open.p12")[:-5])
    files.keep("rubbish.p12", files.octets("open.p12") + b"\n")
    files.keep("key.pem", files.octets(key))
    files.keep("damaged.pem", damaged(files.octets(leaf.file)), issuer)
    files.keep("damaged-list.pem", damaged(files.octets("int-list.pem")))
    files.keep("other.pem", pem(issuer.octets.replace(b"200101000000Z", b"201301000000Z", 1)))
    files.keep("other.der", issuer.octets.replace(b"200101000000Z", b"201301000000Z", 1))
    files.keep("flat.pem", files.octets(leaf.file).replace(b"\n", b" "))
    files.keep("odd.pem", *odd_blocks(leaf.octets))
    files.keep("nothing")
    files.keep("notes", b"Remember the milk.\n")
    files.keep("dirt.pem", leaf, files.octets(key) * 3)
    files.keep("rubbish.der", leaf.octets, b"rubbish")


def in_ber(octets):
    """An element of DER with the indefinite length (X.690, 8.1.3.6)."""
    part, = parts_of(octets)
    return octets[:1] + b"\x80" + part.content + bytes(2)


def with_inner_ber(octets):
    """A ContentInfo in DER whose content has the indefinite length."""
    identifier, content = parts_of(parts_of(octets)[0].content)
    return element(b"\x30", identifier.octets + element(b"\xa0", in_ber(content.content)))


def block(octets, begin="CERTIFICATE", end=None, headers=""):
    """A PEM block, maybe with lines of headers, and an END of another label."""
    lines = base64.encodebytes(octets).decode().rstrip()
    return f"-----BEGIN {begin}-----\n{headers}{lines}\n-----END {end or begin}-----\n".encode()


def odd_blocks(leaf):
    """Blocks of a file of which none is taken whole, each for another cause."""
    cut = [bytes.fromhex(it) for it in ("30800000", "30847fffffff00", "30821000" + 9 * "78", "30810500" + 4 * "78")]
    return [b"\0 before\n", *map(block, cut), block(leaf + b"xx"), block(leaf, headers="Proc-Type: 4,ENCRYPTED\n\n"),
            b"-----END CERTIFICATE-----\n-----END FOO BAR-----\n", block(leaf, end="X509 CRL"), block(leaf, end="FOO BAR"),
            block(leaf, "FOO BAR"), block(leaf).rpartition(b"-----END")[0]]


def folders(files, issuer):
    """Folders, and programs in the places of others."""
    for folder in ("folder", "empty", "slow"):
        os.makedirs(os.path.join(files.shop.room, folder), exist_ok=True)
    files.keep("folder/int.pem", issuer)
    for file, text in (*STUBS.items(), ("slow/openssl", "while :; do :; done")):
        files.keep(file, f"#!/bin/sh\n{text}\n".encode())
        os.chmod(os.path.join(files.shop.room, file), 0o755)


def cases(files):
    """The cases of tools/trials/refusals.py: a file of the items, and one of the anchors."""
    root = Chain(files.shop, "cases").certificate("/CN=Root", "p384", extensions=OF_ROOT)
    for title, made in refusals.CASES.items():
        case = made(refusals.Maker(files.shop, title, root))
        files.keep(f"{slug(title)}.pem", *case.bundle)
        files.keep(f"{slug(title)}.roots", *case.anchors)


def vouching(files):
    """Items for ./vouch."""
    shop = files.shop
    for file in ("leaf", "int", "root", "sha1-root"):
        shop.openssl("x509", "-in", f"{file}.pem", "-outform", "DER", "-out", f"{file}.der")
    files.keep("keys.der", *(shop.certificate(kind, name("x"), name("x"), shop.public(kind)) for kind in ("p256", "rsa", "other")))
    files.keep("of-other.der", shop.certificate("other", name("x"), name("leaf"), shop.public("p256"), 7))
    files.keep("cut.der", files.octets("leaf.der")[:-1])


def make(shop):
    """Makes all files."""
    files = Files(shop)
    _, issuer, leaf = chain(files)
    for part in (anchors, spelled, cases, vouching):
        part(files)
    containers(files, issuer, leaf)
    folders(files, issuer)
