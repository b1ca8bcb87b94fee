"""Chains of certificates and their revocation lists for trials: `openssl ca` makes them, with names, dates, extensions and
keys by choice."""
import os
from typing import NamedTuple

from trials.vouching_pki import octets_of_pem

CONFIG = """[req]
distinguished_name = unused
prompt = no
[unused]
CN = unused
[ca]
default_ca = own
[own]
database = {title}.index
serial = {title}.serial
new_certs_dir = .
unique_subject = no
preserve = yes
policy = any
[any]
countryName = optional
organizationName = optional
commonName = optional
[extensions]
{extensions}
[user_certificates]
onlyuser = TRUE
[odd_names]
DNS.1 = a.test\\, www.example.test
DNS.2 = b.test\\nat 0 to 1 linked
DNS.3 = c\\\\.test
"""
BEGIN, END = "20250101000000Z", "20350101000000Z"
AUTHORITY, NO_AUTHORITY = "basicConstraints=critical,CA:TRUE", "basicConstraints=critical,CA:FALSE"
SIGNER, NO_SIGNER = "keyUsage=critical,keyCertSign,cRLSign", "keyUsage=critical,digitalSignature"
OWN_ID, ISSUER_ID = "subjectKeyIdentifier=hash", "authorityKeyIdentifier=keyid"
# The extensions of a root, of a certificate between, and of a leaf, in the order that they have there.
OF_ROOT = (AUTHORITY, SIGNER, OWN_ID)
OF_AUTHORITY = (AUTHORITY, SIGNER, OWN_ID, ISSUER_ID)
OF_LEAF = (NO_AUTHORITY, NO_SIGNER, OWN_ID, ISSUER_ID)


class Made(NamedTuple):
    """A certificate or a list: its PEM file in the workshop, its octets, and of a certificate subject and kind of key."""
    file: str
    octets: bytes
    subject: str = None
    key: str = None


class Chain:
    """Certificates and lists, each with a file of its own title."""

    def __init__(self, shop, title):
        self.shop, self.title, self.serial = shop, title, 0

    def certificate(self, subject, key, issuer=None, extensions=OF_LEAF, begin=BEGIN, end=END, digest="sha256", mask="utf8only", signed=()):
        """A certificate with this subject (`/CN=..`) and kind of key, by an issuer or by its own key; serial numbers count from 1.

        `mask` says which string type a name has, and `signed` has further words for `openssl ca`, as options of signatures."""
        self.serial += 1
        title = f"{self.title}-{self.serial}"
        self.prepare(title, extensions, f"string_mask = {mask}\n")
        words = ("-config", f"{title}.cnf")
        self.shop.openssl("req", "-new", "-utf8", *words, "-key", self.shop.key(key), "-subj", subject, "-out", f"{title}.csr")
        by = ("-cert", issuer.file, "-keyfile", self.shop.key(issuer.key)) if issuer else ("-selfsign", "-keyfile", self.shop.key(key))
        dates = ("-startdate", begin, "-enddate", end, *(("-md", digest) if digest else ("-md", "null")))
        self.shop.openssl("ca", "-batch", "-notext", *words, *by, *dates, *signed, "-extensions", "extensions", "-in", f"{title}.csr", "-out", f"{title}.pem")
        return Made(f"{title}.pem", self.read(f"{title}.pem"), subject, key)

    def list(self, issuer, serials=(), update="20260101000000Z", next_update="20270101000000Z", extensions=(ISSUER_ID,), digest="sha256"):
        """A revocation list of an issuer that revokes the certificates of these serial numbers."""
        self.serial += 1
        title = f"{self.title}-{self.serial}"
        self.prepare(title, extensions)
        rows = "".join(f"R\t350101000000Z\t260101000000Z\t{serial:02x}\tunknown\t/CN=revoked\n" for serial in serials)
        self.shop.keep(f"{title}.index", rows.encode())
        words = ("-config", f"{title}.cnf", "-cert", issuer.file, "-keyfile", self.shop.key(issuer.key), "-md", digest or "null")
        self.shop.openssl("ca", "-gencrl", *words, "-crl_lastupdate", update, "-crl_nextupdate", next_update, "-crlexts", "extensions", "-out", f"{title}.pem")
        return Made(f"{title}.pem", self.read(f"{title}.pem"))

    def prepare(self, title, extensions, of_request=""):
        """Keeps the files that openssl reads beside its words."""
        config = CONFIG.format(title=title, extensions="\n".join(extensions)).replace("[req]\n", f"[req]\n{of_request}")
        self.shop.keep(f"{title}.cnf", config.encode())
        self.shop.keep(f"{title}.serial", b"%02x\n" % self.serial)
        self.shop.keep(f"{title}.index", b"")

    def read(self, file):
        with open(os.path.join(self.shop.room, file), "rb") as entry:
            return octets_of_pem(entry.read())
