"""Keys, certificates and revocation lists for the tests of ./vouch: made by openssl, or spelled here and signed by it."""
import base64
import hashlib
import os
import subprocess
import threading
from typing import NamedTuple

from dev.items import element, octets
from trials.elements import SEQUENCE, parts_of

CONFIG = """[req]
distinguished_name = name
prompt = no
x509_extensions = authority
[name]
CN = unused
[authority]
basicConstraints = critical,CA:TRUE
[ca]
default_ca = own
[own]
database = index.txt
default_md = sha256
default_crl_days = 30
"""
RSA, EC = ("-algorithm", "RSA", "-pkeyopt"), ("-algorithm", "EC", "-pkeyopt")
KEYS = {
    "rsa": (*RSA, "rsa_keygen_bits:2048"),
    "other": (*RSA, "rsa_keygen_bits:2048"),
    "rsa1024": (*RSA, "rsa_keygen_bits:1024"),
    "long-exponent": (*RSA, "rsa_keygen_bits:2048", "-pkeyopt", f"rsa_keygen_pubexp:{2**64 + 13}"),
    "full-exponent": (*RSA, "rsa_keygen_bits:2048", "-pkeyopt", f"rsa_keygen_pubexp:{2**64 - 59}"),
    "rsa-pss": ("-algorithm", "RSA-PSS", "-pkeyopt", "rsa_keygen_bits:2048"),
    "p192": (*EC, "ec_paramgen_curve:P-192"),
    "p256": (*EC, "ec_paramgen_curve:P-256"),
    "p384": (*EC, "ec_paramgen_curve:P-384"),
    "p521": (*EC, "ec_paramgen_curve:P-521"),
    "secp256k1": (*EC, "ec_paramgen_curve:secp256k1"),
    "brainpool": (*EC, "ec_paramgen_curve:brainpoolP256r1"),
    "compressed": (*EC, "ec_paramgen_curve:P-256"),
    "explicit": (*EC, "ec_paramgen_curve:P-256", "-pkeyopt", "ec_param_enc:explicit"),
    "ed25519": ("-algorithm", "ED25519"),
    "ed448": ("-algorithm", "ED448"),
}
DSA_PARAMETERS = ("-genparam", "-algorithm", "DSA", "-pkeyopt", "pbits:2048", "-pkeyopt", "qbits:256")
RSA_SHA256, ECDSA_SHA256 = octets("30(06(2a864886f70d01010b)05())"), octets("30(06(2a8648ce3d040302))")
OF_RSA = ("rsa", "other", "rsa1024", "long-exponent", "full-exponent")
DATES = octets('17("260101000000Z")17("360101000000Z")')
INTEGER, UTF8, PRINTABLE = b"\x02", b"\x0c", b"\x13"


def name(text, tag=UTF8):
    """A name of one common name."""
    return element(b"\x30", element(b"\x31", element(b"\x30", bytes.fromhex("0603550403") + element(tag, text.encode()))))


def octets_of_pem(text):
    """What the one block of a text holds."""
    return base64.b64decode(b"".join(text.partition(b"-----BEGIN ")[2].split(b"\n-----END ")[0].split(b"\n")[1:]))


def assembled(signed, algorithm, signature, unused=0):
    """An item of its signed part, its outer algorithm and its signature's bits."""
    return element(b"\x30", signed + algorithm + element(b"\x03", bytes([unused]) + signature))


def line(key, item):
    """The line that is wanted for a key element and an item."""
    return f"{hashlib.sha256(key).hexdigest()} {hashlib.sha256(item).hexdigest()}\n"


class Spelled(NamedTuple):
    """The parts of an item that trials change: elements, and the bits of its signature with the count of unused ones before them."""
    signed: bytes
    inner_algorithm: bytes
    outer_algorithm: bytes
    signature: bytes


def spelled(item):
    """The parts of an item that openssl has made."""
    signed, algorithm, signature = parts_of(parts_of(item)[0].content)
    inner = next(entry for entry in parts_of(signed.content) if entry.tag == SEQUENCE)
    return Spelled(signed.octets, inner.octets, algorithm.octets, signature.content)


class Workshop:
    """A folder where openssl makes keys, each once, and what they sign."""

    def __init__(self, room):
        self.room, self.lock, self.publics = room, threading.Lock(), {}
        self.keep("openssl.cnf", CONFIG.encode())
        self.keep("index.txt", b"")

    def keep(self, file, held):
        with open(os.path.join(self.room, file), "wb") as entry:
            entry.write(held)
        return file

    def openssl(self, *words):
        """What openssl writes on standard output; an exception where it fails."""
        ran = subprocess.run(["openssl", *words], cwd=self.room, stdin=subprocess.DEVNULL, capture_output=True)
        if ran.returncode:
            raise RuntimeError(f"openssl {' '.join(words)}: {ran.stderr.decode(errors='replace')}")
        return ran.stdout

    def key(self, kind):
        """The file of a private key."""
        file = f"{kind}.key"
        with self.lock:
            if kind not in self.publics:
                self.openssl("genpkey", *self.recipe(kind), "-out", file)
                if kind == "compressed":
                    self.keep(file, self.openssl("pkey", "-in", file, "-ec_conv_form", "compressed"))
                self.publics[kind] = self.openssl("pkey", "-in", file, "-pubout", "-outform", "DER")
        return file

    def recipe(self, kind):
        if kind != "dsa":
            return KEYS[kind]
        self.openssl("genpkey", *DSA_PARAMETERS, "-out", "dsa.parameters")
        return "-paramfile", "dsa.parameters"

    def public(self, kind):
        """A key's element, as openssl writes it."""
        self.key(kind)
        return self.publics[kind]

    def signed_by_openssl(self, title, kind, digest, options):
        """A root, a certificate that it issued, and its list, by openssl."""
        key, root = self.key(kind), f"{title}.pem"
        further = [value for option in options for value in ("-sigopt", option)]
        request = ("req", "-new", "-x509", "-config", "openssl.cnf", "-days", "30", *further, *(["-" + digest] if digest else []))
        made = self.openssl(*request, "-key", key, "-subj", f"/CN={title}")
        self.keep(root, made)
        leaf = self.openssl(*request, "-CA", root, "-CAkey", key, "-key", self.key("p256"), "-subj", f"/CN=leaf of {title}")
        of_root = ("ca", "-config", "openssl.cnf", "-gencrl", "-cert", root, "-keyfile", key)
        found = self.openssl(*of_root, *further, *(["-md", digest] if digest else []))
        return [*map(octets_of_pem, (made, leaf, found))]

    def signature(self, kind, octets_signed):
        """A signature with SHA-256."""
        file = self.keep(f"{threading.get_ident()}.signed", octets_signed)
        return self.openssl("dgst", "-sha256", "-sign", self.key(kind), file)

    def certificate(self, signer, issuer, subject, key, serial=1, outer=None, extensions=b""):
        """A certificate that is spelled here: its names, its key and its extensions are octets."""
        algorithm = RSA_SHA256 if signer in OF_RSA else ECDSA_SHA256
        signed = element(b"\x30", octets(f"a0(02(02))02({serial:02x})") + algorithm + issuer + element(b"\x30", DATES) + subject + key + extensions)
        return assembled(signed, outer or algorithm, self.signature(signer, signed))

    def list(self, signer, issuer, outer=None, extensions=b""):
        """A revocation list that is spelled here."""
        algorithm = RSA_SHA256 if signer in OF_RSA else ECDSA_SHA256
        signed = element(b"\x30", octets("02(01)") + algorithm + issuer + DATES + extensions)
        return assembled(signed, outer or algorithm, self.signature(signer, signed))

    def is_signed(self, item, public, digest, options):
        """Whether `openssl pkeyutl` verifies an item of equal algorithms by a key's element: the second opinion."""
        if item.inner_algorithm != item.outer_algorithm or item.signature[:1] != b"\0":
            return False
        files = [self.keep(f"{threading.get_ident()}.{part}", held) for part, held in
                 (("key", public), ("signed", item.signed), ("signature", item.signature[1:]))]
        words = ["openssl", "pkeyutl", "-verify", "-rawin", "-pubin", "-keyform", "DER", "-inkey", files[0], "-in", files[1], "-sigfile", files[2]]
        words += ["-digest", digest] if digest else []
        words += [value for option in options for value in ("-pkeyopt", option)]
        return subprocess.run(words, cwd=self.room, stdin=subprocess.DEVNULL, capture_output=True).returncode == 0
