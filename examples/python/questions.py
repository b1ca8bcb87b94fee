#!/usr/bin/env python3
"""Shows the certificates of a bundle, and answers by the package `cryptography` the questions that
certpath asks: which keys verify which signatures. Prints the voucher file that `certpath path` reads.

    PYTHONPATH=python python3 examples/python/questions.py BUNDLE ANCHORS > vouchers.txt

Both files are DER items one after another, as ./bundle makes them.
"""
import sys

try:
    import certpath
    from cryptography import x509
    from cryptography.exceptions import InvalidSignature, UnsupportedAlgorithm
    from cryptography.hazmat.primitives.asymmetric import ec, ed25519, padding, rsa
    from cryptography.hazmat.primitives.serialization import load_der_public_key
except ImportError as error:
    sys.exit(f"questions.py: {error}; its first lines say how it is run")

USAGE = "usage: questions.py BUNDLE ANCHORS > vouchers.txt"
LOADERS = {certpath.Kind.CERTIFICATE: x509.load_der_x509_certificate,
           certpath.Kind.LIST: x509.load_der_x509_crl}


def read_items(path):
    """The items of a file, which has nothing else."""
    try:
        with open(path, "rb") as file:
            items = certpath.frame(file.read())
    except OSError as error:
        sys.exit(f"questions.py: cannot read {path}: {error.strerror}")
    if not items.end.is_clean:
        sys.exit(f"questions.py: {path}: what begins at octet {items.end.at} is no whole item in "
                 "DER; ./bundle FILE.. > FILE.der makes such a file of PEM and others")
    return items


def show(items):
    """Prints a line for each item. Names are escaped, so that none of them is two lines."""
    for position, item in enumerate(items):
        names = {certpath.Kind.CERTIFICATE: "subject", certpath.Kind.LIST: "issuer"}
        shown = getattr(item, names[item.kind]) if item.kind in names else ""
        print(f"{position} {item.kind.name.lower()}: {shown}", file=sys.stderr)


def signed_octets(item):
    """What is signed of an item."""
    is_list = isinstance(item, x509.CertificateRevocationList)
    return item.tbs_certlist_bytes if is_list else item.tbs_certificate_bytes


def is_verified(item, key):
    """Whether a key verifies an item's signature: RSA with PKCS #1 v1.5, ECDSA, or Ed25519."""
    octets = signed_octets(item)
    try:
        if isinstance(key, rsa.RSAPublicKey):
            key.verify(item.signature, octets, padding.PKCS1v15(), item.signature_hash_algorithm)
        elif isinstance(key, ec.EllipticCurvePublicKey):
            key.verify(item.signature, octets, ec.ECDSA(item.signature_hash_algorithm))
        elif isinstance(key, ed25519.Ed25519PublicKey):
            key.verify(item.signature, octets)
        else:
            return False
    except (InvalidSignature, UnsupportedAlgorithm, TypeError):
        # (a TypeError: the algorithm of the signature has no digest, as of another kind of key)
        return False
    return True


def answer(item, key):
    """Whether a key verifies the signature of an item, by `cryptography` alone; no where it can't
    read one of them."""
    try:
        return is_verified(LOADERS[item.kind](item.public_bytes()), load_der_public_key(key))
    except (ValueError, UnsupportedAlgorithm) as error:
        print(f"not read: {certpath.names.escaped(str(error))}", file=sys.stderr)
        return False


def main(words):
    if len(words) != 2:
        sys.exit(USAGE)
    bundle, anchors = map(read_items, words)
    show(bundle)
    vouchers = certpath.Vouchers()
    for question in certpath.questions(bundle, anchors):
        item = bundle[question.item]
        key = question.key_holder(bundle, anchors).public_key_bytes
        if answer(item, key):
            vouchers.add(key, item.public_bytes())
    print(vouchers.text(), end="")


if __name__ == "__main__":
    main(sys.argv[1:])
