"""A look that no script reads PEM, base64 or DER: the proved library reads octets of files."""
import ast
import re

from gate import source_checks
from program import repo

# Where scripts make input and look at what comes out.
MAKERS = ("tools/trials/", "python/tests/", "bench/")
# Scripts that may, and why.
THIS = "tools/gate/readers.py"
ALLOWED = {
    THIS: "this page",
    "examples/python/questions.py": "verifies by the module cryptography, which reads DER",
    "tools/dev/items.py": "writes the items of rows, of what their comments spell",
    "python/certpath/algorithms.py": "knows by identifiers which keys OpenSSL isn't shown",
    "python/certpath/pem.py": "writes a block of PEM, and reads none",
    "python/certpath/inventory/logs.py": "decodes JSON of a transparency log (RFC 6962, 4.6)",
    "python/certpath/inventory/trees.py": "decodes a root's hash in JSON of a log (RFC 6962, 4.3)",
}
# Tags of DER, as a bytes literal, a number or hex digits begins with them: those of a SEQUENCE, a
# SET, INTEGER, strings of bits and octets, OBJECT IDENTIFIER, the times, and [0] to [3].
TAGS = {0x30, 0x31, 0x02, 0x03, 0x04, 0x06, 0x17, 0x18, 0xA0, 0xA1, 0xA2, 0xA3}
ESCAPED = re.compile(r"""[bBrR]+['"]+\\x([0-9a-fA-F]{2})""", re.ASCII)
HEX_NUMBER = re.compile(r"0[xX]")
# What an octet has that says in how many octets a length follows (X.690, 8.1.3.5).
LONG_FORM = 0x80
HEX_DIGITS = re.compile(r"[0-9a-fA-F]{2} ?(?:[0-9a-fA-F]{2} ?)*", re.ASCII)
BOUNDARY = re.compile(r"-----(?:BEGIN|END)\b|\bBEGIN (?:CERTIFICATE|X509|PKCS7|CMS)\b")
# Names that decode base64, and that read PEM or DER by a module or by OpenSSL's library.
DECODERS = re.compile(r"(?:standard_|urlsafe_)?b64decode|decodebytes|a2b_base64|PEM_read_\w+"
                      r"|PEM_cert_to_DER_cert|d2i_PKCS\w+|load_(?:pem|der)_\w+|asn1crypto|pyasn1")
# Words of openssl by which a file of PEM or DER would be read, and of a codec.
WORDS = {"pkcs7", "cms", "asn1parse", "crl2pkcs7", "storeutl", "base64"}
# What a script of the shell reads such files by.
OF_SHELL = re.compile(r"-----BEGIN|\bbase64 +(?:-d|-D|--decode)"
                      r"|\bopenssl +(?:asn1parse|pkcs7|cms|enc)\b")
# Lines that are refused, by which the look itself is tried, and lines that aren't.
PLANTED = ('if b"-----BEGIN" in octets: pass', 'begin = "-----BEGIN CERTIFICATE-----"',
           'text.partition(f"-----END {label}-----")', "import base64; base64.b64decode(text)",
           "from base64 import b64decode", "import binascii; binascii.a2b_base64(text)",
           'codecs.decode(text, "base64")', "ssl.PEM_cert_to_DER_cert(text)",
           "if octets[0] == 0x30: pass", "SEQUENCE, INTEGER = 0x30, 0x02",
           r'octets.startswith(b"\x30\x82")', r'HEADER = re.compile(rb"\x30[\x80-\x84]")',
           'SIGNED_DATA = bytes.fromhex("06092a864886f70d010702")', "if tag == 0xa0: pass",
           'run(["openssl", "pkcs7", "-print_certs"], octets)', r'octets.startswith(b"0\x82")',
           "x509.load_pem_x509_certificates(octets)", "library.PEM_read_bio_X509(bio)")
HARMLESS = ('print("-----")', "base64.b64encode(octets)", "number = 0x1F & 0x7F",
            r'GZIP = b"\x1f\x8b"', 'bytes.fromhex(digits)', 'bytes.fromhex("ff00")',
            'run(["openssl", "pkcs12", "-nokeys"], octets)', 'DER, PEM = "DER", "PEM"',
            r'CLEAR = "\r\x1b[K"', 'opened.execute("BEGIN")', 'b"0 of 1"')


def of_docs(tree):
    """The nodes of a script that are texts about it."""
    return {id(entry.value) for entry in ast.walk(tree) if isinstance(entry, ast.Expr)}


def begins_with_tag(node, source):
    """Whether a literal begins with a tag of DER, as it is written."""
    written, value = ast.get_source_segment(source, node) or "", node.value
    if isinstance(value, bytes):
        found = ESCAPED.match(written)
        is_long = len(value) > 1 and value[0] in TAGS and value[1] >= LONG_FORM
        return is_long or bool(found) and int(found[1], 16) in TAGS
    return bool(HEX_NUMBER.match(written)) and value in TAGS


def is_hex_of_der(node):
    """Whether a call makes octets of hex digits that begin with a tag of DER."""
    is_fromhex = isinstance(node.func, ast.Attribute) and node.func.attr == "fromhex" and node.args
    text = getattr(node.args[0], "value", None) if is_fromhex else None
    if not isinstance(text, str):
        return False
    return bool(HEX_DIGITS.fullmatch(text)) and int(text[:2], 16) in TAGS and len(text) > 2


def names_in(node):
    """The names that a node of a script has."""
    if isinstance(node, (ast.Import, ast.ImportFrom)):
        yield from (name.name for name in node.names)
    elif isinstance(node, (ast.Attribute, ast.Name)):
        yield node.attr if isinstance(node, ast.Attribute) else node.id


def why_of(node, source):
    """Why a node of a script reads PEM, base64 or DER; none if it doesn't."""
    if any(map(DECODERS.fullmatch, names_in(node))):
        return "decodes base64, or reads PEM or DER"
    if isinstance(node, ast.Call) and is_hex_of_der(node):
        return "has octets of DER"
    value = getattr(node, "value", None) if isinstance(node, ast.Constant) else None
    if type(value) in (bytes, int) and begins_with_tag(node, source):
        return "has a tag of DER"
    text = value.decode("latin-1") if isinstance(value, bytes) else value
    if not isinstance(text, str):
        return None
    return "has PEM" if BOUNDARY.search(text) else "has PEM or DER read" if text in WORDS else None


def reading(text):
    """The lines of a script that read PEM, base64 or DER: number and what is amiss."""
    try:
        tree = ast.parse(text)
    except SyntaxError:
        yield from ((number, "reads PEM, base64 or DER")
                    for number, line in enumerate(text.splitlines(), 1) if OF_SHELL.search(line))
        return
    docs = of_docs(tree)
    nodes = (entry for entry in ast.walk(tree) if hasattr(entry, "lineno") and id(entry) not in docs)
    found = ((node.lineno, why_of(node, text)) for node in nodes)
    yield from sorted({entry for entry in found if entry[1]})


def files_by_library(top=repo.TOP):
    """No script reads PEM, base64 or DER but those that are allowed, with a reason, and do."""
    yield from (f"{THIS}: a script with the line {entry} isn't refused"
                for entry in PLANTED if not [*reading(entry)])
    yield from (f"{THIS}: a script with the line {entry} is refused"
                for entry in HARMLESS if [*reading(entry)])
    allowed = {*ALLOWED}
    for path in source_checks.scripts(top):
        if path.startswith(MAKERS):
            continue
        found = [*reading(repo.read(path, top))]
        if path not in ALLOWED:
            yield from (f"{path}:{number}: it {why}; files are read by certpath.load"
                        for number, why in found)
        elif found:
            allowed.discard(path)
    if top == repo.TOP:
        yield from (f"{THIS}: {entry} needs no leave" for entry in sorted(allowed))


CHECKS = (files_by_library,)
