"""The hosts that a certificate names: what `certpath why` says of one that doesn't serve the host
that is asked for."""
from datetime import datetime

from .files import digest
from .program import Failed, Question, report

WHY, NO_FILE = "why", "/dev/null"
# A host that no certificate serves has the certificate's own digest in its two lowest labels.
HALF, END = 32, "invalid"
# What is said before the names, and of a certificate that has none.
NAMES, NO_NAMES = "it names ", "no host"
# Any moment will do.
MOMENT = datetime(2000, 1, 1).isoformat()


def names_of(octets: bytes, program: str) -> str:
    """The dNSNames and iPAddresses of a certificate's subjectAltName, or why it has none that can be
    used; empty where it names no host. Failed where the program doesn't answer."""
    item = digest(octets)
    host = f"{item[:HALF]}.{item[HALF:]}.{END}"
    front = f"at 0 doesn't serve {host}: "
    words = ["--at", MOMENT, "--target", "0", "--host", host]
    lines = report(program, WHY, Question(octets, NO_FILE, "", words))
    said = next((it[len(front):] for it in lines if it.startswith(front)), None)
    if said is None:
        raise Failed(f"certpath {WHY}: nothing is said of the certificate's hosts")
    names = said[len(NAMES):] if said.startswith(NAMES) else said
    return "" if names == NO_NAMES else names
