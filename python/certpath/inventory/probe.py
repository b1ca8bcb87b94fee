"""What a process has: workers need the package and the library that the starting process has."""
import glob
import hashlib
import os

from .. import library

PACKAGE = os.path.dirname(os.path.dirname(os.path.abspath(__file__)))


def fingerprint() -> str:
    """A digest of the package's modules and of the library, in hex."""
    summed = hashlib.sha256()
    modules = sorted(glob.glob(os.path.join(PACKAGE, "**", "*.py"), recursive=True))
    for path in (*modules, library.loaded()._name):
        with open(path, "rb") as file:
            octets = file.read()
        summed.update(b"%d %s\n" % (len(octets), os.path.basename(path).encode()))
        summed.update(octets)
    return summed.hexdigest()
