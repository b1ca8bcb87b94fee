"""The certificates of a trust store: a file, a folder of files, or the system's store."""
import os
import re
import ssl
from typing import Dict, Iterator, List, Optional, Union

from .forms import path_of
from .items import Items, Kind
from .loading import load

# Where systems keep their anchors in one file, if Python's own places have none.
BUNDLES = ("/etc/ssl/certs/ca-certificates.crt", "/etc/pki/tls/certs/ca-bundle.crt",
           "/etc/ssl/ca-bundle.pem", "/etc/ssl/cert.pem")
# How a file is named in the system's folder: OpenSSL looks for no others there.
HASHED = re.compile(r"[0-9a-f]{8}\.[0-9]+", re.ASCII)
SHOWN = re.compile(r"[^.].*", re.DOTALL)


def files_of(path: str, names: "re.Pattern[str]") -> List[str]:
    """The files of a folder that have such names, or the file that a path is."""
    if not os.path.isdir(path):
        return [path]
    found = (os.path.join(path, it) for it in sorted(os.listdir(path)) if names.fullmatch(it))
    return [it for it in found if os.path.isfile(it)]


def system_paths() -> Iterator[str]:
    """The file and the folder of the system's store, those that are there."""
    places = ssl.get_default_verify_paths()
    found = [it for it in (places.cafile, places.capath) if it]
    yield from found or [it for it in BUNDLES if os.path.exists(it)][:1]


def trust_store(source: Optional[Union[str, "os.PathLike[str]"]] = None) -> Items:
    """The certificates of a trust store, each once, to go over and to take as anchors.

    >>> import certpath
    >>> for it in certpath.trust_store("samples/root.pem"):
    ...     print(it.subject, it.not_valid_after_utc.date(), it.fingerprint().hex()[:16])
    C=CZ, O=Example, CN=Example Root 2046-11-22 64c51f396d5b02f5

    `source` is a file of PEM, DER or PKCS #7, or a folder of such files, whose other files are passed
    over. By default it is the system's store: the file and the folder that Python's `ssl` takes, with
    SSL_CERT_FILE and SSL_CERT_DIR; of the folder the files that are named by hashes, as OpenSSL
    looks for them. `load` also says what is left out of a file.

    OSError if the source can't be read, or if no store of the system is there; ValueError if there
    is no certificate in it.
    """
    paths = [*system_paths()] if source is None else [path_of(source)]
    names = HASHED if source is None else SHOWN
    if not paths:
        raise FileNotFoundError("the system's trust store isn't there; name a file or a folder")
    found: Dict[bytes, None] = {}
    for path in paths:
        for file in files_of(path, names):
            items = load(file).items
            for position, kind in enumerate(items.kinds()):
                if kind is Kind.CERTIFICATE:
                    found[items.octets(position)] = None
    if not found:
        raise ValueError(f"{', '.join(paths)}: no certificate")
    return Items(b"".join(found))
