"""Trust anchors: files and folders of them, and the system's store, which is read as OpenSSL reads it."""
import os
import re
from ctypes import c_char_p, c_ulong, c_void_p
from typing import NamedTuple

from program.streams import shown
from verify import files
from verify.core import certpath
from verify.faults import NO_PROGRAM, UNREAD, Fault
from verify.files import FileContents, LeftOut

# The word for the system's store; ./system is a file of that name.
SYSTEM = "system"
FILE_VARIABLE, FOLDER_VARIABLE = "SSL_CERT_FILE", "SSL_CERT_DIR"
# Where systems keep their anchors in one file: the first that is there, if OpenSSL's own places have none.
BUNDLES = (
    "/etc/ssl/certs/ca-certificates.crt",
    "/etc/pki/ca-trust/extracted/pem/tls-ca-bundle.pem",
    "/etc/pki/tls/certs/ca-bundle.crt",
    "/etc/ssl/ca-bundle.pem",
    "/etc/ssl/cert.pem",
    "/usr/local/share/certs/ca-root-nss.crt",
)
# The name of a file by the hash of its certificate's subject, or of its list's issuer, as `openssl rehash` makes it and
# `openssl verify -CApath` looks for it; and as OpenSSL 3 finds it beside that in its own folder, or in the one that
# SSL_CERT_DIR names, by OSSL_STORE.
HASHED = re.compile(r"([0-9a-f]{8})\.(r?)(0|[1-9][0-9]*)", re.ASCII)
WIDE = re.compile(r"([0-9a-fA-F]{8})\.(r?)([0-9]+)", re.ASCII)
FUNCTIONS = {
    "X509_get_default_cert_file": (c_char_p, []),
    "X509_get_default_cert_dir": (c_char_p, []),
    "X509_subject_name_hash": (c_ulong, [c_void_p]),
}
REHASH = "openssl rehash gives its files such names"


class Source(NamedTuple):
    """A file or a folder of anchors: what it is called, and what it holds."""
    name: str
    contents: FileContents


class Anchors(NamedTuple):
    """Trust anchors, each once; where they come from; in which words that is the system's store, none
    if it isn't; and what was left out."""
    items: list
    sources: list
    store: str
    left_out: list


class OpenSsl:
    """What OpenSSL says of its places, and of names."""

    def __init__(self):
        try:
            self.verifier = certpath.openssl.verifier()
        except certpath.openssl.Missing as error:
            raise Fault(NO_PROGRAM, f"OpenSSL, which reads the store of trust anchors, cannot be called: {error}") from error
        for function, (answer, takes) in FUNCTIONS.items():
            called = getattr(self.verifier.library, function)
            called.restype, called.argtypes = answer, takes

    def place(self, function):
        """The file or the folder that OpenSSL was built with."""
        return os.fsdecode(getattr(self.verifier.library, function)())

    def hash(self, octets):
        """The hash of a certificate's subject, as 8 hex digits; none if OpenSSL can't read it."""
        with self.verifier.reading("certificate", octets) as read:
            return f"{self.verifier.library.X509_subject_name_hash(read.handle):08x}" if read else None


def names_in(folder):
    """The names in a folder, in their order."""
    try:
        return sorted(os.listdir(folder))
    except OSError as error:
        raise Fault(UNREAD, f"{folder}: cannot read the folder ({error.strerror})") from error


def plain_folder(folder, names):
    """What the files of a folder hold. Texts without certificates, as notes and keys, are passed over."""
    paths = [os.path.join(folder, name) for name in names if not name.startswith(".")]
    parts = [files.taken_from(path) for path in paths if os.path.isfile(path)]
    is_der = (files.DER, files.DER_OF_SEVEN)
    left_out = [entry for part in parts for entry in part.left_out
                if part.items or part.form in is_der or entry.label in files.OF_CERTIFICATES]
    return FileContents([item for part in parts for item in part.items], left_out)


def hashed_names(names):
    """The names that OpenSSL looks for: of each hash those that are numbered from 0 without a gap."""
    there = {*names}
    found = sorted(filter(None, map(HASHED.fullmatch, names)), key=lambda value: (value[1], value[2], int(value[3])))
    gaps = {(one[1], one[2]): 0 for one in found}
    for entry in found:
        if f"{entry[1]}.{entry[2]}{gaps[entry[1], entry[2]]}" in there and int(entry[3]) == gaps[entry[1], entry[2]]:
            gaps[entry[1], entry[2]] += 1
            yield entry


def hashed_folder(folder, names, openssl, is_wide=False):
    """What the files of a folder hold that are named by hashes: a certificate counts under the hash of its own subject
    alone, since OpenSSL looks for it there. OSSL_STORE takes numbers with gaps, capital digits and DER too: it is wide."""
    items, left_out = [], []
    for name in filter(None, map(WIDE.fullmatch, names)) if is_wide else hashed_names(names):
        path = os.path.join(folder, name[0])
        if not os.path.isfile(path):
            left_out.append(LeftOut(path, "no file is there"))
            continue
        part = files.taken_from(path) if is_wide else of_pem(path)
        left_out += part.left_out
        for item in part.items:
            own = None if item.is_list else openssl.hash(item.octets)
            if item.is_list == bool(name[2]) and (item.is_list or own == name[1].lower()):
                items.append(item)
            else:
                left_out.append(LeftOut(path, why_not(item.is_list, own)))
    return FileContents(items, left_out)


def why_not(is_list, own):
    """Why an item of a hashed folder isn't found under the name that its file has."""
    if is_list:
        return "a revocation list, for which OpenSSL looks under names with r"
    return f"the hash of its subject is {own}, so OpenSSL doesn't find it" if own else "OpenSSL can't read it"


def of_pem(path):
    """What a PEM file holds, which is all that OpenSSL reads in a store."""
    found = files.read(path, files.octets_of(path))
    if found.form != files.PEM:
        return FileContents([], [LeftOut(path, "no PEM, which is all that OpenSSL reads there")])
    return found


def folder_of(folder, openssl=None):
    """What a folder holds: if files in it are named by hashes, what OpenSSL finds by these names; else what all its files
    hold."""
    names = names_in(folder)
    if any(map(HASHED.fullmatch, names)):
        return hashed_folder(folder, names, openssl or OpenSsl())
    return plain_folder(folder, names)


def given(word):
    """What a word of --anchors names; the run ends if that has no certificate."""
    is_folder = word != "-" and os.path.isdir(word)
    part = folder_of(word) if is_folder else files.contents_of(word)
    if not part.items:
        what = "its files hold no certificate" if is_folder else "it holds no certificate"
        raise Fault(UNREAD, f"{word}: {what}, so no anchor; name a file of certificates with --anchors FILE")
    return Source(word, part)


def unread(name, why):
    """A source that can't be read, as OpenSSL passes it over; it is a warning."""
    return Source(None, FileContents([], [LeftOut(name, why)]))


def store_file(path, variable):
    """The file of the system's store. One that a variable names, and that can't be read, is passed over as OpenSSL does it."""
    try:
        contents = of_pem(path)
    except Fault as fault:
        return unread(variable or path, str(fault)) if variable else None
    name = f"{path} ({variable})" if variable else path
    return Source(name, contents) if contents.items or contents.left_out else unread(name, "it holds no certificate")


def store_folder(path, variable, openssl, is_alone):
    """A folder of the system's store, of which OpenSSL reads files that are named by hashes; one that is alone is read by
    OSSL_STORE too."""
    try:
        names = names_in(path)
    except Fault as fault:
        return unread(variable, str(fault)) if variable else None
    name = f"{path} ({variable})" if variable else path
    if not any(map((WIDE if is_alone else HASHED).fullmatch, names)):
        return unread(name, f"no file in it is named by a hash, so OpenSSL finds none; {REHASH}") if variable else None
    return Source(name, hashed_folder(path, names, openssl, is_alone))


def system_sources():
    """The sources of the system's store. As OpenSSL does it, SSL_CERT_FILE replaces its file and SSL_CERT_DIR its
    folders, and each leaves the other as it is."""
    openssl, variables = OpenSsl(), os.environ
    file, folders = variables.get(FILE_VARIABLE), variables.get(FOLDER_VARIABLE)
    found = [store_file(file, FILE_VARIABLE) if file is not None else store_file(openssl.place("X509_get_default_cert_file"), None)]
    paths = [openssl.place("X509_get_default_cert_dir")] if folders is None else dict.fromkeys(filter(None, folders.split(os.pathsep)))
    variable, is_alone = (None, True) if folders is None else (FOLDER_VARIABLE, os.pathsep not in folders)
    found += [store_folder(path, variable, openssl, is_alone) for path in paths]
    found = [entry for entry in found if entry is not None]
    if file is None and folders is None and not any(entry.contents.items for entry in found):
        found = [Source(bundle, of_pem(bundle)) for bundle in BUNDLES if os.path.isfile(bundle)][:1]
    return found


def store_words():
    """What the system's store is called in the first line."""
    named = [value for value in (FILE_VARIABLE, FOLDER_VARIABLE) if value in os.environ]
    return "the system's store" + (f" with {' and '.join(named)}" if named else "")


def system():
    """The system's store; the run ends if it has no certificate."""
    found = system_sources()
    if not any(entry.contents.items for entry in found):
        why = "; ".join(f"{part.where}: {part.why}" for one in found for part in one.contents.left_out[:1])
        what = f"the system's store has no certificate ({shown(why)})" if why else "no store of trust anchors is known on this system"
        raise Fault(UNREAD, f"{what}; name anchors with --anchors FILE")
    return found


def anchors_of(words):
    """The anchors of files, folders and the system's store, which is taken if there are no words."""
    words = [*dict.fromkeys(words)] or [SYSTEM]
    sources = [value for word in words for value in (system() if word == SYSTEM else [given(word)])]
    return Anchors(files.once(item for one in sources for item in one.contents.items), [source.name for source in sources if source.name],
                   store_words() if SYSTEM in words else None, [part for one in sources for part in one.contents.left_out])
