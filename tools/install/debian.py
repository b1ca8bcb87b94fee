#!/usr/bin/env python3
"""Makes a package for Debian, by dpkg-deb, of the files that ./install puts below /usr.

    python3 tools/install/debian.py FOLDER     writes FOLDER/certpath_VERSION_amd64.deb, and prints its name
"""
import gzip
import os
import re
import subprocess
import sys
import tempfile
import time

sys.dont_write_bytecode = True
sys.path.insert(0, os.path.dirname(os.path.dirname(os.path.abspath(__file__))))
from install import contents, placing, running
from program import repo, streams, usage

PREFIX, REVISION = "/usr", "1"
ARCHITECTURES = {"x86_64": "amd64"}
# The interpreter that scripts of a package name (Debian Policy, 10.4), and options that they have.
SHEBANG = re.compile(rb"\A#!/usr/bin/env (?:-S )?python3(.*)\n")
INTERPRETER = b"#!/usr/bin/python3"
# Licences are in the file `copyright`, and the system has the text of one of them.
LEFT_OUT = tuple(os.path.join(folder, notice) for notice in contents.NOTICES
                 for folder in (placing.DOCUMENTS, os.path.join(placing.ROOT, contents.SCRIPTS)))
CONTROL = """\
Package: certpath
Version: {version}
Architecture: {architecture}
Maintainer: {maintainer}
Installed-Size: {size}
Depends: python3 (>= 3.9), libc6 (>= {glibc}), libssl3t64 | libssl3
Recommends: openssl
Suggests: python3-distributed, python3-cryptography, pkg-config
Section: utils
Priority: optional
Description: proved reader of X.509 certificates and finder of paths
 Reads certificates and revocation lists in DER, finds the first of the
 shortest valid paths from a certificate to a trust anchor, and verifies the
 answer by a separate check. The program and its C library are proved;
 signatures are verified by OpenSSL.
 .
 It has the commands certpath, certpath-verify, certpath-vouch,
 certpath-bundle and certpath-inventory, and libcertpath with its header.
"""
COPYRIGHT = """\
Format: https://www.debian.org/doc/packaging-manuals/copyright-format/1.0/

Files: *
Copyright: {holder}
License: Expat or Apache-2.0
Comment:
{notice}

License: Expat
{expat}

License: Apache-2.0
 On Debian systems the full text of the Apache License, Version 2.0 is in
 /usr/share/common-licenses/Apache-2.0.
"""
CHANGELOG = """\
certpath ({version}) unstable; urgency=low

  * Made of the sources of certpath {upstream}; its changes are listed in
    /usr/share/doc/certpath/changelog.gz.

 -- {maintainer}  {date}
"""
# Program and library are, octet for octet, those that the records of dist/ name by their digests.
OVERRIDES = """\
# Their octets are those whose SHA-256 is recorded where they were built, so they keep their symbols.
certpath: unstripped-binary-or-object
"""
# What Python kept beside the modules goes with them.
BEFORE_REMOVAL = """\
#!/bin/sh
set -e
find "$DPKG_ROOT/usr/lib/certpath" -depth -name __pycache__ -exec rm -r {} +
"""
MAINTAINER = "The Lovzeteny authors <certpath@packages.invalid>"


def paragraph(text):
    """Lines of a control file's field, each with the blank before it."""
    return "\n".join(f" {line}" if line.strip() else " ." for line in text.strip().splitlines())


def epoch():
    """The date of all that is made: that of SOURCE_DATE_EPOCH, or now."""
    return int(os.environ.get("SOURCE_DATE_EPOCH") or time.time())


def zipped(octets):
    return gzip.compress(octets, 9, mtime=0)


def packaged(placed):
    """A file as the package has it: manual pages and the list of changes are compressed, scripts name
    the system's Python."""
    path, octets = placed.path, placed.octets
    if path.startswith(os.path.join("share", "man")):
        return placed._replace(path=f"{path}.gz", octets=zipped(octets))
    if path == os.path.join(placing.DOCUMENTS, "CHANGELOG.md"):
        return placed._replace(path=os.path.join(placing.DOCUMENTS, "changelog.gz"), octets=zipped(octets))
    return placed._replace(octets=SHEBANG.sub(rb"%s\1\n" % INTERPRETER, octets))


def files(version):
    """All files of the package, below /usr."""
    for file in placing.files(PREFIX):
        if file.path not in LEFT_OUT:
            yield packaged(file)
    own, licence = os.path.join("share", "doc", "certpath"), repo.read("LICENSE-MIT")
    holder = re.search(r"(?m)^Copyright \(c\) (.*)$", licence)[1]
    made = COPYRIGHT.format(holder=holder, notice=paragraph(repo.read("NOTICE")), expat=paragraph(licence.partition("\n\n")[2]))
    yield placing.text(os.path.join(own, "copyright"), made)
    yield placing.text(os.path.join("share", "lintian", "overrides", "certpath"), OVERRIDES)
    date = time.strftime("%a, %d %b %Y %H:%M:%S +0000", time.gmtime(epoch()))
    log = CHANGELOG.format(version=version, upstream=usage.VERSION, maintainer=MAINTAINER, date=date)
    yield placing.Placed(os.path.join(own, "changelog.Debian.gz"), zipped(log.encode()), contents.PLAIN)


def control(room, version, size):
    """What dpkg reads: the control file, names of the shared library, and what is done on removal."""
    machine, (major, minor) = contents.needs()
    if machine not in ARCHITECTURES:
        raise contents.Unfit(f"Debian's name of {machine} isn't known")
    said = CONTROL.format(version=version, architecture=ARCHITECTURES[machine], maintainer=MAINTAINER, size=size,
                          glibc=f"{major}.{minor}")
    shlibs = f"libcertpath {contents.calls_version()} certpath (>= {usage.VERSION})\n"
    for name, made, mode in (("control", said, contents.PLAIN), ("shlibs", shlibs, contents.PLAIN),
                             ("triggers", "activate-noawait ldconfig\n", contents.PLAIN),
                             ("prerm", BEFORE_REMOVAL, contents.EXECUTABLE)):
        path = os.path.join(room, "DEBIAN", name)
        os.makedirs(os.path.dirname(path), exist_ok=True)
        with open(path, "w", encoding="utf-8") as file:
            file.write(made)
        os.chmod(path, mode)
    return f"certpath_{version}_{ARCHITECTURES[machine]}.deb"


def sums(placed):
    """The digests that dpkg --verify compares."""
    import hashlib
    lines = (f"{hashlib.md5(entry.octets, usedforsecurity=False).hexdigest()}  usr/{entry.path}\n" for entry in placed if entry.link is None)
    return "".join(lines).encode()


def make(folder):
    """Writes the package into a folder; gives its path."""
    version = f"{usage.VERSION}-{REVISION}"
    with tempfile.TemporaryDirectory(prefix="certpath-deb-") as room:
        os.chmod(room, running.FOLDER_MODE)
        placed = [*files(version)]
        place = running.Place(PREFIX, room)
        place.make_folders([one.path for one in placed])
        for entry in placed:
            place.put(entry)
        name = control(room, version, sum(len(one.octets) for one in placed) // 1024)
        with open(os.path.join(room, "DEBIAN", "md5sums"), "wb") as file:
            file.write(sums(placed))
        path = os.path.join(os.path.abspath(folder), name)
        subprocess.run(["dpkg-deb", "--root-owner-group", "--build", room, path], check=True, stdin=subprocess.DEVNULL,
                       stdout=subprocess.DEVNULL, env={**os.environ, "SOURCE_DATE_EPOCH": str(epoch())})
    return path


def main(words):
    if len(words) != 1 or words[0].startswith("-"):
        streams.report(__doc__.split("\n\n")[1].strip())
        return running.WORDS
    try:
        print(make(words[0]))
    except (contents.Unfit, OSError, subprocess.CalledProcessError) as error:
        streams.report(f"debian: {error}")
        return running.UNFIT
    return running.WELL


if __name__ == "__main__":
    sys.exit(main(sys.argv[1:]))
