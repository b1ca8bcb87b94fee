"""The commands that an installed package has: `certpath`, `certpath-verify` and the others.

Each runs a script of the repository, which the package has in its folder `scripts`. If the
package is used as it lies in a checkout, that is the checkout's own script.
"""
import os
import runpy
import sys

FOLDER = os.path.dirname(os.path.abspath(__file__))
PLACES = (os.path.join(FOLDER, "scripts"), os.path.join(FOLDER, "..", ".."))


def run(script: str) -> None:
    """Runs a script on the words of the command line, and ends with its status."""
    path = next(filter(os.path.exists, (os.path.join(it, script) for it in PLACES)), None)
    if path is None:
        sys.exit(f"certpath: {script} is in none of {', '.join(map(os.path.normpath, PLACES))}")
    runpy.run_path(path, run_name="__main__")


def certpath() -> None:
    """`certpath`: the proved program, and its help."""
    run("certpath")


def verify() -> None:
    """`certpath-verify`: from files to a path, or what prevents one."""
    run("verify")


def vouch() -> None:
    """`certpath-vouch`: which key signed which item, by OpenSSL."""
    run("vouch")


def bundle() -> None:
    """`certpath-bundle`: the certificates and revocation lists of files of any form, as DER."""
    run("bundle")


def inventory() -> None:
    """`certpath-inventory`: a table of many certificates."""
    from .inventory.__main__ import main
    sys.exit(main(sys.argv[1:]))
