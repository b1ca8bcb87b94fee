"""Where the scripts are: in a checkout, or installed, as part of the Python package `certpath`.

An installation has no sources. The program lies beside the package's library there, the scripts in
its folder `scripts`, and commands have names of their own: `certpath-verify` for `./verify`.
"""
import os
import re

from program.repo import TOP

# The list of crates, which each checkout has.
IS_INSTALLED = not os.path.exists(os.path.join(TOP, "crates.txt"))
# The folder that has the package, the program, and its record.
FOLDER = os.path.dirname(os.path.dirname(TOP)) if IS_INSTALLED else os.path.join(TOP, "python")
# The commands of an installation by the scripts of a checkout.
COMMANDS = {"certpath": "certpath", "verify": "certpath-verify", "vouch": "certpath-vouch",
            "bundle": "certpath-bundle", "inventory": "certpath-inventory"}
MODULE = "python3 -m certpath.inventory"
TYPED = re.compile(r"(?<![\w./-])\./(certpath|verify|vouch|bundle)\b(?!/)")
# What a help says of the option --build, and of the status of a checkout whose sources are newer than dist/.
OF_BUILDS = re.compile(r"(?m)^  --build  .*\n(?:  {4,}.*\n)*| \| --build(?: \[CRATE\])?|^Nothing is built but by --build\.\n|"
                       r"\s69\s+dist/\s+is\s+older\s+than\s+the\s+sources(?:,\s+which\s+--build\s+mends)?;")


def renamed(text):
    """A text with the commands that an installation has, in the place of scripts."""
    return TYPED.sub(lambda found: COMMANDS[found[1]], text).replace(MODULE, COMMANDS["inventory"])


def spelled(text):
    """A text with commands as one types them here: `./verify`, or `certpath-verify`. Without sources
    nothing is said of building."""
    return OF_BUILDS.sub("", renamed(text)) if IS_INSTALLED else text
