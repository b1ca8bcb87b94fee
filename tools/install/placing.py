"""Which files ./install puts where below its prefix, each with its octets and mode, or where it leads
as a link."""
import os
from typing import NamedTuple, Optional

from install import completions, contents, manuals
from program import installed, repo, usage

# The folder of the package and of the list of what was put in place.
ROOT = os.path.join("lib", "certpath")
LIST = os.path.join(ROOT, "INSTALLED")
DOCUMENTS = os.path.join("share", "doc", "certpath")
PAGES = ("README.md", "CHANGELOG.md", "SECURITY.md", *contents.NOTICES, "docs/INSTALL.md", "docs/VERIFY.md",
         "docs/verify.schema.json", "docs/CLI.md", "docs/EMBEDDING.md", "docs/SCALE.md", "docs/REASONS.md",
         "docs/OTHER.md", "docs/RULES.md", "docs/COST.md", "docs/GLOSSARY.md", "examples/c/questions.c",
         "examples/python/questions.py")
STATIC = os.path.join("dist", "libcertpath.a")
PACKAGED = os.path.join("python", "certpath", "libcertpath.so")
PKG_CONFIG = """\
prefix={prefix}
libdir=${{prefix}}/lib
includedir=${{prefix}}/include

Name: certpath
Description: X.509 certificates and revocation lists, cut, classed and judged by proved code
Version: {version}
Libs: -L${{libdir}} -lcertpath
Cflags: -I${{includedir}}
"""


class Placed(NamedTuple):
    """A file by its path below the prefix: its octets and mode, or where it leads as a link."""
    path: str
    octets: bytes
    mode: int
    link: Optional[str] = None


def octets_of(path):
    """What a file of the checkout holds; Unfit if it isn't there."""
    try:
        with open(os.path.join(repo.TOP, path), "rb") as file:
            return file.read()
    except OSError as error:
        raise contents.Unfit(f"{path}: {error.strerror}") from error


def copy(to, path, mode=contents.PLAIN):
    return Placed(to, octets_of(path), mode)


def text(to, made):
    return Placed(to, made.encode(), contents.PLAIN)


def link(to, target):
    """A link that leads to another file of the installation, wherever that is moved to."""
    return Placed(to, b"", contents.PLAIN, os.path.relpath(target, os.path.dirname(to)))


def library():
    """The library under the names that linkers and loaders look for, its header, and pkg-config's file
    but for the prefix."""
    shared = os.path.join("lib", contents.soname())
    yield copy(shared, PACKAGED)
    yield link(os.path.join("lib", "libcertpath.so"), shared)
    yield copy(os.path.join("lib", "libcertpath.a"), STATIC)
    yield copy(contents.HEADER, contents.HEADER)
    yield link(os.path.join(ROOT, "certpath", "libcertpath.so"), shared)


def commands():
    """The package with program and scripts, and the commands that lead there."""
    for path, source, mode in contents.package_files():
        yield copy(os.path.join(ROOT, path), source, mode)
    for name, command in installed.COMMANDS.items():
        yield link(os.path.join("bin", command), os.path.join(ROOT, contents.SCRIPTS, name))


def pages():
    """Manual pages, pages of docs/, and completion."""
    for name, page in manuals.pages().items():
        yield text(os.path.join("share", "man", "man1", name), page)
    for path in PAGES:
        yield copy(os.path.join(DOCUMENTS, path), path)
    bash = os.path.join("share", "bash-completion", "completions")
    fish = os.path.join("share", "fish", "vendor_completions.d")
    yield text(os.path.join(bash, "certpath"), completions.bash(is_installed=True))
    yield text(os.path.join(fish, "certpath.fish"), completions.fish())
    yield text(os.path.join("share", "zsh", "site-functions", "_certpath"), completions.zsh())
    # (both look for a file of the command's name)
    for command in sorted({*installed.COMMANDS.values()} - {"certpath"}):
        yield link(os.path.join(bash, command), os.path.join(bash, "certpath"))
        yield link(os.path.join(fish, f"{command}.fish"), os.path.join(fish, "certpath.fish"))


def files(prefix):
    """All files of an installation below a prefix."""
    yield from commands()
    yield from library()
    escaped = prefix.replace("\\", "\\\\").replace(" ", "\\ ")
    yield text(os.path.join("lib", "pkgconfig", "certpath.pc"),
               PKG_CONFIG.format(prefix=escaped, version=usage.VERSION))
    yield from pages()
