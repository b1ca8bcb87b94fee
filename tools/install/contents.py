"""What an installation has, whoever makes it: the Python package with its library, the program and
the scripts, by their paths from the top of the repository."""
import os
import re

from program import installed, programs, repo

# The scripts' folder within the package.
SCRIPTS = os.path.join("certpath", "scripts")
COMMANDS = ("certpath", "verify", "vouch", "bundle")
INVENTORY = os.path.join("tools", "install", "inventory")
MODULES = tuple(os.path.join("tools", entry) for entry in ("pki", "program", "verify"))
# Modules that build and prove, of which an installation has no use.
OF_BUILDS = ("building.py",)
# The page that a warning of ./verify names.
PAGE = os.path.join("docs", "OTHER.md")
NOTICES = ("LICENSE-APACHE", "LICENSE-MIT", "NOTICE")
RECORDS = (programs.SHIPPED_RECORD, programs.LIBRARY_RECORD)
HEADER = os.path.join("include", "certpath.h")
EXECUTABLE, PLAIN = 0o755, 0o644
# What a record says of the machine that is needed.
NEEDS = re.compile(r"Linux (\S+) glibc (\d+)\.(\d+)")


class Unfit(Exception):
    """The checkout has nothing that can be installed; says why."""


def python_files(folder):
    """The Python files of a folder and of those in it, by their paths from the top."""
    top = os.path.join(repo.TOP, folder)
    for at, folders, names in os.walk(top):
        folders[:] = sorted(entry for entry in folders if entry != "__pycache__")
        yield from (os.path.relpath(os.path.join(at, name), repo.TOP)
                    for name in sorted(names) if name.endswith(".py"))


def beside_library():
    """What the package has beside its own files: for each its path there, where it comes from, and
    its mode."""
    yield os.path.join("certpath", "certpath"), programs.SHIPPED, EXECUTABLE
    yield os.path.join("certpath", "BUILT"), programs.SHIPPED_RECORD, PLAIN
    for name in COMMANDS:
        yield os.path.join(SCRIPTS, name), name, EXECUTABLE
    yield os.path.join(SCRIPTS, os.path.basename(INVENTORY)), INVENTORY, EXECUTABLE
    for folder in MODULES:
        for path in python_files(folder):
            if os.path.basename(path) not in OF_BUILDS:
                yield os.path.join(SCRIPTS, path), path, PLAIN
    for path in (PAGE, *NOTICES):
        yield os.path.join(SCRIPTS, path), path, PLAIN


def package_files():
    """All files of the package, as `beside_library` gives them."""
    for path in python_files(os.path.join("python", "certpath")):
        yield os.path.relpath(path, "python"), path, PLAIN
    yield os.path.join("certpath", "py.typed"), os.path.join("python", "certpath", "py.typed"), PLAIN
    yield from beside_library()


def needs():
    """The machine that program and library need: its processor, and the least version of glibc as
    two numbers. Unfit if a record is missing, or says something else."""
    found = []
    for path in RECORDS:
        said = NEEDS.fullmatch(programs.read_record(path).get("needs", ""))
        if said is None:
            raise Unfit(f"{path} doesn't name the machine that is needed")
        found.append((said[1], (int(said[2]), int(said[3]))))
    if len({machine for machine, _ in found}) != 1:
        raise Unfit(f"{' and '.join(RECORDS)} name different machines")
    return found[0][0], max(version for _, version in found)


def calls_version():
    """The version of the library's calls, which its SONAME ends with (CERTPATH_VERSION)."""
    for line in repo.read(HEADER).splitlines():
        words = line.split()
        if words[:2] == ["#define", "CERTPATH_VERSION"]:
            return int(words[2])
    raise Unfit(f"{HEADER} defines no CERTPATH_VERSION")


def soname():
    """The name by which programs load the shared library, which its file has where it is
    installed."""
    return f"libcertpath.so.{calls_version()}"


def command_of(name):
    """The name that a script has as a command."""
    return installed.COMMANDS[name]
