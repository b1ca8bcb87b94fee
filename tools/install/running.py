"""./install: puts the files in place, or takes them away by the list that it left."""
import argparse
import os
import shutil

from install import contents, placing
from program import streams

WELL, WORDS, UNFIT, UNWRITTEN = 0, 2, 4, 7
FILE, FOLDER = "file", "folder"
FOLDER_MODE = 0o755
ABOUT = """\
Installs the commands certpath, certpath-verify, certpath-vouch, certpath-bundle and
certpath-inventory, the library with its header and pkg-config's file, manual pages, and completion
for bash, zsh and fish. Nothing is built or fetched. docs/INSTALL.md says what goes where.
"""
ENDS = "Exit status: 0 done; 2 wrong words; 4 the checkout lacks a file, or nothing is installed there; 6 out of memory; 7 a file can't be written."


class Failed(Exception):
    """Why nothing, or not all, was done; with the status."""

    def __init__(self, status, text):
        super().__init__(text)
        self.status = status


class Parser(argparse.ArgumentParser):
    def error(self, message):
        raise Failed(WORDS, f"{message}; see ./install --help")


def parser():
    made = Parser("./install", usage="./install --prefix DIR [--destdir DIR] [--uninstall]", description=ABOUT, epilog=ENDS,
                  allow_abbrev=False, formatter_class=argparse.RawDescriptionHelpFormatter)
    made.add_argument("--prefix", required=True, metavar="DIR", help="where it is installed, as /usr/local or ~/.local")
    made.add_argument("--destdir", default="", metavar="DIR",
                      help="put before the prefix for this run: files for the prefix are put below another folder, as for a package")
    made.add_argument("--uninstall", action="store_true", help="take away what an earlier run put there, and nothing else")
    return made


class Place:
    """An installation: the folder that its prefix is now, and what it has put there."""

    def __init__(self, prefix, destdir):
        self.prefix = os.path.abspath(os.path.expanduser(prefix))
        self.top = os.path.join(os.path.abspath(destdir), self.prefix.lstrip(os.sep)) if destdir else self.prefix
        self.files, self.folders = [], []
        self.read()

    def at(self, path):
        return os.path.join(self.top, path)

    def list(self):
        return self.at(placing.LIST)

    def read(self):
        """Reads what an earlier run has put there."""
        try:
            with open(self.list(), encoding="utf-8", errors="surrogateescape") as file:
                lines = file.read().splitlines()
        except FileNotFoundError:
            return
        for line in lines:
            word, _, path = line.partition(" ")
            if word == FILE and is_below(path):
                self.files.append(path)
            elif word == FOLDER and (is_below(path) or is_above(path)):
                self.folders.append(path)
            else:
                raise Failed(UNFIT, f"{self.list()}: this is no list of ./install")

    def write(self):
        """Writes the list of what is there."""
        lines = [*(f"{FILE} {file}\n" for file in self.files), *(f"{FOLDER} {folder}\n" for folder in self.folders)]
        self.put(placing.Placed(placing.LIST, "".join(lines).encode(), contents.PLAIN))

    def make_folders(self, paths):
        """Makes the folders that paths need and that aren't there, once the list of files has them."""
        needed = {os.path.dirname(self.at(path)) for path in paths}
        missing = sorted({above for entry in needed for above in with_those_above(entry) if not os.path.isdir(above)})
        self.folders += [os.path.relpath(part, self.top) for part in missing]
        for folder in missing:
            os.mkdir(folder, FOLDER_MODE)
            os.chmod(folder, FOLDER_MODE)

    def put(self, placed):
        """Puts a file in place, whole."""
        path = self.at(placed.path)
        new = f"{path}.{os.getpid()}"
        try:
            if placed.link is not None:
                os.symlink(placed.link, new)
            else:
                with open(new, "wb") as file:
                    file.write(placed.octets)
                os.chmod(new, placed.mode)
            os.replace(new, path)
        except OSError:
            remove(new)
            raise

    def install(self, files):
        """Puts all files in place, and takes away those of an earlier run that are there no more."""
        foreign = next((entry.path for entry in files if os.path.lexists(self.at(entry.path)) and entry.path not in self.files), None)
        if foreign is not None:
            raise Failed(UNWRITTEN, f"{self.at(foreign)} is there, and no list of ./install has it: move it away first")
        old, new = self.files, [entry.path for entry in files] + [placing.LIST]
        self.make_folders(new)
        # (a run that ends early can be repeated, or undone)
        self.files = [*new, *(entry for entry in old if entry not in new)]
        self.write()
        for file in files:
            self.put(file)
        for path in {*old} - {*new}:
            remove(self.at(path))
        self.files = new
        self.write()

    def uninstall(self):
        """Takes away the files of the list, what Python kept beside them, and the folders that it made,
        if nothing else is in them."""
        if not self.files:
            raise Failed(UNFIT, f"nothing is installed there: {self.list()} is missing")
        for path in self.files:
            if path != placing.LIST:
                remove(self.at(path))
        for at, folders, _ in os.walk(self.at(placing.ROOT)):
            if "__pycache__" in folders:
                shutil.rmtree(os.path.join(at, "__pycache__"))
        # (the list goes last, so that a run that ends early can be repeated)
        remove(self.list())
        for folder in sorted(self.folders, key=lambda folder: os.path.normpath(self.at(folder)).count(os.sep), reverse=True):
            try:
                os.rmdir(os.path.normpath(self.at(folder)))
            except OSError:
                continue
        return len(self.files) - 1


def with_those_above(folder):
    """A folder and all folders above it, the topmost first."""
    above = os.path.dirname(folder)
    return [folder] if above == folder else [*with_those_above(above), folder]


def is_below(path):
    """Whether a path of a list leads to somewhere below the prefix."""
    return bool(path) and not os.path.isabs(path) and os.path.normpath(path) == path and not path.startswith(os.pardir)


def is_above(path):
    """Whether a path of a list is the prefix, or a folder above it."""
    return {*path.split(os.sep)} <= {os.curdir, os.pardir}


def remove(path):
    """Takes a file or a link away, if it is there."""
    try:
        os.remove(path)
    except FileNotFoundError:
        pass


def hints(place):
    """What one may have to do yet, if files are where they will be used."""
    if place.top != place.prefix:
        return
    folder = place.at("bin")
    if folder not in os.environ.get("PATH", "").split(os.pathsep):
        yield f"{folder} isn't on the path: export PATH=\"{folder}:$PATH\""
    yield f"programs that are linked to the shared library find it once ldconfig knows {place.at('lib')}, or by -Wl,-rpath"
    yield "the program needs Linux {} with glibc {}.{} or later".format(contents.needs()[0], *contents.needs()[1])


def done(words):
    given = parser().parse_args(words)
    if not given.prefix or not given.prefix.isprintable():
        raise Failed(WORDS, "--prefix needs a folder, whose name is printable")
    place = Place(given.prefix, given.destdir)
    if given.uninstall:
        return [f"{place.uninstall()} files taken away from {place.top}"]
    files = [*placing.files(place.prefix)]
    place.install(files)
    return [f"{len(files)} files put below {place.top}", *hints(place)]


def main(words):
    try:
        lines = done(words)
    except Failed as error:
        streams.report(f"install: {error}")
        return error.status
    except contents.Unfit as error:
        streams.report(f"install: {error}")
        return UNFIT
    except OSError as error:
        streams.report(f"install: {error.filename}: {error.strerror}")
        return UNWRITTEN
    return WELL if streams.wrote("".join(f"install: {streams.shown(line)}\n" for line in lines).encode()) else UNWRITTEN
