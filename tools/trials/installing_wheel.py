"""The wheel: it is built offline by setuptools, installed into a virtual environment elsewhere, tried
there, and taken away again."""
import os
import re
import shutil
import sys
import zipfile

from install import contents
from program import installed, repo, usage
from trials import installing_places as places
from trials.count import size

PAGES = ("README.md", "docs/INSTALL.md")
PYTHONS = (sys.executable, "/usr/bin/python3")
# What builds a wheel offline; Debian's python3-pip and python3-venv bring it.
BUILDERS = ("import importlib.util, sys; "
            "sys.exit(None in map(importlib.util.find_spec, ('ensurepip', 'pip', 'setuptools', 'venv', 'wheel')))")
LIBRARIES = {"libc.so.6", "libm.so.6", "libgcc_s.so.1", "libpthread.so.0", "libdl.so.2"}
# Files of the wheel's metadata and of the package that have to be there.
IN_WHEEL = ("certpath/py.typed", "certpath/libcertpath.so", "certpath/certpath", "certpath/BUILT",
            "certpath/scripts/verify", "certpath/scripts/NOTICE", "certpath/inventory/__main__.py")
# Which tests of the package are run, and how many these are at least; at the smaller size those that start no other process.
TESTS, LEAST = ("test_*.py", "test_[acn]*.py"), (100, 30)
MODULES = re.compile(r"Ran (\d+) tests")


def python():
    """A Python that builds wheels, none if there is none."""
    for entry in PYTHONS:
        if os.path.exists(entry) and places.ran([entry, "-c", BUILDERS], "/", places.environment())[0] == 0:
            return entry
    return None


def lines_of(page):
    """The lines of a page that make a virtual environment, install the package there, and use it."""
    return [line.strip() for line in repo.read(page).splitlines() if line.startswith("    ") and "certpath-env" in line]


class Wheel(places.InRoom):
    def setUp(self):
        super().setUp()
        self.python = python()
        if self.python is None:
            self.skipTest("no Python here has setuptools, wheel, pip and venv (python3-pip and python3-venv of Debian)")
        self.top = places.copied(self.room)

    def test_lines_of_pages(self):
        """The lines of both pages work as they are printed, and leave nothing in the checkout."""
        first, second = map(lines_of, PAGES)
        self.same("the lines of both pages", first, second[:len(first)])
        folder = os.path.join(self.room, "python3")
        os.mkdir(folder)
        os.symlink(self.python, os.path.join(folder, "python3"))
        before, env = places.held(self.top), places.environment(folder)
        for line in second:
            status, text = places.ran(["bash", "-c", line], self.top, env)
            self.row(status == 0, f"{PAGES[1]}: {line}: status {status}: {text[-2000:]}")
        there = os.path.join(self.top, "certpath-env")
        status, text = places.ran([os.path.join(there, "bin", "certpath-verify"), "--help"], self.room, env)
        self.row(status == 0 and text.startswith("usage: certpath-verify "), f"certpath-verify --help: {text[:1000]}")
        shutil.rmtree(there)
        self.same("what the build leaves in the checkout", sorted({*places.held(self.top)} ^ {*before}), [])

    def test_wheel(self):
        """The wheel by itself, in an environment that sees nothing of the checkout."""
        file = built(self)
        if file is None:
            return
        shutil.rmtree(self.top)
        look_into(self, file)
        there, env = os.path.join(self.room, "elsewhere-env"), places.environment()
        status, text = places.ran([self.python, "-m", "venv", there], self.room, env)
        self.row(status == 0, f"a virtual environment: {text[-2000:]}")
        before, pip = places.held(there), os.path.join(there, "bin", "pip")
        status, text = places.ran([pip, "install", "--no-deps", file], self.room, env)
        self.row(status == 0, f"pip install: {text[-2000:]}")
        use(self, there)
        status, text = places.ran([pip, "uninstall", "-y", "certpath"], self.room, env)
        self.same(f"pip uninstall: {text[-500:]}", (status, sorted({*places.held(there)} ^ {*before})), (0, []))


def built(trial):
    """Builds the wheel; gives its path, none if it has another name."""
    made = os.path.join(trial.room, "wheels")
    words = ["-m", "pip", "wheel", "--no-build-isolation", "--no-deps", "-w", made, os.path.join(trial.top, "python")]
    status, text = places.ran([trial.python, *words], trial.room, places.environment())
    names = os.listdir(made) if os.path.isdir(made) else []
    machine, (major, minor) = contents.needs()
    wanted = f"certpath-{usage.VERSION}-py3-none-manylinux_{major}_{minor}_{machine}.whl"
    trial.same(f"the wheel: {text[-2000:]}", (status, names), (0, [wanted]))
    return os.path.join(made, wanted) if names == [wanted] else None


def look_into(trial, file):
    """What the wheel has; program and library need no more of the machine than its name says."""
    room = os.path.join(trial.room, "unpacked")
    with zipfile.ZipFile(file) as held:
        names = {*held.namelist()}
        head = f"certpath-{usage.VERSION}.dist-info"
        licences = [word for word in names if word.startswith(head) and "LICENSE-" in word]
        lacks = [entry for entry in IN_WHEEL if entry not in names]
        trial.row((lacks, len(licences)) == ([], 2), f"the wheel lacks {lacks}, and has the licences {licences}")
        said = held.read(f"{head}/WHEEL").decode()
        trial.row("Root-Is-Purelib: false" in said and "Tag: py3-none-manylinux_" in said, f"its WHEEL: {said}")
        foreign = [word for word in names if not word.startswith(("certpath/", head))]
        trial.row(not foreign, f"the wheel puts {foreign} beside the package")
        held.extractall(room, [step for step in ("certpath/certpath", "certpath/libcertpath.so") if step in names])
    if shutil.which("readelf") is None:
        print("installing: no readelf, so what the program needs of the C library isn't compared with the wheel's tag")
        return
    _, least = contents.needs()
    for name in ("certpath", "libcertpath.so"):
        _, text = places.ran(["readelf", "-dV", os.path.join(room, "certpath", name)], room)
        needed = {*re.findall(r"\(NEEDED\).*\[(.*)\]", text)}
        versions = [tuple(map(int, match.split("."))) for match in re.findall(r"GLIBC_(\d+(?:\.\d+)+)", text)]
        trial.row(bool(versions) and needed <= LIBRARIES and max(version[:2] for version in versions) <= least,
                  f"{name} needs {needed} and glibc {max(versions, default=None)}, and the tag says {least}")


def use(trial, there):
    """The commands, the tests of the package, and its program, in the environment alone."""
    room, bin_folder = trial.room, os.path.join(there, "bin")
    env = places.environment(bin_folder)
    commands = sorted(name for name in os.listdir(bin_folder) if name.startswith("certpath"))
    trial.row(commands == sorted(installed.COMMANDS.values()), f"the commands are {commands}")
    places.try_quick_start(trial, "the wheel", env)
    status, text = places.ran(["certpath", "--version"], room, env)
    trial.row(status == 0 and there in text and text.startswith(f"certpath {usage.VERSION}\n"), f"certpath --version: {text}")
    status, text = places.ran(["certpath-inventory", "--help"], room, env)
    trial.row(status == 0 and text.startswith("usage: certpath-inventory ") and "--anchors" in text,
              f"certpath-inventory --help: {text[-1000:]}")
    folder = os.path.join(room, "tests-elsewhere")
    shutil.copytree(os.path.join(repo.TOP, "python", "tests"), os.path.join(folder, "python", "tests"),
                    ignore=shutil.ignore_patterns("__pycache__"))
    for value in (places.SAMPLES, "include"):
        shutil.copytree(os.path.join(repo.TOP, value), os.path.join(folder, value))
    os.mkdir(os.path.join(folder, "dist"))
    _, package = places.ran([os.path.join(bin_folder, "python"), "-c", "import certpath; print(certpath.__path__[0])"], room, env)
    shutil.copy(os.path.join(package.strip(), "certpath"), os.path.join(folder, "dist"))
    words = [os.path.join(bin_folder, "python"), "-m", "unittest", "discover", "-s", "python/tests", "-t", "python", "-p", size(*TESTS)]
    status, text = places.ran(words, folder, env)
    found = MODULES.search(text)
    trial.row(status == 0 and found and int(found[1]) > size(*LEAST), f"the package's tests: status {status}: {text[-3000:]}")
