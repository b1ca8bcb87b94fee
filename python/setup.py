"""What pyproject.toml can't say: the wheel has the program and the scripts of the checkout too, and
is for the machines that program and library are for, with any Python 3. What setuptools makes on
the way to it isn't left in this folder."""
import atexit
import os
import shutil
import sys
import tempfile

from setuptools import Distribution, setup
from setuptools.command.build_py import build_py

try:
    from setuptools.command.bdist_wheel import bdist_wheel
except ImportError:
    # (before setuptools 70.1)
    try:
        from wheel.bdist_wheel import bdist_wheel
    except ImportError as error:
        NEEDED = "setuptools 70.1 or the package wheel (python3-wheel of Debian)"
        sys.exit(f"certpath: building the package needs {NEEDED}: {error}")

TOP = os.path.dirname(os.path.dirname(os.path.abspath(__file__)))
sys.dont_write_bytecode = True
sys.path.insert(0, os.path.join(TOP, "tools"))
try:
    from install import contents
except ImportError as error:
    sys.exit(f"certpath: the package is built in a checkout of the repository: {error}")


class WithScripts(build_py):
    """A package with the program and the scripts."""

    def run(self):
        super().run()
        if not self.editable_mode_is_on():
            for path, source, mode in contents.beside_library():
                to = os.path.join(self.build_lib, path)
                os.makedirs(os.path.dirname(to), exist_ok=True)
                shutil.copyfile(os.path.join(TOP, source), to)
                os.chmod(to, mode)

    def editable_mode_is_on(self):
        """Whether the package is used as it lies here (`pip install --editable`)."""
        return getattr(self, "editable_mode", False)


class WithLibrary(Distribution):
    """A package with compiled code."""

    def has_ext_modules(self):
        return True


class OfMachine(bdist_wheel):
    """A wheel for one kind of machine, which no version of Python is compiled into."""

    def get_tag(self):
        machine, (major, minor) = contents.needs()
        return "py3", "none", f"manylinux_{major}_{minor}_{machine}"


room = tempfile.mkdtemp(prefix="certpath-")
atexit.register(shutil.rmtree, room, ignore_errors=True)
setup(distclass=WithLibrary, cmdclass={"bdist_wheel": OfMachine, "build_py": WithScripts},
      options={"build": {"build_base": room}, "egg_info": {"egg_base": room}})
