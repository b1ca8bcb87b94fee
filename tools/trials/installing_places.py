"""What the trials of installations share: folders before and after, and the commands of README.md
run elsewhere, by the names that an installation gives them."""
import os
import shutil
import subprocess
import tempfile

from program import installed, repo
from trials import readme
from trials.count import Trial

SECONDS = 600
SAMPLES = "samples"
# Nothing is fetched, whatever the machine would allow.
OFFLINE = {"PIP_NO_INDEX": "1", "http_proxy": "http://127.0.0.1:9", "https_proxy": "http://127.0.0.1:9"}
# What names a checkout or further modules to Python.
HIDDEN = ("PYTHONPATH", "PYTHONHOME", "PIP_FIND_LINKS", "VIRTUAL_ENV")


class InRoom(Trial):
    """A trial with a folder that goes away."""

    def setUp(self):
        room = tempfile.TemporaryDirectory(prefix="installing-")
        self.addCleanup(room.cleanup)
        self.room = room.name

    def skip_without(self, *tools):
        """Skips the trial if a program isn't on the path that the gate does without, too."""
        missing = [tool for tool in tools if shutil.which(tool) is None]
        if missing:
            self.skipTest(f"{', '.join(missing)} isn't on the path")


def environment(*folders, **further):
    """An environment whose commands are first those of the folders."""
    kept = {name: value for name, value in os.environ.items() if name not in HIDDEN}
    path = os.pathsep.join([*folders, os.environ.get("PATH", os.defpath)])
    return {**kept, **OFFLINE, "PATH": path, **further}


def ran(words, cwd, env=None, **how):
    """A command's status, and what it printed on both outputs."""
    done = subprocess.run(words, cwd=cwd, env=env, stdin=subprocess.DEVNULL, stdout=subprocess.PIPE,
                          stderr=subprocess.STDOUT, text=True, errors="replace", timeout=SECONDS, **how)
    return done.returncode, done.stdout


def held(folder):
    """All files and folders below a folder, with their modes and where links lead; what Python keeps is
    left out."""
    found = {}
    for at, folders, names in os.walk(folder):
        folders[:] = [entry for entry in folders if entry != "__pycache__"]
        for name in (*folders, *names):
            path = os.path.join(at, name)
            link = os.readlink(path) if os.path.islink(path) else None
            found[os.path.relpath(path, folder)] = link or os.lstat(path).st_mode
    return found


def copied(room, name="copy"):
    """A copy of the checkout without what builds and checks leave there."""
    top = os.path.join(room, name)
    shutil.copytree(repo.TOP, top, ignore=shutil.ignore_patterns(".git", "out", "__pycache__", "bench"))
    return top


def quick_start():
    """The commands of README.md, each with the lines that it prints, with an installation's names."""
    for command, lines in readme.commands(repo.read("README.md")):
        if not command.startswith("./install"):
            yield installed.renamed(command), [installed.renamed(line) for line in lines]


def try_quick_start(trial, what, env):
    """Runs the commands of README.md in a folder of its own, beside the samples alone."""
    folder = os.path.join(trial.room, "elsewhere")
    shutil.copytree(os.path.join(repo.TOP, SAMPLES), os.path.join(folder, SAMPLES))
    commands = [*quick_start()]
    for command, lines in commands:
        _, text = ran(["bash", "-c", command], folder, env)
        trial.same(f"{what}: {command}", text.splitlines(), lines)
    trial.row(len(commands) >= 5 and not any("./" in entry for entry, _ in commands), f"{what}: the commands are {commands}")
    shutil.rmtree(folder)
