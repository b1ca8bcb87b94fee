"""Runs the trials: those of tools/trials, and the tests of python/tests; each is found by `unittest`.

    ./test trial            all of them, at the sizes of the gate, several files at a time
    ./test trial NAME..     single ones: a file, as commands or test_names, or a part of it after
                            dots, as vouching.Vouching.test_items
    ./test small [NAME..]   likewise at smaller sizes

In the gate a trial fails that lacks what it needs; elsewhere it is skipped.
"""
import os
import re
import resource
import subprocess
import sys
import time
import traceback
import unittest
from concurrent.futures import ThreadPoolExecutor, as_completed

from program import programs, repo, streams
from trials import count

# Folders of trials, which files there are asked for, and the folder on the path of Python.
FOLDERS = ((os.path.join("tools", "trials"), "*.py", "tools"),
           (os.path.join("python", "tests"), "test_*.py", "python"))
MOST_SHOWN = 3_000
# Files that take longest begin first, where several run at a time; and how many do at most.
LONGEST = ("scaling", "hostile", "verifying", "embedding", "keys", "installing_wheel", "limits", "hosts", "readme",
           "installing_prefix", "vouching", "stores")
MOST_AT_A_TIME = 4
# Files whose trials run programs of rows, which the gate has only once `rt ci` has built them.
OF_ROWS = ("memory", "mutants", "sizes")
# The word of `./test trial` by which the gate runs a file.
BY_THE_GATE = "--gate"
LAST_LINE = re.compile(r"(\d+) passed, (\d+) failed(?:, (\d+) skipped)?\n\Z")


class Result(unittest.TestResult):
    """Counts rows: subtests, and tests that have none. What fails or is skipped is printed at once."""

    def __init__(self):
        super().__init__()
        self.passed = self.failed = self.left = 0
        self.file, self.rows, self.before = None, 0, None

    def startTest(self, test):
        super().startTest(test)
        self.rows = 0
        if file_of(test) != self.file:
            self.show()
            self.file, self.before = file_of(test), (self.passed, self.failed, time.monotonic(), spent())

    def show(self):
        """Prints what the file that has ended counted and took."""
        passed, failed, begun, seconds = self.before or (0, 0, 0, 0)
        if self.file and (self.passed, self.failed) != (passed, failed):
            print(f"{self.file}: {self.passed - passed} passed, {self.failed - failed} failed; "
                  f"{spent() - seconds:.0f} s of processors, {time.monotonic() - begun:.0f} s by the clock", flush=True)
        self.file = None

    def addSuccess(self, test):
        self.passed += self.rows == 0

    def addSubTest(self, test, subtest, err):
        self.rows += 1
        self.passed += err is None
        if err is not None:
            self.miss(subtest, err)

    def addFailure(self, test, err):
        self.miss(test, err)

    addError = addFailure

    def addSkip(self, test, reason):
        self.rows, self.left = self.rows + 1, self.left + 1
        print(f"{file_of(test)}: skipped {name_of(test)}: {reason}", flush=True)

    def miss(self, test, err):
        """A row or a test that fails: what it says, and of an error where it was raised."""
        self.failed += 1
        is_said = issubclass(err[0], AssertionError) and isinstance(getattr(test, "test_case", test), count.Trial)
        text = str(err[1]) if is_said else "".join(traceback.format_exception(*err))
        said = "\n".join(map(streams.shown, text[-MOST_SHOWN:].splitlines()))
        print(f"{file_of(test)}: FAILED {name_of(test)}: {said}", flush=True)

    def wasSuccessful(self):
        return self.failed == 0


def file_of(test):
    """The file of a test, as it is named: the one that couldn't be imported, too."""
    test = getattr(test, "test_case", test)
    names = test.id().split(".")
    return names[-1] if names[0] == "unittest" else names[1] if len(names) > 1 else names[0]


def name_of(test):
    """The name of a test's function."""
    return getattr(test, "test_case", test).id().rpartition(".")[2]


def spent():
    """The seconds of processors of this process and of those that it started and that ended."""
    return sum(value.ru_utime + value.ru_stime for value in map(resource.getrusage, (resource.RUSAGE_SELF, resource.RUSAGE_CHILDREN)))


def found(names):
    """The tests of the names, of all files without any; and the names that no file has."""
    loader, tests, unknown = unittest.TestLoader(), unittest.TestSuite(), []
    for _, _, path in FOLDERS:
        sys.path.insert(0, os.path.join(repo.TOP, path))
    if not names:
        tests.addTests(loader.discover(os.path.join(repo.TOP, folder), pattern, os.path.join(repo.TOP, path))
                       for folder, pattern, path in FOLDERS)
    for name in names:
        file = name.partition(".")[0]
        package = next((os.path.basename(folder) for folder, _, _ in FOLDERS
                        if os.path.isfile(os.path.join(repo.TOP, folder, f"{file}.py"))), None)
        if package is None:
            unknown.append(name)
        else:
            found = loader.loadTestsFromName(f"{package}.{name}")
            unknown += [] if found.countTestCases() else [name]
            tests.addTest(found)
    return tests, unknown


def run(names=(), is_gate=False, is_small=False):
    """Runs trials; gives how many rows passed and failed, and how many were skipped."""
    if programs.is_outdated():
        print(f"trials: none was run: {programs.OLDER}")
        return 0, 1, 0
    count.RUN.update(gate=is_gate, small=is_small)
    tests, unknown = found(names)
    result = Result()
    for name in unknown:
        result.failed += 1
        print(f"there is no trial {streams.shown(name[:200])}: their files are in tools/trials and python/tests")
    tests.run(result)
    result.show()
    return result.passed, result.failed, result.left


def files():
    """The names of all files that have tests, those that take longest first."""
    def tests_in(suite):
        for part in suite:
            yield from tests_in(part) if isinstance(part, unittest.TestSuite) else (part,)
    names = [*dict.fromkeys(map(file_of, tests_in(found(())[0])))]
    return sorted(names, key=lambda name: LONGEST.index(name) if name in LONGEST else len(LONGEST))


def run_file(words, name, top=repo.TOP):
    """Runs the trials of a file by a `./test` of its own with the words, that of this checkout or of another one; gives
    what it printed, and its counts."""
    ran = subprocess.run([sys.executable, os.path.join(top, "test"), *words, name], stdin=subprocess.DEVNULL,
                         stdout=subprocess.PIPE, stderr=subprocess.STDOUT, text=True, errors="replace")
    counted = LAST_LINE.search(ran.stdout)
    if counted is None:
        return f"{ran.stdout}{name}: FAILED: it ended with status {ran.returncode}, and no count\n", (0, 1, 0)
    return ran.stdout[:counted.start()], tuple(int(count or 0) for count in counted.groups())


def ended(runs):
    """Prints what files printed as each ends; gives how many rows of all passed and failed, and how many were skipped."""
    counts = [(0, 0, 0)]
    for running in as_completed(runs):
        text, counted = running.result()
        print(text, end="", flush=True)
        counts.append(counted)
    return tuple(map(sum, zip(*counts)))


def run_apart(is_gate=False, is_small=False, names=None):
    """Runs all trials or those of some files, each file in a process of its own, several at a time; gives how many rows
    passed and failed, and how many were skipped."""
    if programs.is_outdated():
        return run()
    words = ["small" if is_small else "trial", *([BY_THE_GATE] if is_gate else [])]
    at_a_time = min(MOST_AT_A_TIME, len(os.sched_getaffinity(0)))
    with ThreadPoolExecutor(at_a_time) as pool:
        return ended([pool.submit(run_file, words, name) for name in (files() if names is None else names)])
