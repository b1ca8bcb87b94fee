"""Tries ./certpath, ./rows and `./certpath --build` on a copy of the repository with small crates:
what is printed, the status, and what is left. Nothing is proved. A script takes the toolchain's place:
it prints its process, and its `rt ci` does what a trial asks for. The program prints its words."""
import os
import pathlib
import shutil
import subprocess
import sys
import tempfile

from program import programs, repo, sources, usage
from trials.count import INTERRUPTIBLE, Trial

SECONDS = 300
CRATES = {"low": "", programs.CERTPATH: "low", programs.LIBRARY: "low", "rows_cert": "low"}
MAIN = "crates/low/src/main.rt"
# (GLIBC_ is what a program's record says that it needs, by the names in its octets)
NEEDED, KIT = b"GLIBC_2.17\0", "the kit of the trials"
PRINTING = b'#!/bin/sh\necho "words: $*"\nexit\n' + NEEDED
BUILD, OLDER = "./certpath --build", "dist/ is older than the sources"
FAKE_RT = f"""\
#!/bin/sh
PATH=/usr/bin:/bin
[ "$1" = version ] && exec echo "{KIT}"
echo "rt: $$"
eval "$RT_CI"
"""
# What `rt ci` does: the last crate's program is then the file beside the script.
HANGS, FAILS, BUILDS = "exec sleep 600", "exit 1", """
name=$(tail -n 1 crates.txt | cut -d : -f 1)
mkdir "crates/$name/out" && cp "${0%/*}/program" "crates/$name/out/$name"
"""
FRAME = ("certpath", "frame", "x")
# What words print: of those that are handed on, what the program is given.
PRINTED = {usage.GENERAL: ("--help", "-h", "help", "help version"),
           f"words: path --help\n\n{usage.ENDS}": ("path --help", "path a -h", "help path"),
           "words: frame x\n": ("frame x",), "words: frame /dev/stdin\n": ("frame -",),
           "words: bundle - a\n": ("bundle - a",), "words: frame -- --help\n": ("frame -- --help",),
           "words: path a /dev/stdin b\n": ("path a - b",)}
# Words that are refused, and what is said of them.
REFUSED = (([], "a command is missing"), (["pth"], "'pth'"), (["-"], "'-'"), (["--hlep"], "'--hlep'"), ([""], "''"),
           (["help", "pth"], "'pth'"), (["x" * 5_000], f" '{'x' * 200}..';"), (["-" + "x" * 5_000], "x..';"),
           (["--build", "x"], "no program 'x'"), (["path", "-", "-", "x"], "one file only"),
           (["paths", "a", "b", "c", "--evidence=-"], "--evidence needs a file"))


class Wrapper(Trial):
    def setUp(self):
        room = tempfile.TemporaryDirectory(prefix="wrapper-")
        self.addCleanup(room.cleanup)
        self.copy, self.temporary, self.tools = (
            pathlib.Path(room.name, name) for name in ("copy", "temporary", "tools"))
        self.temporary.mkdir()
        sources.put(self.tools / "rt", FAKE_RT.encode(), 0o755)
        shutil.copytree(os.path.join(repo.TOP, "tools"), self.copy / "tools")
        for name in ("certpath", "rows", "HANDLES"):
            shutil.copy2(os.path.join(repo.TOP, name), self.copy)
        self.put("crates.txt", "".join(f"{name}: {below}\n" for name, below in CRATES.items()))
        for name in CRATES:
            self.put(f"crates/{name}/src/main.rt", "// a source\n")
        self.put(programs.LIBRARY_RECORD, f"sources {sources.digest(programs.LIBRARY, self.copy)}\n")
        self.build()

    def put(self, path, text):
        sources.put(self.copy / path, text.encode())

    def ran(self, *words, rt=None, stdout=subprocess.PIPE, is_stopped=False):
        """A script's status, its output, and its lines on standard error: with no toolchain, or with one
        that does as `rt` says. One that is to be stopped gets a signal after two lines."""
        environment = {"PATH": f"{self.tools if rt else ''}", "TMPDIR": f"{self.temporary}", "RT_CI": rt or ""}
        child = subprocess.Popen([*INTERRUPTIBLE, sys.executable, "-IS", self.copy / words[0], *words[1:]],
                                 cwd=self.copy, text=True, env=environment, stdin=subprocess.DEVNULL,
                                 stdout=stdout, stderr=subprocess.PIPE)
        first = [child.stderr.readline() for _ in range(2 * is_stopped)]
        if is_stopped:
            child.terminate()
        output, error = child.communicate(timeout=SECONDS)
        return child.returncode, output, "".join([*first, error]).splitlines()

    def build(self, words="--build", octets=PRINTING):
        """Builds a program of these octets; gives what `ran` gives."""
        sources.put(self.tools / "program", octets)
        return self.ran("certpath", *words.split(), rt=BUILDS)

    def refuses(self, words, status, *names):
        """A row: one line on standard error, in which the names are; so no build begins."""
        got, output, error = self.ran(*words, rt=BUILDS)
        lacks = [name for name in names if name not in " ".join(error)]
        self.same(f"{words} {names}", (got, output, len(error), lacks), (status, "", 1, []))

    def test_words(self):
        """What ./certpath answers itself, what it hands on to the program, and what it refuses."""
        digest = sources.digest(programs.CERTPATH, self.copy)
        version = f"certpath {usage.VERSION}\nsources {digest}\nprogram dist/certpath, built by {KIT}\n"
        for text, asking in {**PRINTED, version: ("--version", "-V", "version")}.items():
            for words in asking:
                self.same(words, self.ran("certpath", *words.split()), (0, text, []))
        for words, name in REFUSED:
            self.refuses(["certpath", *words], 2, name, "./certpath --help")
        os.symlink("certpath", self.copy / "linked")
        self.same("a link", self.ran("linked", "frame"), (0, "words: frame\n", []))
        with open("/dev/full", "wb") as full:
            self.same("--help >/dev/full", self.ran("certpath", "--help", stdout=full),
                      (7, None, ["cannot write"]))

    def test_bad_programs(self):
        """What is wrong with dist/ is one line with the remedy, and nothing is run or built."""
        program = self.copy / programs.SHIPPED
        for name, change in (("Permission denied", lambda: os.chmod(program, 0o644)),
                             ("glibc 2.17", lambda: self.build(octets=b"\x7fELF and no more" + NEEDED)),
                             ("changed", lambda: self.put(program, "another program")),
                             ("missing", lambda: os.remove(program))):
            change()
            self.refuses(FRAME, 70, programs.SHIPPED, name, BUILD)
        self.put(programs.SHIPPED_RECORD, "no record\n")
        self.refuses(FRAME, 70, programs.SHIPPED_RECORD, BUILD)

    def test_older(self):
        """If dist/ is older than the sources, one line says so, and nothing is built."""
        os.symlink("nobody", (self.copy / MAIN).with_name(".#main.rt"))
        self.put(f"{MAIN}~", "// an earlier source\n")
        self.same("copies of editors", self.ran(*FRAME), (0, "words: frame x\n", []))
        self.put(MAIN, "// another source\n")
        for words in (FRAME, ("certpath", "help", "path")):
            self.refuses(words, 69, OLDER, BUILD)
        self.refuses(["rows", "cert"], 70, f"{BUILD} rows_cert")
        self.same("--version", OLDER in self.ran("certpath", "--version")[1], True)

    def test_builds(self):
        """A build puts the program in place; one that fails leaves all as it was."""
        self.put(f"crates/{programs.CERTPATH}/src/main.rt", "// another source\n")
        for rt, said in ((None, "rt, the toolchain"), (FAILS, "rt ci failed")):
            status, output, error = self.ran("certpath", "--build", rt=rt)
            self.same(said, (status, output, said in error[-1], self.ran(*FRAME)[0]), (70, "", True, 69))
        for words, path, run in (("--build", programs.SHIPPED, FRAME),
                                 ("--build rows_cert", "out/programs/rows_cert", ("rows", "cert"))):
            status, output, error = self.build(words)
            self.same(words, (status, output, "2 crates" in error[0], len(error)),
                      (0, f"{self.copy / path}\n", True, 2))
            self.same(f"after {words}", self.ran(*run)[::2], (0, []))
        self.same("what is left", os.listdir(self.temporary), [])

    def test_stopped_build(self):
        """A build that is stopped says so, and leaves no process and no file."""
        status, _, error = self.ran("certpath", "--build", rt=HANGS, is_stopped=True)
        left = [*os.listdir(self.temporary), *filter(os.path.exists, [f"/proc/{error[1].split()[1]}"])]
        self.same("stopped", (status, error[2:], left), (143, ["stopped by SIGTERM"], []))
