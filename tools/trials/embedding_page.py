"""Runs docs/EMBEDDING.md as a reader would: each program of the page is written into the file that its
first line names, and each command is run in the page's order, and compared with what is below it."""
import os
import re
import shutil
import tempfile

from program import repo
from trials import readme
from trials.count import Trial

PAGE = os.path.join("docs", "EMBEDDING.md")
SECTION = re.compile(r"(?m)^## (.+)$")
# A program of the page: its first line is a comment with the file's name.
PROGRAM = re.compile(r"(?ms)^```[a-z]+\n((?:/\* (\w+\.c) \*/|# (\w+\.py)|// (\w+\.(?:go|rs)))\n.*?)^```$")
# The heading of each language, and the programs and commands that it has at least.
LANGUAGES = {"C": (1, 7), "Python": (1, 1), "Go": (1, 2), "Rust": (1, 3)}
HEADERS = "/usr/include/openssl/evp.h"


def sections():
    """The sections of the page, by their headings."""
    parts = SECTION.split(repo.read(PAGE))
    return dict(zip(parts[1::2], parts[2::2]))


def linked(room):
    """A folder with what the repository has, in which the commands write."""
    for name in os.listdir(repo.TOP):
        if not name.startswith("."):
            os.symlink(os.path.join(repo.TOP, name), os.path.join(room, name))


def environment(apart):
    """That of the commands: what compilers keep goes into another folder, and nothing is fetched."""
    return {**os.environ, "PYTHONDONTWRITEBYTECODE": "1", "GOPROXY": "off", "GOFLAGS": "",
            "CGO_ENABLED": "1", "CARGO_TARGET_DIR": os.path.join(apart, "target"),
            "GOCACHE": os.path.join(apart, "cache"), "GOPATH": os.path.join(apart, "path")}


class EmbeddingPage(Trial):
    def section(self, heading):
        """Runs a section: writes its programs, and compares what its commands print."""
        self.need("bash")
        text = sections()[heading]
        programs, commands = PROGRAM.findall(text), readme.commands(text)
        self.same(f"{PAGE}: programs in {heading}", text.count("```") // 2, len(programs))
        self.row((len(programs), len(commands)) >= LANGUAGES[heading], f"{PAGE}: too few in {heading}")
        with tempfile.TemporaryDirectory() as room, tempfile.TemporaryDirectory() as apart:
            linked(room)
            for program, *names in programs:
                with open(os.path.join(room, "".join(names)), "w", encoding="utf-8") as file:
                    file.write(program)
            for command, lines in commands:
                found = readme.printed(command, room, environment(apart))
                self.same(f"{PAGE}: {command}", found, lines)

    def test_headings(self):
        languages = [it for it in sections() if "```" in sections()[it]]
        self.same(f"{PAGE}: sections with programs", languages, [*LANGUAGES])

    def test_c(self):
        self.need("cc")
        if not os.path.exists(HEADERS):
            self.skipTest(f"{PAGE}: no headers of OpenSSL, {HEADERS}")
        self.section("C")

    def test_python(self):
        self.need_libcrypto()
        self.section("Python")

    def test_go(self):
        if not shutil.which("go"):
            self.skipTest(f"{PAGE}: go isn't installed")
        self.section("Go")

    def test_rust(self):
        if not (shutil.which("cargo") and shutil.which("rustc")):
            self.skipTest(f"{PAGE}: cargo or rustc isn't installed")
        self.section("Rust")
