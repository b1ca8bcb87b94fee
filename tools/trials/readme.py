#!/usr/bin/env python3
"""Runs the commands of pages, and compares what each prints with what is below it; page_commands.py says which commands aren't run.

    python3 tools/trials/readme.py --write PAGE   puts what the commands print below them, for a reader to compare with what is right

A command is a line of a code block that begins with `$ `, with the lines after it while they end in a backslash; the lines
to the next command, or to the end of the block, are what it has to print on standard output and standard error. All commands of a page run in one copy of the repository, in
their order. Nothing is built: the commands find an `rt` that fails.
"""
import os
import re
import shutil
import signal
import subprocess
import sys
import tempfile

sys.path.insert(0, os.path.dirname(os.path.dirname(os.path.abspath(__file__))))
from program import repo
from trials import page_commands
from trials.count import Trial

PROMPT, INDENT, GOES_ON = "$ ", "    ", "\\"
SECONDS = 600
# What a command line calls that is no script of the repository, once what is in quotes is away.
CALLED, QUOTED = re.compile(r"(?:^|[|;&])\s*([a-z][\w-]*)(?![\w/-])"), re.compile(r"'[^']*'|\"[^\"]*\"")
# What is in the place of `rt`.
HIDDEN = """#!/bin/sh
echo "rt: the commands of a page build nothing" >&2
exit 1
"""


def blocks(page):
    """The code blocks of a page, each as its lines without the indent."""
    found, lines = [], []
    for line in [*page.splitlines(), ""]:
        if line.startswith(INDENT):
            lines.append(line[len(INDENT):])
        elif lines:
            found.append(lines)
            lines = []
    return found


def commands(page):
    """The commands of a page in their order, each with the lines that it has to print."""
    found = []
    for lines in blocks(page):
        if not lines[0].startswith(PROMPT):
            continue
        goes_on = False
        for line in lines:
            if goes_on:
                found[-1] = (f"{found[-1][0]}\n{line}", [])
            elif line.startswith(PROMPT):
                found.append((line[len(PROMPT):], []))
            else:
                found[-1][1].append(line)
                continue
            goes_on = line.endswith(GOES_ON)
    return found


def copied(room):
    """Copies the repository without what checks leave; gives the copy."""
    top = os.path.join(room, "copy")
    shutil.copytree(repo.TOP, top, ignore=shutil.ignore_patterns(".git", "out", "__pycache__"))
    return top


def hidden(room):
    """The environment of the commands, in which `rt` fails."""
    folder = os.path.join(room, "bin")
    os.mkdir(folder)
    with open(os.path.join(folder, "rt"), "w", encoding="utf-8") as file:
        file.write(HIDDEN)
        os.chmod(file.name, 0o755)
    return {**os.environ, "PATH": os.pathsep.join([folder, os.environ.get("PATH", os.defpath)])}


def printed(command, top, environment):
    """What a command prints, as lines without blanks at their ends; or that it was ended."""
    child = subprocess.Popen(["bash", "-c", command], cwd=top, env=environment, stdin=subprocess.DEVNULL, stdout=subprocess.PIPE,
                             stderr=subprocess.STDOUT, text=True, errors="replace", start_new_session=True)
    try:
        return [line.rstrip() for line in child.communicate(timeout=SECONDS)[0].splitlines()]
    except subprocess.TimeoutExpired:
        os.killpg(child.pid, signal.SIGKILL)
        child.communicate()
        return [f"(ended after {SECONDS} seconds)"]


def tried(path):
    """The commands of a page that are run, each with the lines that are wanted."""
    return [command for command in commands(repo.read(path)) if not page_commands.reason(path, command[0])]


def page_rows(path):
    """Runs the commands of a page; gives each with the lines that are wanted and those that it printed."""
    with tempfile.TemporaryDirectory() as room:
        top, environment = copied(room), hidden(room)
        for command, lines in tried(path):
            yield command, lines, printed(command, top, environment)


def filled(page, outputs):
    """A page with the outputs of its commands, in their order, below them."""
    found, outputs, is_output, goes_on = [], iter(outputs), False, False
    for line in page.splitlines():
        if goes_on or line.startswith(INDENT + PROMPT):
            found.append(line)
            is_output, goes_on = True, line.endswith(GOES_ON)
            if not goes_on:
                found += (INDENT + entry for entry in next(outputs))
        elif not is_output or not line.startswith(INDENT):
            found.append(line)
            is_output = False
    return "\n".join(found) + "\n"


def write(path):
    page = repo.read(path)
    with tempfile.TemporaryDirectory() as room:
        top, environment = copied(room), hidden(room)
        outputs = [lines if page_commands.reason(path, command) else printed(command, top, environment) for command, lines in commands(page)]
    with open(os.path.join(repo.TOP, path), "w", encoding="utf-8") as file:
        file.write(filled(page, outputs))


class Readme(Trial):
    def test_pages(self):
        for path in page_commands.pages():
            with self.subTest():
                lack = page_commands.lacking(path)
                if lack:
                    self.skipTest(f"{path}: {lack}")
                wanted = tried(path)
                self.need("bash", *sorted({word for command, _ in wanted for word in CALLED.findall(QUOTED.sub("", command))}))
                self.need_libcrypto()
                self.page(path)

    def page(self, path):
        for command, lines, found in page_rows(path):
            marked = [*(f"    wanted: {line}" for line in lines), *(f"    printed: {entry}" for entry in found)]
            self.row(found == lines, "\n".join([f"{path}: {command}", *marked]))


if __name__ == "__main__":
    if sys.argv[1:2] != ["--write"] or len(sys.argv) != 3:
        sys.exit(__doc__)
    write(sys.argv[2])
