"""Which command lines of pages are run, and which aren't, each with the reason.

A command line is a line of a code block that begins with `$ `, as README.md has them: `readme.py` runs it, and compares what it
prints with what is below it. A line without `$ ` that begins as a command does has to be a form, with a word in capitals,
brackets or two points that stand for something, or has a reason here too. `tools/gate/quick.py` asks `faults`.
"""
import os
import re
import shutil

from program import repo

INDENT, PROMPT, GOES_ON = "    ", "$ ", "\\"
FENCE, OF_SHELL = re.compile(r"```(\w*)"), ("", "sh", "bash", "console")
HEADERS = "/usr/include/openssl/x509.h"
# How a line begins that is a command.
COMMAND = re.compile(r"(?:\(\w|\./\w|bench/|examples/|tools/|certpath-\w|[A-Z_]+=|(?:python3?|pip|apt-get|apt|rt|openssl|cc|git|grep|od|echo|cat|cd|cp|"
                     r"dask|export|curl|sudo|docker|go|rustc|cargo|tail|time) )")
# What no command line is: it has a word for something else.
FORM = re.compile(r"\[|\.\.(?:\s|$)|\b(?:BUNDLE|CERTIFICATES|COMMAND|CRATE|FILE|FOLDER|HEX|KEYS|KIND|LINES|N|NAME|NEW|OLD|PAGE|PREFIX|WORD)\b")
NEEDS_RT, IS_GATE = "it needs rt", "it runs the looks and trials, of which this is one"
WHEEL = "tools/trials/installing_wheel.py runs it, in a copy that goes away"
# Page, how the line begins, and why it isn't run.
NOT_RUN = (
    ("CONTRIBUTING.md", "rt ", NEEDS_RT),
    ("CONTRIBUTING.md", "./test ", IS_GATE),
    ("README.md", "python3 -m venv", WHEEL),
    ("README.md", "certpath-env/", WHEEL),
    ("bench/README.md", "(cd crates/", NEEDS_RT),
    ("bench/hostile/README.md", "", "it takes minutes, and the gate runs it"),
    ("docs/CLI.md", "./certpath --version", "it prints the digest of the sources, which each change of one changes"),
    ("docs/CLI.md", "./certpath --build", NEEDS_RT),
    ("docs/EMBEDDING.md", "", "tools/trials/embedding_page.py runs it, with the programs of the page"),
    ("docs/GATE.md", "", NEEDS_RT),
    ("docs/INSTALL.md", "python3 -m ", WHEEL),
    ("docs/INSTALL.md", "certpath-env/", WHEEL),
    ("docs/INSTALL.md", "python3 tools/install/debian.py", "tools/trials/installing_prefix.py runs it, into a folder that goes away"),
    ("docs/INSTALL.md", "sudo apt-get", "it changes the machine; tools/trials/installing_prefix.py unpacks the package elsewhere"),
    ("docs/INSTALL.md", "docker ", "it needs docker, or podman; tools/trials/installing_prefix.py runs it if that works"),
    ("docs/PERF.md", "", "it needs rt, and another checkout"),
    ("docs/SCALE.md", "", "it is about logs of the reader's, and needs Dask; tools/trials/scaling.py runs such lines"),
    ("examples/c/README.md", "", "tools/trials/embedding.py compiles and runs what it does"),
    ("python/README.md", "certpath-verify", "it is about files of the reader's; tools/trials/installing_wheel.py runs the command where it is installed"),
    ("", "echo 'der:u32 02 03 00 00 01' | ./rows", "its program isn't in dist/, and rt builds it"),
)
# What a page's commands need of the machine, by how one of them begins; without it none of the page's is run.
NEEDED = (("cc ", lambda: shutil.which("cc") and os.path.exists(HEADERS), "there is no C compiler, or no header of OpenSSL"),)


def found_pages():
    """Each page of the repository, by its path from the top."""
    for at, folders, names in os.walk(repo.TOP):
        folders[:] = sorted(name for name in folders if name not in (".git", "out", "__pycache__"))
        yield from (os.path.relpath(os.path.join(at, name), repo.TOP) for name in sorted(names) if name.endswith(".md"))


def blocks(page):
    """The code blocks of a page, each as its lines with their numbers and without the indent; lines of lists aren't code.
    Blocks between fences count if these name a shell, or no language."""
    found, is_block, before, fence = [], False, "", None
    for number, line in enumerate(page.splitlines(), 1):
        mark = FENCE.match(line)
        if mark:
            fence = mark[1] if fence is None else None
            if fence in OF_SHELL:
                found.append([])
        elif fence is not None:
            if fence in OF_SHELL:
                # (readme.py runs what is indented alone)
                found[-1].append((number, line.removeprefix(PROMPT)))
        elif line.startswith(INDENT) and (is_block or not before.strip()):
            if not is_block:
                found.append([])
            found[-1].append((number, line[len(INDENT):]))
            is_block = True
        else:
            is_block = False
        before = line
    return [block for block in found if block]


def command_lines(page):
    """The lines of code blocks that begin as commands do: number, text, and whether it is one that is run."""
    for block in blocks(page):
        is_run, goes_on = block[0][1].startswith(PROMPT), False
        for number, line in block:
            if line.startswith(PROMPT):
                yield number, line[len(PROMPT):], True
            elif not is_run and not goes_on and COMMAND.match(line):
                yield number, line, False
            goes_on = line.endswith(GOES_ON)


def reason(path, line):
    """Why a command of a page isn't run; none if it is."""
    return next((why for page, begin, why in NOT_RUN if page in ("", path) and line.startswith(begin)), None)


def lacking(path):
    """What the machine lacks for the commands of a page; none if it has all."""
    lines = [line for _, line, is_run in command_lines(repo.read(path)) if is_run]
    return next((why for begin, is_there, why in NEEDED if any(line.startswith(begin) for line in lines) and not is_there()), None)


def pages():
    """The pages with a command that is run."""
    return [path for path in found_pages()
            if any(is_run and not reason(path, line) for _, line, is_run in command_lines(repo.read(path)))]


def faults():
    """Command lines that are neither run nor excepted, and exceptions that no page needs."""
    unused = {*NOT_RUN}
    for path in found_pages():
        for number, line, is_run in command_lines(repo.read(path)):
            why = reason(path, line)
            if not is_run and not FORM.search(line) and not why:
                yield f"{path}:{number}: a command line that no trial runs: begin it with `$ `, or give the reason in tools/trials/page_commands.py: {line}"
            unused -= {row for row in unused if why and row[0] in ("", path) and line.startswith(row[1])}
    for page, begin, _ in sorted(unused):
        yield f"tools/trials/page_commands.py: {page or 'no page'} has no line that begins with {begin!r}"
