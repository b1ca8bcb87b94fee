"""Tries each message of ./bundle, ./vouch and ./verify once: what is typed, what is printed, the status; and where the
message says what to do, that this works. The messages are read from the sources: one that no row prints, and that isn't
known to be tried elsewhere, is a failure. tools/trials/verifying.py runs these too."""
import ast
import glob
import os
import re
import shlex
import subprocess
import sys
import tempfile
from concurrent.futures import ThreadPoolExecutor

from program import repo
from trials import messages_files
from trials.count import size
from trials.messages_rows import ABSENT, ELSEWHERE, ROWS
from trials.vouching_pki import Workshop

RUNS, SECONDS = 3, 600
# The smaller size has one row of so many.
SAMPLED = 4
SOURCES = ("vouch", "verify", "tools/pki/*.py", "tools/verify/*.py")
# Patterns of what `certpath why` prints, and no messages.
PATTERNS = "tools/verify/report.py"
# Arguments of argparse that are help, and no message.
OF_HELP = {"help", "description", "epilog", "usage", "metavar"}
# A message has two words, or a word and what is filled in, and no HTML.
MESSAGE, NO_MESSAGE = re.compile(r"[A-Za-z']{2,} [a-z]|[a-z]{2,} [A-Za-z]|[a-z]+, |[a-z]{2,} \{\}"), re.compile(r"[<>]|\\[dSZ]|\{(color|background)|: light|[^.]\n")
# What is filled in: by an f-string, or by `format`.
FILLED = re.compile(r"\{\w*\}")


def plain(node):
    """The text of a string in a source, with {} for what is filled in; none of another node."""
    if isinstance(node, ast.Constant) and isinstance(node.value, str):
        return node.value
    if isinstance(node, ast.JoinedStr):
        return "".join(it.value if isinstance(it, ast.Constant) else "{}" for it in node.values)
    return None


def passed_over(tree):
    """The strings of a source that are no message of their own: doc strings, help, and parts of other strings."""
    found = set()
    for node in ast.walk(tree):
        if isinstance(node, ast.Expr) and isinstance(node.value, ast.Constant):
            found.add(id(node.value))
        if isinstance(node, ast.keyword) and node.arg in OF_HELP:
            found |= {id(it) for it in ast.walk(node.value)}
        if isinstance(node, ast.JoinedStr):
            found |= {id(it) for it in node.values if isinstance(it, ast.Constant)}
    return found


def messages():
    """The messages of all sources, each with the first line that has it."""
    found = {}
    paths = [os.path.relpath(it, repo.TOP) for pattern in SOURCES for it in sorted(glob.glob(os.path.join(repo.TOP, pattern)))]
    for path in (it for it in paths if it != PATTERNS):
        tree = ast.parse(repo.read(path))
        over = passed_over(tree)
        for node in ast.walk(tree):
            text = None if id(node) in over else plain(node)
            if text and MESSAGE.search(text) and not NO_MESSAGE.search(text):
                found.setdefault(text, f"{path}:{node.lineno}")
    return found


def is_printed(text, lines):
    """Whether a message stands in one of the lines, its parts in their order."""
    parts = [it for it in FILLED.split(text) if it.strip()]
    return any(parts[0] in line and are_in(parts, line) for line in lines)


def are_in(parts, line):
    """Whether parts stand in a line, in their order."""
    at = 0
    for it in parts:
        at = line.find(it, at)
        if at < 0:
            return False
        at += len(it)
    return True


class Commands:
    """Runs command lines in the workshop's folder, and keeps all that they print."""

    def __init__(self, room):
        self.room, self.printed = room, []

    def run(self, typed, octets=b"", setting=None, path=None):
        """The status and the lines of a command line: both outputs, or of a shell where it has such words."""
        environment = {**os.environ, "PYTHONDONTWRITEBYTECODE": "1", "TERM": "dumb", **({"PATH": path} if path else {})}
        if setting:
            words = [sys.executable, "-c", patched(setting), *shlex.split(typed)]
        elif re.search(r"[<>|&;]", typed):
            words = ["sh", "-c", typed.replace("./", f"{shlex.quote(repo.TOP)}/")]
        else:
            script, *rest = shlex.split(typed)
            words = [sys.executable, os.path.join(repo.TOP, script), *rest]
        ran = subprocess.run(words, cwd=self.room, input=octets, env=environment, stdout=subprocess.PIPE, stderr=subprocess.PIPE, timeout=SECONDS)
        lines = [*ran.stderr.decode().splitlines(), *ran.stdout.decode(errors="replace").splitlines()]
        self.printed += lines
        return ran.returncode, lines


def patched(setting):
    """A program that runs a script, the first word, after a setting that something isn't there."""
    tools = os.path.join(repo.TOP, "tools")
    run = f"script = sys.argv[1]; sys.argv = sys.argv[1:]; runpy.run_path({repo.TOP!r} + '/' + script, run_name='__main__')"
    return f"import runpy, sys; sys.path[:0] = [{tools!r}, {os.path.join(repo.TOP, 'python')!r}]\n{setting}\n{run}"


def missing_from(lines, said):
    """Which of the lines that are wanted aren't among those that are printed."""
    return [it for it in said if not any(it in line for line in lines)]


def tried(commands, row):
    """A row: what is printed and the status, and the remedy's status."""
    status, lines = commands.run(row.typed, row.octets, row.setting, row.path and row.path.replace("ROOM", commands.room))
    wanted = (row.status, [], True)
    # (by --json a fault is an object too)
    is_short = status not in (2, 4, 6, 70) or not row.typed.startswith("verify") or len(lines) == 1 + ("--json" in row.typed.split())
    yield row.typed, (status, missing_from(lines, row.said), is_short), wanted, lines
    if row.remedy:
        status, lines = commands.run(row.remedy, row.octets)
        yield f"{row.typed}: its remedy, {row.remedy}", (status, []), (row.ends, []), lines


def untried(printed):
    """The messages that nothing printed, and that aren't known to be tried elsewhere."""
    lines = {*printed}
    for message, place in messages().items():
        if message not in ELSEWHERE and message not in ABSENT and not is_printed(message, lines):
            yield f"{place}: {message!r}"


def trials(t):
    """Tries all rows, and looks whether they are all messages."""
    with tempfile.TemporaryDirectory(prefix="messages-") as room, ThreadPoolExecutor(RUNS) as runs:
        messages_files.make(Workshop(room))
        commands = Commands(room)
        for found in runs.map(lambda it: [*tried(commands, it)], ROWS[::size(1, SAMPLED)]):
            for title, is_so, wanted, lines in found:
                t.same(f"{title}: {lines!r:.500}" if is_so != wanted else title, is_so, wanted)
    if size(True, False):
        t.same("messages that no row prints", [*untried(commands.printed)], [])
    known = messages()
    t.same("messages that are tried elsewhere and aren't there", [it for it in (*ELSEWHERE, *ABSENT) if it not in known], [])
    for message, (file, text) in ELSEWHERE.items():
        t.same(f"{message!r} in {file}", text in repo.read(file), True)
