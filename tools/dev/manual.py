#!/usr/bin/env python3
"""Writes the manual page docs/certpath.1 from docs/CLI.md, and the completion of bash from the commands' own helps.

    python3 tools/dev/manual.py
"""
import os
import re
import shutil
import subprocess
import sys
import textwrap

sys.dont_write_bytecode = True
sys.path.insert(0, os.path.dirname(os.path.dirname(os.path.abspath(__file__))))
from install import completions
from program import repo, usage

SOURCE, PAGE, COMPLETION = "docs/CLI.md", "docs/certpath.1", "completion/certpath.bash"
REMEDY = "run python3 tools/dev/manual.py"
OPTION = re.compile(r"(?m)^ +(?:-\w, )?(--[a-z][a-z-]*)")
RULE = re.compile(r"\|(?:-+\|)+")
LINK = re.compile(r"\[([^\]]*)\]\(([^)#]*)[^)]*\)")
# What the page describes, as `man` lists it; the sections of these commands begin with their forms.
NAMES = ("certpath", "verify", "bundle", "vouch")
SECTION = re.compile(r"(?ms)^## `([a-z]+)[^`\n]*`\n(.*?)(?=^## |\Z)")
# The links of the page itself, which a manual page has no use for.
CONTENTS = "Also:"
SEE_ALSO = "openssl-verify(1), openssl-x509(1), openssl-crl(1); README.md and the folder docs of the repository"


def plain(text):
    """A text without the marks of Markdown, as roff wants it: commands and words to type in bold."""
    text = LINK.sub(linked, text).replace("\\", "\\e").replace("-", "\\-")
    text = re.sub(r"\*\*([^*]+)\*\*", r"\\fB\1\\fR", text)
    text = re.sub(r"`([^`]+)`", r"\\fB\1\\fR", text)
    return f"\\&{text}" if text[:1] in (".", "'") else text


def linked(link):
    """The text of a link, and the page that it leads to where that is another one."""
    text, page = link[1], link[2]
    if not page:
        return text
    path = os.path.normpath(os.path.join(os.path.dirname(SOURCE), page))
    return path if text == page else f"{text} ({path})"


def heading(line):
    """The line of roff for a heading, without marks: capitals are made of the words alone."""
    title = line.lstrip("# ").replace("`", "").upper().replace("-", "\\-")
    return f'{".SH" if line.startswith(("# ", "## ")) else ".SS"} "{title}"'


def synopsis(text):
    """The forms of the commands that the page is named for: the block that each section begins with."""
    yield from (".SH SYNOPSIS", ".nf")
    for name, section in SECTION.findall(text):
        first = blocks(section)[0]
        if name in NAMES and first[0].startswith("    "):
            yield from (plain(entry[4:]) for entry in first)
    yield ".fi"


def row_of(line):
    """The cells of a table's line."""
    return [part.strip().replace("\\|", "|") for part in re.split(r"(?<!\\)\|", line.strip().strip("|"))]


def table(lines):
    """A table: for each row its first cell as the word, and the others as what is said of it; from the third on with their titles."""
    titles = row_of(lines[0])
    for line in lines[2:]:
        first, *rest = row_of(line)
        said = [entry if number == 1 else f"{title}: {entry}" for number, (title, entry) in enumerate(zip(titles[1:], rest), 1) if entry]
        yield from (".TP", plain(first), plain("; ".join(said)) or "\\&")


def blocks(text):
    """The blocks of a page: lines without an empty one between them; an indented block keeps its own."""
    found = []
    for line in text.split("\n"):
        if line.startswith("    ") and found and (found[-1] and found[-1][-1].startswith("    ") or not found[-1]):
            found[-1].append(line)
        elif line:
            if found and found[-1]:
                found[-1].append(line)
            else:
                found.append([line])
        else:
            found.append([])
    return [entry for entry in found if entry]


def of_block(lines):
    """The lines of roff for a block."""
    first = lines[0]
    if first.startswith(CONTENTS):
        return
    if first.startswith("#"):
        yield heading(first)
        if lines[1:]:
            yield from of_block(lines[1:])
    elif first.startswith("    "):
        yield from (".PP", ".nf", ".RS 4", *(plain(line[4:]) for line in lines), ".RE", ".fi")
    elif first.startswith("|") and len(lines) > 1 and RULE.fullmatch(lines[1]):
        yield from table(lines)
    elif re.match(r"(?:[-*]|\d+\.) ", first):
        for item in re.split(r"\n(?=(?:[-*]|\d+\.) )", "\n".join(lines)):
            mark, _, rest = item.partition(" ")
            yield from (f".IP {chr(92)}(bu 3" if mark in "-*" else f".IP {mark} 3", plain(" ".join(rest.split())))
    else:
        yield from (".PP", plain(" ".join(lines)))


# A line of roff has at most so many characters, as `mandoc -Tlint` wants it; lines that keep their form may be longer.
WIDTH = 80
LOG, DATE = "CHANGELOG.md", re.compile(r"(?m)^## [\d.]+ - (\d{4}-\d\d-\d\d)$")


def fitted(lines):
    """The lines of a page as `mandoc -Tlint` wants them: no paragraph begins right after a heading, and text is cut at blanks."""
    is_form, before = False, ""
    for line in lines:
        is_form = line == ".nf" or is_form and line != ".fi"
        if line != ".PP" or not before.startswith((".SH", ".SS")):
            if line.startswith(".") or is_form:
                yield line
            else:
                cut = textwrap.wrap(line, WIDTH, break_long_words=False, break_on_hyphens=False)
                yield from (f"\\&{entry}" if entry.startswith((".", "'")) else entry for entry in cut)
        before = line


def date():
    """The day of the version, by the change log."""
    found = DATE.search(repo.read(LOG))
    return found[1] if found else ""


def page():
    """The manual page."""
    _, _, body = repo.read(SOURCE).partition("\n")
    head = [f'.TH CERTPATH 1 "{date()}" "certpath {usage.VERSION}"', ".SH NAME",
            f"{', '.join(NAMES)} \\- X.509 certificates, revocation lists and certificate paths"]
    lines = [line for block in blocks(body) for line in of_block(block)]
    return "\n".join(fitted([*head, *synopsis(body), ".SH COMMANDS", *lines, '.SH "SEE ALSO"', plain(SEE_ALSO)])) + "\n"


def completion():
    """The completion of bash in a checkout."""
    return completions.bash(is_installed=False)


MADE = {PAGE: page, COMPLETION: completion}


def faults():
    """A line for each file that isn't what its sources say, and for what `mandoc` finds, if it is installed."""
    for path, made in MADE.items():
        try:
            held = repo.read(path)
        except OSError:
            held = None
        if held != made():
            yield f"{path}: it isn't what {SOURCE} and the commands' helps say: {REMEDY}"
    if shutil.which("mandoc"):
        lint = subprocess.run(["mandoc", "-Tlint", os.path.join(repo.TOP, PAGE)], capture_output=True, text=True, check=False)
        yield from (lint.stdout + lint.stderr).splitlines()


def main():
    for path, made in MADE.items():
        os.makedirs(os.path.dirname(os.path.join(repo.TOP, path)), exist_ok=True)
        with open(os.path.join(repo.TOP, path), "w", encoding="utf-8") as file:
            file.write(made())


if __name__ == "__main__":
    sys.exit(main())
