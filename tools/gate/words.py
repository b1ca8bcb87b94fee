#!/usr/bin/env python3
"""Looks for words that docs/GLOSSARY.md avoids: in comments, in what scripts print, and in names.

    python3 tools/gate/words.py [PATH..]  prints each place, of all files or of those whose paths begin so
    python3 tools/gate/words.py --write   lowers the counts of tools/gate/words.txt to what the files have

What is looked at: doc comments and names of crates/NAME/src, comments and names of crates/NAME/specs, and comments, texts and
names of scripts in Python. In a name a word counts by itself, between underscores and capitals: `told_front`, `TellsPair`.

tools/gate/words.txt counts them in each file from before the rule: a line `COUNT PATH`. A count may fall, and never rise. A
word that begins with a capital letter is looked for in comments alone, and as it is; any other in small and capital letters.
"""
import io
import os
import re
import sys
import tokenize

sys.path.insert(0, os.path.dirname(os.path.dirname(os.path.abspath(__file__))))
from program import repo

PAGE, COUNTS = "docs/GLOSSARY.md", os.path.join("tools", "gate", "words.txt")
HEADING = "## Words that are avoided"
DOC = re.compile(r"^\s*//[/!](.*)$")
CODE = re.compile(r"`[^`]*`")
# What a line of Rattle or of a page of definitions has beside names.
COMMENT, TEXT = {".rt": re.compile(r"//.*$"), ".antt": re.compile(r"--.*$")}, re.compile(r'"(?:[^"\\]|\\.)*"')
NAME = re.compile(r"[A-Za-z_]\w*")
PART = re.compile(r"[A-Z]?[a-z]+")
# "stands for" in a name.
FOR_IN_NAME = re.compile(r"[Ss]tands_?[Ff]or(?![a-z])")
# "stands for" means what it means elsewhere.
UNLESS = r"(?! for\b)"
# Scripts without a suffix.
COMMANDS = ("bundle", "certpath", "rows", "test", "verify", "vouch")
FOLDERS = ("bench", "completion", "examples", "python", "tools")
# The word list itself, and what has to name such words.
THESE = ("tools/gate/words.py",)


def listed():
    """The words of the glossary's last table."""
    table = repo.read(PAGE).partition(HEADING)[2]
    words = [word for row in table.splitlines() if row.startswith("|") for word in re.findall(r'"([^"]+)"', row.split("|")[1])]
    return sorted(words, key=len, reverse=True)


def avoided():
    """The words as one pattern for comments, and those that a name may not hold."""
    words = listed()
    pattern = "|".join(rf"\b{word}\b" if word[0].isupper() else rf"(?i:\b{word}\b{UNLESS})" for word in words)
    return re.compile(pattern), {word for word in words if word.isalpha() and word.islower()}


def in_names(text, parts):
    """The avoided words within the names of a text."""
    names = (FOR_IN_NAME.sub("", name) for name in NAME.findall(text))
    return [part.lower() for name in names for part in PART.findall(name) if part.lower() in parts]


def of_rattle(path, pattern, parts):
    """The lines of a source or of a page of definitions that have such words."""
    suffix = os.path.splitext(path)[1]
    for number, line in enumerate(repo.read(path).splitlines(), 1):
        doc = DOC.match(line) if suffix == ".rt" else COMMENT[suffix].search(line)
        said = doc[1] if doc and suffix == ".rt" else doc[0] if doc else ""
        code = TEXT.sub("", COMMENT[suffix].sub("", line))
        found = pattern.findall(CODE.sub("", said)) + in_names(code, parts)
        if found:
            yield number, found


def of_python(path, pattern, parts):
    """The lines of a script that have such words; a text of several lines counts at its first."""
    found = {}
    for token in tokenize.generate_tokens(io.StringIO(repo.read(path)).readline):
        if token.type == tokenize.NAME:
            words = in_names(token.string, parts)
        elif token.type in (tokenize.COMMENT, tokenize.STRING) or tokenize.tok_name[token.type] == "FSTRING_MIDDLE":
            words = pattern.findall(CODE.sub("", token.string))
        else:
            continue
        if words:
            found.setdefault(token.start[0], []).extend(words)
    return found.items()


def places(path, pattern, parts):
    """The lines of a file that have such words, each with its number and the words."""
    return of_rattle(path, pattern, parts) if path.endswith((".rt", ".antt")) else of_python(path, pattern, parts)


def sources():
    """The files that are looked at, by their paths from the top."""
    for crate in repo.crates():
        for part, suffix in (("src", ".rt"), ("specs", ".antt")):
            for at, _, names in os.walk(os.path.join(repo.TOP, "crates", crate, part)):
                yield from sorted(os.path.relpath(os.path.join(at, name), repo.TOP) for name in names if name.endswith(suffix))
    yield from (name for name in COMMANDS if "python" in repo.read(name).partition("\n")[0])
    for folder in FOLDERS:
        for at, folders, names in os.walk(os.path.join(repo.TOP, folder)):
            folders[:] = [name for name in folders if name not in ("out", "__pycache__", "build")]
            paths = (os.path.relpath(os.path.join(at, name), repo.TOP) for name in names if name.endswith(".py"))
            yield from sorted(path for path in paths if path not in THESE)


def counted():
    """How many such words each file has, of those that have one."""
    pattern, parts = avoided()
    found = {path: sum(len(words) for _, words in places(path, pattern, parts)) for path in sources()}
    return {path: count for path, count in found.items() if count}


def allowed():
    """The counts of tools/gate/words.txt."""
    rows = [line.split(" ", 1) for line in repo.read(COUNTS).splitlines() if line]
    return {path: int(count) for count, path in rows}


def faults():
    """Files that have more such words than they had."""
    most, (pattern, parts) = allowed(), avoided()
    for path, count in counted().items():
        if count > most.get(path, 0):
            line, words = next(iter(places(path, pattern, parts)))
            yield f"{path}: {count} words that {PAGE} avoids, and at most {most.get(path, 0)} are kept, as line {line}: {', '.join(words)}"


def write():
    """Lowers counts; a file without one gets none."""
    most, found = allowed(), counted()
    kept = {path: min(count, found.get(path, 0)) for path, count in most.items()}
    with open(os.path.join(repo.TOP, COUNTS), "w", encoding="utf-8") as file:
        file.writelines(f"{count} {path}\n" for path, count in sorted(kept.items()) if count)


def main(words):
    if words == ["--write"]:
        write()
        return
    pattern, parts = avoided()
    for path in sources():
        found = [*places(path, pattern, parts)] if path.startswith(tuple(words) or "") else []
        if found:
            print(f"{path}: {sum(len(words) for _, words in found)}")
            for number, names in found:
                print(f"    {number}: {', '.join(names)}")


if __name__ == "__main__":
    main(sys.argv[1:])
