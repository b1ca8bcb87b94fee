"""Checks of the pages, which tools/gate/quick.py runs: each gives a line for each thing amiss."""
import os
import re

from dev import believe, calling, contracts, pages
from gate import helps, page_names
from program import repo, usage
from trials import page_commands

WIDTH, LONGEST_SENTENCE = 100, 40
README, README_WORDS, README_LINES = "README.md", 900, 120
# Longer pages begin with their contents.
MOST_WITHOUT_CONTENTS = 100
PACKAGE, LOG = "python/pyproject.toml", "CHANGELOG.md"
PROMISES, PROVED = "docs/PROMISES.md", "## What is proved"
# Pages for a reader's first minutes.
PLAIN_PAGES = (README, "docs/CLI.md")
WALK = "docs/ARCHITECTURE.md"
WALK_ROW = re.compile(r"(?m)^- `([\w/]+\.(?:rt|py))`: ((?:`\w+`,\s+)*`\w+`)")
LINK = re.compile(r"\]\(([^()\s#]*)#([^()\s]+)\)")
CODE = re.compile(r"`[^`\n]*`")
# A row of a table, or an item of a list, that links can name.
ROW = re.compile(r'(?m)^[|-] <a id="([\w-]+)"></a>')


def found_pages():
    """Each page of the repository, by its path from the top."""
    for at, folders, names in os.walk(repo.TOP):
        folders[:] = sorted(folder for folder in folders if folder not in (".git", "out", "__pycache__"))
        for name in sorted(names):
            if name.endswith(".md"):
                yield os.path.relpath(os.path.join(at, name), repo.TOP)


def narrow_pages():
    """Lines of pages end by a column; rows of tables, and what CALLING.md quotes of sources, may go on."""
    for path in found_pages():
        is_quoted = False
        for number, line in enumerate(repo.read(path).splitlines(), 1):
            if line.startswith("```"):
                is_quoted = path.endswith("CALLING.md") and not is_quoted
            if len(line) > WIDTH and not line.startswith("|") and not is_quoted:
                yield f"{path}:{number}: {len(line)} columns, and at most {WIDTH} are kept"


def paragraphs(page):
    """The paragraphs, items and cells of a page, each on one line, without code blocks and headings."""
    blocks, lines = [], []
    is_code = False
    for line in [*page.splitlines(), ""]:
        begins = line.startswith(("|", "#", "<", "```")) or not line.strip() or bool(re.match(r" *([-*]|\d+\.) ", line))
        if begins and lines:
            blocks.append(" ".join(lines))
            lines = []
        if line.startswith("```"):
            is_code = not is_code
        elif line.startswith("|"):
            blocks += line.strip("| ").split(" | ")
        elif not is_code and not line.startswith(("#", "<")) and line.strip() and (lines or not line.startswith("    ")):
            lines.append(line.strip())
    return blocks


def sentences(page):
    """The sentences of a page; a link counts as its text, and code as one word."""
    for block in paragraphs(page):
        words = re.sub(r"!?\[([^][]*)\]\([^()]*\)", r"\1", CODE.sub("code", block))
        yield from re.split(r"(?<=[.!?])\**\s+(?=[*\"'(]*[A-Z0-9]|code|docs/)", words)


def short_sentences():
    """The pages that are read first have no long sentence."""
    for path in PLAIN_PAGES:
        if not os.path.exists(os.path.join(repo.TOP, path)):
            continue
        for sentence in sentences(repo.read(path)):
            count = len(re.findall(r"\S*\w\S*", sentence))
            if count > LONGEST_SENTENCE:
                yield f"{path}: {count} words, and a sentence has at most {LONGEST_SENTENCE}: {sentence[:80]}"


def short_readme():
    """README.md is read in five minutes."""
    text = repo.read(README)
    words, lines = len(text.split()), len(text.splitlines())
    if words > README_WORDS:
        yield f"{README}: {words} words, and at most {README_WORDS} are kept there"
    if lines > README_LINES:
        yield f"{README}: {lines} lines, and at most {README_LINES} are kept there"


def contents_there():
    """A page of more than two screens has links to all its sections above the first one."""
    for path in found_pages():
        page = repo.read(path)
        if path == README or len(page.splitlines()) <= MOST_WITHOUT_CONTENTS:
            continue
        head = page.partition("\n## ")[0]
        for line in re.findall(r"(?m)^## .*$", page):
            name = next(headings(line))
            if f"](#{name})" not in head:
                yield f"{path}: above its first section no link leads to #{name}"


def claims_named():
    """Each claim of README.md about proofs names its row of docs/PROMISES.md."""
    section = repo.read(README).partition(f"{PROVED}\n")[2].partition("\n## ")[0]
    rows = {*ROW.findall(repo.read(PROMISES))}
    claims = [paragraph for paragraph in paragraphs(section) if re.match(r"\d+\. ", paragraph)]
    if not claims:
        yield f"{README}: it has no claims below {PROVED}"
    for claim in claims:
        names = re.findall(rf"\]\({re.escape(PROMISES)}#([\w-]+)\)", claim)
        if not names or not {*names} <= rows:
            yield f"{README}: it names no row of {PROMISES}: {claim}"


def anchors(page):
    """The names of a page's headings and rows, as links name them."""
    yield from ROW.findall(page)
    yield from headings(page)


def headings(page):
    """The names of a page's headings."""
    names, is_code = {}, False
    for line in page.splitlines():
        if line.startswith("```"):
            is_code = not is_code
        heading = None if is_code else re.match(r"#+ +(.*)", line)
        if heading:
            name = re.sub(r"[^\w\- ]", "", heading[1].strip().lower()).replace(" ", "-")
            count = names.get(name, 0)
            names[name] = count + 1
            yield f"{name}-{count}" if count else name


def anchors_lead():
    """Links to a heading lead to one."""
    for path in found_pages():
        for number, line in enumerate(repo.read(path).splitlines(), 1):
            for to, name in LINK.findall(CODE.sub("", line)):
                target = os.path.normpath(os.path.join(os.path.dirname(path), to)) if to else path
                is_page = target.endswith(".md") and os.path.exists(os.path.join(repo.TOP, target))
                if is_page and name not in {*anchors(repo.read(target))}:
                    yield f"{path}:{number}: {target} has no heading #{name}"


def walk_there():
    """The functions that the walks name are in the files beside them: of crates, and of scripts by their paths from the top."""
    rows = WALK_ROW.findall(repo.read(WALK))
    if not rows:
        yield f"{WALK}: the walk is gone"
    for path, names in rows:
        source = path if path.endswith(".py") else f"crates/{path}"
        code = repo.read(source) if os.path.exists(os.path.join(repo.TOP, source)) else ""
        for name in re.findall(r"`(\w+)`", names):
            if not re.search(rf"\b(?:fn|def) {name}\b", code):
                yield f"{WALK}: {source} has no function {name}"


def tables_made():
    """The lists of docs/CRATES.md, tools/README.md, docs/INDEX.md and docs/CONTRACTS.md are what the sources say."""
    for path in pages.TABLES:
        if pages.written(path) != repo.read(path):
            yield f"{path}: a list isn't what the sources say: run tools/dev/pages.py"
    if not os.path.exists(os.path.join(repo.TOP, pages.INDEX)) or repo.read(pages.INDEX) != pages.index():
        yield f"{pages.INDEX}: it isn't what the sources say: run tools/dev/pages.py"
    yield from contracts.faults()


def notes_made():
    """Each crate has a page of its own, whose lines are what crates.txt says."""
    for path, page, made in pages.notes():
        if page != made:
            yield f"{path}: {'there is none' if page is None else 'its lines are not what crates.txt says'}: run tools/dev/pages.py"


def commands_run():
    """Each command line of a page is run by a trial, or has a reason why not."""
    yield from page_commands.faults()


def helps_agree():
    """What a command takes is said alike by its help, its page, the completion and the program."""
    yield from helps.faults()


def one_version():
    """The package, the change log and the pages name the version that `./certpath --version` prints."""
    numbered = r"(\d+\.\d+\.\d+)"
    found = [(path, match) for path in found_pages() if path != LOG for match in re.findall(rf"\b[Vv]ersion {numbered}", repo.read(path))]
    for path, pattern in ((PACKAGE, r'(?m)^version = "([^"]*)"'), (LOG, rf"(?m)^## {numbered} - ")):
        found.append((path, next(iter(re.findall(pattern, repo.read(path))), "none")))
    for path, entry in found:
        if entry != usage.VERSION:
            yield f"{path}: version {entry}, and ./certpath --version prints {usage.VERSION}"


def calling_made():
    """Each CALLING.md quotes contracts and callers as the sources have them."""
    yield from calling.faults()


def one_list_to_believe():
    """Which pages have to be believed is said by docs/TRUST.md alone, which a script makes."""
    for path in found_pages():
        if path == pages.PAGE or re.fullmatch(r"crates/\w+/README\.md", path):
            for number, line in enumerate(repo.read(path).splitlines(), 1):
                if re.match(r"\W*To believe\W*:", line, re.I):
                    yield f"{path}:{number}: a list of pages to believe, which {believe.PAGE} has: delete it"


CHECKS = (narrow_pages, short_sentences, short_readme, contents_there, claims_named, anchors_lead,
          walk_there, commands_run, helps_agree, one_list_to_believe, one_version, tables_made, notes_made, calling_made, *page_names.CHECKS)
