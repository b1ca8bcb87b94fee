"""Whether what each command takes, and ends with, is said alike: by its help, by its page, and by the completion. The help of a
command of certpath is the program's own.

The manual page and the completion are made of docs/CLI.md and the helps (tools/dev/manual.py)."""
import os
import re
import subprocess
import sys

from program import repo, usage

OPTION = re.compile(r"(?<![\w-])--[a-z][a-z-]*")
# An option as a help lists it, and as a page's table does.
LISTED, ROW = re.compile(r"(?m)^ +(?:-\w, )?(--[a-z][a-z-]*)"), re.compile(r"(?m)^\| `(--[a-z][a-z-]*)")
# An option of a form, with the word for what it takes, which is in angles in the program's own help.
TAKING = re.compile(r"(\[?)(--[a-z][a-z-]*)(?: <?([A-Z][A-Z:|-]*)>?)?")
# A file that a form of a command names, as BUNDLE; in the program's own help it is in angles.
FILE = re.compile(r"(?<![\w-])<?([A-Z]{4,})>?(?![\w-])")
NO_FILES = {"MOMENT", "OPTIONS", "YYYY"}
# The exit statuses of a help and those of a page's section, each with what it means.
ENDS, PAGE_ENDS = re.compile(r"(?s)Exit status: (.*?)\.\n"), re.compile(r"(?m)^(?:- \*\*| {4})(\d+)\b")
# What ends a command by a signal is on its page alone.
SIGNALS = {"130", "143"}
HELP = "--help"
PROGRAM, SCRIPT = os.path.join("dist", "certpath"), "./certpath"
CLI, VERIFY, SCALE, COMPLETION = "docs/CLI.md", "docs/VERIFY.md", "docs/SCALE.md", "completion/certpath.bash"
INVENTORY = "certpath.inventory"
# The first cell of a table's row, of one option or several.
CELL = re.compile(r"(?m)^\| (`--[^|]*)")
SECTION = r"(?ms)^## `?{}[^`\n]*`?\n(.*?)(?=^## |\Z)"
COMPLETED = r'(?m)^ +{}\) words="([^"]*)"'
SECONDS = 600


def printed(words, folder=""):
    """What a command prints of itself, on either output; none if it doesn't run on this machine."""
    try:
        return subprocess.run(words, cwd=os.path.join(repo.TOP, folder), stdin=subprocess.DEVNULL, stdout=subprocess.PIPE,
                              stderr=subprocess.STDOUT, text=True, timeout=SECONDS, check=False).stdout
    except OSError:
        return None


def own_help(*command):
    return printed([os.path.join(repo.TOP, PROGRAM), *command, HELP])


def help_of(script, *command):
    return printed([sys.executable, "-IS", script, *command, HELP])


def commands(text):
    """The commands that a help lists, but for that of the help."""
    return sorted({*re.findall(r"(?m)^  ([a-z]+) ", text.partition("Commands:")[2].partition("\n\n")[0])} - {"help"})


def options(text):
    """The options that a text names, but for that of the help."""
    return {*OPTION.findall(text)} - {HELP}


def listed(text):
    """The options that a help lists."""
    return {*LISTED.findall(text)} - {HELP}


def taking(text):
    """The options of a form or of a help, each with the word for what it takes."""
    return {f"{name} {word}".strip() for _, name, word in TAKING.findall(text)} - {HELP}


def wanted(text):
    """The options of a form that aren't in brackets."""
    return {name for bracket, name, _ in TAKING.findall(text) if not bracket}


def files(text):
    """The files that a form names, in their order, but for those of options."""
    return [name for name in FILE.findall(re.sub(r"\[[^]]*\]|--\S+ \S+", "", text)) if name not in NO_FILES]


def ends(text):
    """The exit statuses that a help names."""
    found = ENDS.search(text)
    return {*re.findall(r"(?:^|[;,] )\s*(\d+)\b", " ".join(found[1].split()))} if found else set()


def page_ends(text):
    """The exit statuses that the section of a page lists, but for those of signals."""
    return {*PAGE_ENDS.findall(text)} - SIGNALS


def section(title, path=CLI):
    """A section of a page, by how its title begins."""
    found = re.search(SECTION.format(re.escape(title)), repo.read(path))
    return found[1] if found else ""


def form(text):
    """The form that a section begins with, or the lines of a help from `usage:` to the next empty one."""
    lines = re.search(r"(?ms)^(?:[Uu]sage:| {4}\./).*?(?:\n\n|\Z)", text)
    return lines[0] if lines else ""


def completed(name):
    """The options that the completion has for a command."""
    return {COMPLETION: options(match) for match in re.findall(COMPLETED.format(name), repo.read(COMPLETION))[:1]}


def of_program():
    """For the program as a whole: who says what it takes or ends with, and what that is."""
    said, own = help_of("certpath"), own_help()
    yield "the commands", {"tools/program/usage.py": sorted(usage.COMMANDS), f"{SCRIPT} {HELP}": commands(said)} | ({f"{PROGRAM} {HELP}": commands(own)} if own else {})
    yield "certpath", {f"{SCRIPT} {HELP}": listed(said), f"{CLI}, certpath help": options(form(section("certpath help")))}
    yield "the exit statuses of certpath", {f"{SCRIPT} {HELP}": ends(said), CLI: page_ends(section("Exit statuses of certpath"))}


def of_certpath(names):
    """Likewise for each command of the program."""
    for name in names:
        own, page = own_help(name), section(f"certpath {name}")
        title, program = f"{CLI}, certpath {name}", f"{PROGRAM} {name} {HELP}"
        shape = form(page)
        yield name, {title: options(shape)} | completed(name) | ({program: listed(own)} if own else {})
        if own:
            used = form(own)
            yield name, {title: files(shape), program: files(used)}
            yield name, {title: taking(shape), program: taking(own.partition("Options:\n")[2])}
            yield name, {f"{title}, without brackets,": wanted(shape), program: options(used)}


def of_scripts():
    """Likewise for ./verify and ./vouch."""
    said = help_of("verify")
    yield "verify", {f"./verify {HELP}": listed(said), f"the table of {VERIFY}": {*ROW.findall(repo.read(VERIFY))}} | completed("verify")
    yield "the exit statuses of verify", {f"./verify {HELP}": ends(said), VERIFY: page_ends(section("Exit status", VERIFY))}
    page = section("vouch")
    yield "vouch", {f"./vouch {HELP}": options(help_of("vouch")), f"the table of {CLI}": {*ROW.findall(page)}, f"{CLI}, vouch": options(form(page))} | completed("vouch")


def of_inventory():
    """Likewise for the inventory, which is a module of the package."""
    said = printed([sys.executable, "-B", "-m", INVENTORY, HELP], "python")
    cells = "\n".join(CELL.findall(repo.read(SCALE)))
    yield INVENTORY, {f"python3 -m {INVENTORY} {HELP}": listed(said), f"the table of {SCALE}": options(cells)}


def shown(names):
    return ", ".join(sorted(names) if isinstance(names, set) else names) or "nothing"


def undescribed():
    """Options of a command's form that no table of the page describes, and those of its table that its form hasn't."""
    described = {*ROW.findall(repo.read(CLI))}
    for name in usage.COMMANDS:
        page = section(f"certpath {name}")
        taken = options(form(page))
        for option in sorted(taken - described):
            yield f"{CLI}: certpath {name} takes {option}, and no table says what that does"
        for option in sorted({*ROW.findall(page)} - taken):
            yield f"{CLI}: certpath {name} has {option} in its table, and not in its form"


def faults():
    """Where two of them differ."""
    yield from undescribed()
    for name, said in (*of_program(), *of_certpath(usage.COMMANDS), *of_scripts(), *of_inventory()):
        (first, right), *others = said.items()
        for who, takes in others:
            if takes != right:
                yield f"{name}: {who} has {shown(takes)}, and {first} {shown(right)}"
