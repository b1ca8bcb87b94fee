"""The manual pages of an installation: for each command its page or section of docs/, with the names
that commands have there."""
import re

from dev import manual
from program import installed, repo, usage

CLI = "docs/CLI.md"
# What each command's page is made of, and what `apropos` says of it.
PAGES = {
    "certpath": (CLI, "finds and checks certificate paths, proved"),
    "verify": ("docs/VERIFY.md", "says whether a certificate has a valid path to a trust anchor"),
    "vouch": (CLI, "writes which key signed which certificate or revocation list"),
    "bundle": (CLI, "joins the certificates and revocation lists of PEM, DER and PKCS #7 files"),
    "inventory": ("docs/SCALE.md", "makes a table of many certificates or of a transparency log"),
}
# Sections of docs/CLI.md that an installation has no command for, or has a page of its own for.
OTHERS = ("verify", "bundle", "vouch", "rows", "test")
SECTION = re.compile(r"(?ms)^## (?:`([a-z]+)[^`\n]*`|[^`\n]*)\n.*?(?=^## |\Z)")
CONTENTS = re.compile(r"(?m)^- \[[^\]]*\]\(#[^)]*\)\n")
PICTURE = re.compile(r"(?m)^!\[[^\]]*\]\([^)]*\)\n")
FENCE = re.compile(r"(?ms)^```\w*\n(.*?)^```\n")


def section_of(page, name):
    """The section of a page that is on a command, without its heading."""
    return next(match[0] for match in SECTION.finditer(page) if match[1] == name).partition("\n")[2]


def text_of(name):
    """What a command's page is made of, in Markdown."""
    path, _ = PAGES[name]
    page = repo.read(path)
    if path == CLI and name != "certpath":
        page = section_of(page, name)
    else:
        page = page.partition("\n")[2]
    if name == "certpath":
        page = SECTION.sub(lambda match: "" if match[1] in OTHERS else match[0], page)
    page = PICTURE.sub("", CONTENTS.sub("", page))
    page = FENCE.sub(lambda match: "".join(f"    {line}\n" for line in match[1].splitlines()), page)
    return installed.renamed(page)


def synopsis(name, page):
    """The forms of a command: the blocks to type that its sections begin with, or its page's first."""
    if name != "certpath":
        first = next((entry for entry in manual.blocks(page) if entry[0].startswith("    ")), [])
        return [entry[4:] for entry in first if entry.startswith(f"    {installed.COMMANDS[name]}")] or [installed.COMMANDS[name]]
    sections = [match[0] for match in SECTION.finditer(page) if match[1]]
    firsts = [manual.blocks(section)[1] for section in sections if len(manual.blocks(section)) > 1]
    return [line[4:] for block in firsts for line in block if line.startswith("    ")]


def page_of(name):
    """The manual page of a command, as roff."""
    command, page = installed.COMMANDS[name], text_of(name)
    title = command.upper().replace("-", "\\-")
    lines = [f'.TH "{title}" 1 "{manual.date()}" "certpath {usage.VERSION}"', ".SH NAME",
             f"{manual.plain(command)} \\- {manual.plain(PAGES[name][1])}", ".SH SYNOPSIS", ".nf",
             *map(manual.plain, synopsis(name, page)), ".fi", ".SH DESCRIPTION",
             *(line for block in manual.blocks(page) for line in manual.of_block(block)), '.SH "SEE ALSO"']
    others = [f"{manual.plain(entry)}(1)" for entry in installed.COMMANDS.values() if entry != command]
    return "\n".join(manual.fitted([*lines, ", ".join([*others, "openssl\\-verify(1ssl)"])])) + "\n"


def pages():
    """Each page by the name of its file."""
    return {f"{installed.COMMANDS[name]}.1": page_of(name) for name in PAGES}
