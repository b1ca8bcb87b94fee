"""The words of `./certpath`: what is answered without the program, and what is handed to it."""
import os

from program import installed, programs, repo, streams

# The one version, of the program, the scripts, the Python package and the pages; ./test quick compares what else names it.
VERSION = "0.1.0"
INPUT = "/dev/stdin"
# So many characters of a word are in a message.
MOST_SHOWN = 200
HELP, VERSIONS, BUILD = ("-h", "--help", "help"), ("-V", "--version", "version"), "--build"
WELL, REFUSED, UNWRITTEN = 0, 2, 7

COMMANDS = ("path", "why", "paths", "recheck", "questions", "frame", "bundle")
ENDS = """\
Exit status: 0 done, and the answer is yes or a path; 1 it is no or none, or something is left out;
2 wrong words; 3 the target is no certificate of BUNDLE; 4 a file can't be read or created; 5 a line
of VOUCHERS is malformed; 6 out of memory; 7 an output can't be written; 8 a line of EVIDENCE is
malformed; 69 dist/ is older than the sources, which --build mends; 70 no program could be run.
"""
GENERAL = f"""\
Reads X.509 certificates and revocation lists in DER, and finds certificate paths.

usage: certpath COMMAND [WORDS] | help [COMMAND] | --version | --build [CRATE]

Commands:
  path       prints what each item is, and the first of the shortest valid paths to an anchor
  why        prints the same answer, and each reason why there is no path or a list isn't used
  paths      prints the first of the shortest valid paths of every item of a file at once
  recheck    checks what paths found elsewhere, by the evidence that it wrote, without a search
  questions  prints which keys may have signed which items
  frame      prints where each item of a file begins; with --why also why an item is other
  bundle     writes the certificates and revocation lists of PEM, DER and PKCS #7 files as DER
  help       prints this help, or that of the command after it, with its words and options

Options:
  -h, --help     prints this help; after a command, that of the command
  -V, --version  prints the version, the digest of the sources, and what built the program
  --build        builds dist/ from the sources, prints where the program is, and runs nothing;
                 with a CRATE the program of that crate, as rows_cert for ./rows

The word - as a file is standard input. Files of items are DER: of a PEM file frame says end fault 0
and path finds no certificate in it, and bundle makes a DER file of it.

{ENDS}Nothing is built but by --build.
"""


def main(words):
    """Does what the words ask for; gives the status, unless it becomes the program."""
    programs.end_by_interrupt()
    first, *rest = words or [None]
    try:
        if first in COMMANDS:
            options = words[:words.index("--")] if "--" in words else words
            return helped(words) if {*options} & {*HELP[:2]} else run(words)
        if first in HELP:
            return helped(rest)
        if first in VERSIONS:
            return printed(version())
        if first == BUILD:
            return build(rest)
        return refused(unknown(first) if words else "a command is missing")
    except OSError as error:
        if streams.lacks_memory(error):
            raise
        programs.end(programs.CERTPATH, f"{error.strerror}: {error.filename}")


def run(words):
    """Becomes the program, with standard input in the place of a file that is called -. (bundle does
    that itself, since it prints the names of files.)"""
    if words.count("-") > 1:
        return refused("standard input can be one file only")
    if ("--evidence", "-") in zip(words, words[1:]) or "--evidence=-" in words:
        return refused("--evidence needs a file: - is standard input")
    if words[0] != "bundle":
        words = [INPUT if it == "-" else it for it in words]
    if words[0] == "paths":
        from program import evidence
        return evidence.run(words)
    return programs.become(programs.CERTPATH, words)


def refused(why):
    streams.report(f"certpath: {why}; see " + installed.spelled("'./certpath --help'"))
    return REFUSED


def unknown(word):
    """What is said of a word that is no command."""
    kind = "option" if word.startswith("-") else "command"
    return f"there is no {kind} {word if len(word) <= MOST_SHOWN else f'{word[:MOST_SHOWN]}..'!r}"


def printed(text):
    """Writes a text to standard output; gives the status. A pipe that nobody reads ends this."""
    programs.end_by_pipe()
    return WELL if streams.wrote(installed.spelled(text).encode()) else UNWRITTEN


def helped(words):
    """Prints the help of all commands, or the program's own of the one that is named."""
    if not words or words[0] in (*HELP, *VERSIONS, BUILD):
        return printed(GENERAL)
    if words[0] not in COMMANDS:
        return refused(unknown(words[0]))
    import subprocess
    own = subprocess.run([programs.ready(programs.CERTPATH), words[0], HELP[1]], stdin=subprocess.DEVNULL,
                         stdout=subprocess.PIPE, stderr=subprocess.STDOUT, text=True, check=False)
    return printed(f"{own.stdout}\n{ENDS}")


def version():
    """The version, the digest of the sources, and which program runs on them and what built it. In
    an installation the sources are those of the program."""
    path, record_path = programs.paths(programs.CERTPATH)
    record, (_, why, _) = programs.read_record(record_path), programs.found(programs.CERTPATH)
    digest = record.get("sources") if installed.IS_INSTALLED else programs.sources.digest(programs.CERTPATH)
    program = f"none: {why}" if why else f"{path}, built by {record.get('kit')}"
    return f"certpath {VERSION}\nsources {digest}\nprogram {program}\n"


def build(names):
    """Builds certpath, and the libraries of dist/ if they are older than the sources; or the
    program of a crate that is named. Prints where the program is; gives the status."""
    if installed.IS_INSTALLED:
        return refused(f"{BUILD} needs a checkout, and this is an installation, without sources")
    crate = names[0] if names else programs.CERTPATH
    if len(names) > 1 or crate not in repo.crates():
        return refused(f"there is no program {' '.join(names)!r:.{MOST_SHOWN}}")
    from program import building
    building.build(crate)
    if not names and programs.is_library_old():
        from gate import library
        if library.make():
            return programs.NO_PROGRAM
    return printed(f"{os.path.join(repo.TOP, programs.paths(crate)[0])}\n")
