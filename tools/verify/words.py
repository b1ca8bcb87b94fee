"""The words of ./verify."""
import argparse
import difflib
import os
from typing import NamedTuple

from pki import reading
from program import installed
from verify import times, waiting
from verify.core import certpath
from verify.faults import WORDS, Fault

ABOUT = """\
Answers whether a certificate has a valid path to a trust anchor, and if not, why.

The target is the first certificate of the first FILE. Files are PEM, DER, PKCS #7 or PKCS #12 files,
with intermediate certificates and revocation lists in any order; - is standard input. The answer is
that of `certpath why`, and signatures are verified by OpenSSL. docs/VERIFY.md has the whole text.
"""
ENDS = """\
Exit status: 0 every target has a path; 1 one has none, or it is refused; 2 wrong words; 3 the target is no certificate;
4 a file can't be read, or holds no anchor; 6 out of memory; 7 standard output fails; 9 it takes longer
than --seconds; 69 dist/ is older than the sources; 70 no program could be run.
"""
NAME = installed.spelled("./verify")
LARGEST = 4294967295
# Words of other verifiers, and what goes for them.
OF_OTHERS = (
    (("cafile", "capath", "trusted", "roots", "root", "ca", "cacert", "load-ca-certificate"), "; trust anchors are named by --anchors"),
    (("untrusted", "intermediate", "intermediates", "chain"), "; further certificates are further FILEs"),
    (("crl", "crls", "crlfile", "load-crl"), "; revocation lists are further FILEs, or --lists"),
    (("crl-check", "crl-check-all"), "; --demand-lists wants a list of each issuer"),
    (("attime", "time", "date"), "; the moment is --at"),
    (("hostname", "verify-host", "verify-hostname", "servername", "dnsname", "ip", "verify-ip"), "; the host is --host"),
    (("sslserver", "usage", "eku"), "; the purpose is --purpose"),
    (("email", "verify-email"), ": addresses of e-mail aren't judged"),
)
# So like must two options be that one is named for the other, and so many letters begin one.
LIKENESS, LEAST = 0.75, 3


class Words(NamedTuple):
    """What is asked."""
    files: list
    target: str
    is_all: bool
    anchors: list
    lists: list
    moment: object
    demands_lists: bool
    takes_weak: bool
    ignores_unused: bool
    limit: str
    seconds: int
    host: str
    purpose: str
    form: str
    page: str


class Parser(argparse.ArgumentParser):
    """Says what is wrong in one line."""

    def error(self, message):
        raise Fault(WORDS, f"{reading.shortened(message)}; see {NAME} --help")

    def refuse_unknown(self, words):
        """Ends the run where a word looks like an option and is none; says what goes for it."""
        options = {string: action for action in self._actions for string in action.option_strings}
        for word in words:
            name, equals, _ = word.partition("=")
            if not word.startswith("-") or word == reading.STANDARD_INPUT:
                continue
            if name not in options:
                self.error(f"there is no option {reading.shortened(name)}{instead(name, [*options])}")
            if equals and options[name].nargs == 0:
                self.error(f"{name} takes no value")


def instead(name, options):
    """What goes for a word that is no option: by the words of other verifiers, or by the letters."""
    word = name.lstrip("-").lower().replace("_", "-")
    known = next((said for words, said in OF_OTHERS if word in words), None)
    if known is not None:
        return known
    near = [option for option in options if len(word) >= LEAST and option.startswith(f"--{word}")] or difflib.get_close_matches(f"--{word}", options, 1, LIKENESS)
    return f", the most similar one is {near[0]}" if near else ""


def number(word):
    """A number as `certpath` takes it."""
    if not (word.isascii() and word.isdigit() and len(word.lstrip("0")) <= 10 and int(word) <= LARGEST):
        raise argparse.ArgumentTypeError(f"{reading.shortened(word)} is no number from 0 to {LARGEST}")
    return word


def seconds(word):
    """So many seconds, at least one."""
    found = int(number(word))
    if found < 1:
        raise argparse.ArgumentTypeError(f"{reading.shortened(word)} is no number from 1 to {LARGEST}")
    return found


def parser():
    made = Parser(NAME, usage=f"{NAME} [OPTIONS] FILE..", description=ABOUT, epilog=installed.spelled(ENDS), allow_abbrev=False, formatter_class=argparse.RawDescriptionHelpFormatter)
    made.add_argument("files", metavar="FILE", nargs="*", help="certificates and lists, the target first; - is standard input")
    which = made.add_mutually_exclusive_group()
    which.add_argument("--target", metavar="FILE|SHA256|N",
                       help="another target: a file's first certificate, a fingerprint, or a position from 0")
    which.add_argument("--all", dest="is_all", action="store_true", help="every certificate of every FILE is a target")
    made.add_argument("--anchors", metavar="FILE|FOLDER|system", action="append", default=[],
                      help="trust anchors; system, the system's store, if it isn't given")
    made.add_argument("--lists", metavar="FILE", action="append", default=[],
                      help="revocation lists, or more certificates, which are no targets of --all")
    made.add_argument("--at", dest="moment", metavar="TIME", default="now",
                      help=f"the moment of the question, in UTC: {times.EXAMPLES} [default: now]")
    made.add_argument("--demand-lists", dest="demands_lists", action="store_true",
                      help="each certificate needs a revocation list of its issuer")
    made.add_argument("--weak", dest="takes_weak", action="store_true", help="accept signatures with MD5, SHA-1 or a signing key worth fewer than 112 bits of security, and warn of them")
    made.add_argument("--ignore-unused-lists", dest="ignores_unused", action="store_true",
                      help="accept a path also if a list that isn't used may revoke a certificate of it")
    made.add_argument("--host", metavar="NAME", help="the target has to serve this host: a name, an IPv4 or an IPv6 address")
    made.add_argument("--purpose", metavar="NAME|OID",
                      help=f"each certificate has to be for this purpose: {', '.join(certpath.purposes.NAMES)}, or a number")
    made.add_argument("--limit", metavar="N", type=number, help="the most content octets of an item [default: 16777216]")
    made.add_argument("--seconds", metavar="N", type=seconds,
                      help=f"the most seconds of a processor [default: {waiting.SECONDS} for each 1,000,000 octets of the files]")
    form = made.add_mutually_exclusive_group()
    form.add_argument("--quiet", dest="form", action="store_const", const="quiet", help="print nothing; the status is the answer")
    form.add_argument("--json", dest="form", action="store_const", const="json", help="print a JSON object a line for each target")
    form.add_argument("--dot", dest="form", action="store_const", const="dot", help="print the graph of links for graphviz")
    made.add_argument("--html", dest="page", metavar="FILE", help="write a page with pictures too; - is standard output")
    return made


def is_same(one, other):
    """Whether two words name one file that is there."""
    try:
        return os.path.samefile(one, other)
    except (OSError, TypeError, ValueError):
        return False


def split(words):
    """The words up to --, and the files after it."""
    at = words.index("--") if "--" in words else len(words)
    return words[:at], words[at + 1:]


def asks_for_json(words):
    """Whether the words ask for JSON, also if they are refused."""
    return "--json" in split(words)[0]


def read(words):
    """The words of the command line; ends the run with the help where they ask for it."""
    made = parser()
    options, files = split(words)
    made.refuse_unknown(options)
    given, further = made.parse_known_args(options)
    # (what argparse doesn't know are FILEs that come after options)
    given.files += [*further, *files]
    if not given.files:
        made.error("a FILE is missing")
    if [*given.files, *given.lists, *given.anchors].count("-") > 1:
        raise Fault(WORDS, "standard input can be one file only")
    if given.host is not None and given.is_all:
        raise Fault(WORDS, "--host is asked of one target, and not with --all")
    if given.page == "-" and given.form:
        raise Fault(WORDS, f"--html - and --{given.form} can't both have standard output")
    if any(is_same(given.page, file) for file in [*given.files, *given.lists, *given.anchors, given.target]):
        raise Fault(WORDS, f"--html {given.page}: this file is read; name another one for the page")
    return Words(**{**vars(given), "moment": times.moment_of(given.moment)})
