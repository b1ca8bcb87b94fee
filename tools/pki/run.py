"""The run of ./vouch, from the words to the status."""
import re
from typing import NamedTuple

from pki import reading
from pki.reporting import Report
from program import installed, programs, streams

USAGE = installed.spelled("usage: ./vouch BUNDLE ANCHORS [--weak] [--tries N] [--verbose] [--limit N] > vouchers.txt")
LARGEST = 4294967295
FLAGS = {"--weak": "--weak", "--verbose": "--verbose", "-v": "--verbose"}


class Refused(Exception):
    """Why the script ends, with its status."""

    def __init__(self, status, text):
        super().__init__(text)
        self.status = status


class Words(NamedTuple):
    """The words of the command line; none for a number that isn't given."""
    files: list
    weak: bool
    verbose: bool
    limit: str
    tries: str


def read_words(words):
    """The words of the command line, each option once."""
    files, flags, numbers, rest = [], set(), {}, [*words]
    while rest:
        word = rest.pop(0)
        name, equals, value = word.partition("=")
        if word in FLAGS and FLAGS[word] not in flags:
            flags.add(FLAGS[word])
        elif name in ("--limit", "--tries") and name not in numbers and (equals or rest):
            numbers[name] = value if equals else rest.pop(0)
        elif word.startswith("-") and word != reading.STANDARD_INPUT:
            raise Refused(2, USAGE)
        else:
            files.append(word)
    if len(files) != 2:
        raise Refused(2, USAGE)
    if files == [reading.STANDARD_INPUT] * 2:
        raise Refused(2, "vouch: standard input can be one file only")
    for name, least in (("--limit", 0), ("--tries", 1)):
        if not is_number(numbers.get(name, "1"), least):
            raise Refused(2, f"vouch: {name} {reading.shortened(numbers[name])}: no number from {least} to {LARGEST}")
    return Words(files, "--weak" in flags, "--verbose" in flags, numbers.get("--limit"), numbers.get("--tries"))


def is_number(text, least):
    """Whether the text is a number, as `certpath` takes one, and at least so large."""
    digits = text.lstrip("0")
    return bool(re.fullmatch("[0-9]+", text)) and len(digits) <= len(str(LARGEST)) and least <= int(digits or "0") <= LARGEST


def octets_of(word):
    """What a file holds."""
    try:
        return reading.octets_of(word)
    except reading.Unreadable as error:
        raise Refused(4, error) from error


def package_of_openssl():
    """The package that asks, with OpenSSL's library."""
    try:
        # a small Python has no ctypes
        from pki import package
        import certpath.openssl
        return certpath, certpath.openssl.verifier()
    except ImportError as error:
        if streams.lacks_memory(error):
            raise
        raise Refused(4, f"vouch: OpenSSL cannot be called: {error}") from error


def ends_of(bundle, anchors):
    """What is said of how the files end."""
    sides = (("bundle", bundle.end), ("anchors", anchors.end))
    return [f"{name}: {end.word} at {end.at}: {what_ends(end)}" for name, end in sides if not end.is_clean]


def what_ends(end):
    """What is at the place where a file ends otherwise than clean."""
    if end.word == "cut":
        return "the last item isn't whole"
    remedy = installed.spelled("; of PEM files ./bundle makes items")
    return f"what begins there is no item{'' if end.at else remedy}"


def vouched(words):
    """Writes the lines and reports what there is to report; gives the status."""
    given = read_words(words)
    files = [*map(octets_of, given.files)]
    if programs.is_library_old():
        raise Refused(programs.OUTDATED, f"vouch: {programs.OLDER}")
    certpath, openssl = package_of_openssl()
    try:
        return vouched_by(certpath, openssl, given, files)
    except certpath.Error as error:
        if streams.lacks_memory(error):
            raise
        raise Refused(4, f"vouch: {error}") from error


def vouched_by(certpath, openssl, given, files):
    """Vouches for the items of files by the package."""
    from pki.vouchers import Vouching
    limit = certpath.LIMIT if given.limit is None else int(given.limit)
    bundle, anchors = (certpath.frame(file, limit) for file in files)
    report, tries = Report(given.verbose), int(given.tries or certpath.openssl.MOST_TRIES)
    vouching = Vouching(bundle, anchors, certpath.openssl.Judge(openssl, tries), given.weak, report)
    ends = ends_of(bundle, anchors)
    for text in ends:
        report.add_line(text)
    report.flush()
    if not streams.wrote(vouching.text()):
        return 7
    streams.report(vouching.summary())
    return 1 if ends else 0


def main(words):
    programs.end_by_interrupt()
    try:
        return vouched(words)
    except Refused as error:
        streams.report(error)
        return error.status
