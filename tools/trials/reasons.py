#!/usr/bin/env python3
"""Asks `certpath why` for reasons: rows whose dates and names are written out, and random bundles
beside a model that is written apart from the code.

    python3 tools/trials/reasons.py [NUMBER]    makes so many random bundles, 10000 without a number
"""
import collections
import difflib
import os
import re
import subprocess
import sys
import tempfile
import time
import unittest
from typing import NamedTuple

sys.dont_write_bytecode = True
sys.path.insert(0, os.path.dirname(os.path.dirname(os.path.abspath(__file__))))
from program import repo
from trials import paths, reasons_making as making, reasons_model as model
from trials.count import Trial, size
from trials.reasons_making import ALGORITHM, KEYS, SIGNATURE
from trials.synthetic import CONSTRAINTS, USAGE, element, extension, name, number, sequence

# How many random bundles are made: by hand, in the gate, and on a machine without the toolchain.
MANY, SOME, FEW = 10_000, 500, 50
SEED, SECONDS = "reasons", 600
ALL_KINDS = (*model.KINDS, *model.CASES)
# The page that says what each line means, and how many lines have an example there at least.
PAGE, EXAMPLES = "docs/REASONS.md", 36
AT = "2025-06-01T00:00:00"
KEY, YEAR = KEYS[0], ("250101000000Z", "260101000000Z")
CERTIFICATE_ISSUER, POLICIES = bytes.fromhex("0603551d1d"), bytes.fromhex("0603551d20")
SUBJECT_ALT_NAME, EXTENDED_KEY_USAGE = bytes.fromhex("0603551d11"), bytes.fromhex("0603551d25")
# `M\xfcller` as a T61String (20), which is no UTF-8, so that the name has no text.
NO_TEXT = bytes.fromhex("3011310f300d060355040314064dfc6c6c6572")
CRITICAL, UNCRITICAL = (extension(CERTIFICATE_ISSUER, index, b"\x30\0") for index in (True, False))
SIGNER, TRAILING_ZERO = bytes.fromhex("03020204"), bytes.fromhex("03020184")
AUTHORITY = extension(CONSTRAINTS, True, sequence(b"\x01\x01\xff"))
NO_AUTHORITY = extension(CONSTRAINTS, True, b"\x30\0")


class Row(NamedTuple):
    """Items and anchors, and the report's lines without the check. `signed` has pairs of a key and
    an item that it signed; if it is empty, the one key signed all items."""
    title: str
    items: list
    anchors: list
    lines: list
    status: int = 0
    demand: tuple = ()
    signed: tuple = ()


def utc(text):
    return element(0x17, text.encode())


def certificate(subject, issuer, validity=YEAR, extensions=(), key=KEY):
    """A certificate of serial number 1."""
    version = [element(0xa0, number(2))] * bool(extensions)
    after = [element(0xa3, sequence(*extensions))] * bool(extensions)
    first = sequence(*version, number(1), ALGORITHM, issuer, sequence(*map(utc, validity)),
                     subject, key, *after)
    return sequence(first, ALGORITHM, SIGNATURE)


def entry(serial, *extensions):
    after = [sequence(*extensions)] * bool(extensions)
    return sequence(number(serial), utc("250101000000Z"), *after)


def revocations(updates, entries=(), extensions=(), issuer=name("b")):
    """A list of the times that are written."""
    first = sequence(number(1), ALGORITHM, issuer, *updates, *[sequence(*entries)] * bool(entries),
                     *[element(0xa0, sequence(*extensions))] * bool(extensions))
    return sequence(first, ALGORITHM, SIGNATURE)


LEAF, ANCHOR = certificate(name("a"), name("b")), certificate(name("b"), name("b"))
FOUND = ["path 0 anchor 0", "at 0 CN=a", "at 0 to anchor 0 linked"]


def list_row(title, octets, *reasons):
    """A list that would revoke the target, and why it isn't used."""
    return Row(title, [LEAF, octets], [ANCHOR],
               [*FOUND, "list 1 CN=b", *(f"list 1 not used: {reason}" for reason in reasons)])


def list_rows():
    updates = [utc(one) for one in YEAR]
    revoking = [entry(1)]
    yield list_row("a list without a next update", revocations(updates[:1], revoking),
                   "no next update")
    yield list_row("a list of the next month",
                   revocations([utc("250701000000Z"), utc("250801000000Z")], revoking),
                   "not current before 2025-07-01T00:00:00")
    yield list_row("a list of the next second",
                   revocations([utc("250601000001Z"), utc("250801000000Z")], revoking),
                   "not current before 2025-06-01T00:00:01")
    yield list_row("a list of another century",
                   revocations([element(0x18, b"20510203040506Z")], revoking),
                   "no next update", "not current before 2051-02-03T04:05:06")
    yield list_row("a list of the last month",
                   revocations([utc("250401000000Z"), utc("250501123456Z")], revoking),
                   "past next update 2025-05-01T12:34:56")
    yield list_row("a list that ended a second before",
                   revocations([utc("250401000000Z"), utc("250531235959Z")], revoking),
                   "past next update 2025-05-31T23:59:59")
    yield list_row("a list that ends before it begins",
                   revocations([utc("250701000000Z"), utc("250501000000Z")], revoking),
                   "not current before 2025-07-01T00:00:00", "past next update 2025-05-01T00:00:00")
    for title, times in (("begins", ("250601000000Z", "260101000000Z")),
                         ("ends", ("250101000000Z", "250601000000Z"))):
        yield Row(f"a list that {title} at the moment",
                  [LEAF, revocations(map(utc, times), revoking)], [ANCHOR],
                  ["none", "at 0 CN=a", "at 0 to anchor 0 not linked: revoked by list 1"], 1)
    yield list_row("a list with critical extensions",
                   revocations(updates, revoking, [UNCRITICAL, CRITICAL]),
                   "extension 1 critical 2.5.29.29")
    yield list_row("entries with critical extensions",
                   revocations(updates, [entry(1, UNCRITICAL), entry(2, UNCRITICAL, CRITICAL),
                                         entry(3), entry(1, CRITICAL)]),
                   "entry 1 has a critical extension", "entry 3 has a critical extension")
    yield list_row("a list with all of this but a next update",
                   revocations([utc("250701000000Z")], [entry(1, CRITICAL)], [CRITICAL, CRITICAL]),
                   "no next update", "not current before 2025-07-01T00:00:00",
                   "extension 0 critical 2.5.29.29", "extension 1 critical 2.5.29.29",
                   "entry 0 has a critical extension")


def revoking_list(other):
    """A list of the leaf's serial number and another one, by which such lists differ."""
    return revocations([utc(one) for one in YEAR], [entry(other), entry(1)])


LISTS = [revoking_list(other) for other in (2, 3, 4)]


def first_list_rows():
    """Several lists by one key: the first one that is used and revokes the leaf is named."""
    def row(title, lists, named, *lines, signed=()):
        line = f"at 0 to anchor 0 not linked: revoked by list {named}"
        report = ["none", "at 0 CN=a", line, *lines]
        return Row(title, [LEAF, *lists], [ANCHOR], report, 1, (), signed)

    of_another = revocations([utc(one) for one in YEAR], [entry(2)])
    ended = revocations([utc("250101000000Z"), utc("250201000000Z")], [entry(1)])
    yield row("several lists that revoke", LISTS, 1)
    yield row("a list that revokes, twice", LISTS[:1] * 2, 1)
    yield row("a list of another certificate before lists that revoke", [of_another, *LISTS], 2)
    yield row("a list past its next update before lists that revoke", [ended, *LISTS], 2,
              "list 1 CN=b", "list 1 not used: past next update 2025-02-01T00:00:00")
    yield row("a list that nobody signed before lists that revoke", LISTS, 2,
              "list 1 CN=b", "list 1 not used: no voucher by a key of its issuer",
              signed=[(KEY, item) for item in (LEAF, *LISTS[1:])])


def signed_by(*keys):
    """Pairs of which all keys signed the leaf, and those of these numbers each of the lists."""
    of_lists = ((KEYS[it], item) for item, each in zip(LISTS, keys) for it in each)
    return [*((key, LEAF) for key in KEYS), *of_lists]


def of_issuer(position):
    """What is said of a certificate of the leaf's issuer's name."""
    return [f"at {position} {said}" for said in (
        "CN=b", "no issuer: no authority", "no issuer here: CN=c")]


def list_key_rows():
    """Lists by several keys of one name: of each key the first one is named."""
    issuers = [certificate(name("b"), name("c"), key=KEYS[it]) for it in (0, 1, 0, 2, 3)]
    own = [line for k in range(4, 9) for line in of_issuer(k)]
    yield Row("issuers of one name with other first lists", [LEAF, *LISTS, *issuers], [],
              ["none", "at 0 CN=a", "at 0 to 8 linked",
               "at 0 to 5 not linked: revoked by list 1",
               "at 0 to 4, 6 not linked: revoked by list 2",
               "at 0 to 7 not linked: revoked by list 3", *own], 1, (), signed_by([1], [0, 1], [2]))
    yield Row("lists that are the first ones for no issuer", [LEAF, *LISTS, *issuers], [],
              ["none", "at 0 CN=a", "at 0 to 7-8 linked",
               "at 0 to 4-6 not linked: revoked by list 1", *own],
              1, (), signed_by([0, 1], [1], [0]))
    anchors = [certificate(name("b"), name("b"), key=KEYS[it]) for it in (0, 1, 2)]
    yield Row("anchors with other first lists", [LEAF, *LISTS[:2], *issuers[:2]], anchors,
              ["path 0 anchor 2", "at 0 CN=a", "at 0 to 4 not linked: revoked by list 1",
               "at 0 to 3 not linked: revoked by list 2", "at 0 to anchor 2 linked",
               "at 0 to anchor 1 not linked: revoked by list 1",
               "at 0 to anchor 0 not linked: revoked by list 2", *of_issuer(3), *of_issuer(4)],
              0, (), signed_by([1], [0, 1]))
    yield Row("a list that an anchor's key alone signed", [LEAF, *LISTS[:2], issuers[0]],
              anchors[:2],
              ["none", "at 0 CN=a", "at 0 to 3 not linked: revoked by list 2",
               "at 0 to anchor 1 not linked: revoked by list 1",
               "at 0 to anchor 0 not linked: revoked by list 2", *of_issuer(3)],
              1, (), signed_by([1], [0]))


def certificate_rows():
    for title, validity, *reasons in (
            ("begins a second later", ("250601000001Z", "260101000000Z"),
             "not valid before 2025-06-01T00:00:01"),
            ("ended a second before", ("250101000000Z", "250531235959Z"),
             "expired 2025-05-31T23:59:59"),
            ("ends before it begins", ("250701000000Z", "250501000000Z"),
             "not valid before 2025-07-01T00:00:00", "expired 2025-05-01T00:00:00")):
        yield Row(f"a certificate that {title}", [certificate(name("a"), name("b"), validity)],
                  [ANCHOR], ["none", "at 0 CN=a", *(f"at 0 not usable: {reason}" for reason in reasons),
                             "at 0 to anchor 0 linked"], 1)
    for title, validity in (("begins", ("250601000000Z", "260101000000Z")),
                            ("ends", ("250101000000Z", "250601000000Z"))):
        yield Row(f"a certificate that {title} at the moment",
                  [certificate(name("a"), name("b"), validity)], [ANCHOR], FOUND)


def repeat_rows():
    """basicConstraints of an issuer that are there twice, once with cA."""
    for first, second in ((NO_AUTHORITY, AUTHORITY), (AUTHORITY, NO_AUTHORITY)):
        issuer = certificate(name("b"), name("c"), YEAR, [first, second])
        yield Row("an issuer that is an authority and none", [LEAF, issuer],
                  [certificate(name("c"), name("c"))],
                  ["none", "at 0 CN=a", "at 0 to 1 linked", "at 1 CN=b",
                   "at 1 not usable: extension 1 repeats 2.5.29.19", "at 1 to anchor 0 linked"], 1)


def usage_rows():
    """keyUsage of an issuer."""
    for value, reasons, answer in (
            (SIGNER, [], "path 0 1 anchor 0"),
            (TRAILING_ZERO, ["not usable: extension 1 keyUsage not well written",
                             "no issuer: extension 1 keyUsage without keyCertSign"], "none")):
        issuer = certificate(name("b"), name("c"), YEAR, [AUTHORITY, extension(USAGE, True, value)])
        yield Row(f"an issuer with keyUsage {value.hex()}", [LEAF, issuer],
                  [certificate(name("c"), name("c"))],
                  [answer, "at 0 CN=a", "at 0 to 1 linked", "at 1 CN=b",
                   *(f"at 1 {reason}" for reason in reasons), "at 1 to anchor 0 linked"],
                  int(answer == "none"))
    yield Row("a target with keyUsage 03020184",
              [certificate(name("a"), name("b"), YEAR, [extension(USAGE, False, TRAILING_ZERO)])],
              [ANCHOR],
              ["none", "at 0 CN=a", "at 0 not usable: extension 0 keyUsage not well written",
               "at 0 to anchor 0 linked"], 1)


def name_rows():
    shown = "#3011310F300D060355040314064DFC6C6C6572"
    yield Row("names without a text",
              [certificate(NO_TEXT, NO_TEXT), revocations([utc("250101000000Z")], (), (), NO_TEXT)],
              [], ["none", f"at 0 {shown}", "at 0 to 0 linked", f"list 1 {shown}",
                   "list 1 not used: no next update"], 1)
    yield Row("a missing issuer without a text", [certificate(name("a"), NO_TEXT)], [ANCHOR],
              ["none", "at 0 CN=a", f"at 0 no issuer here: {shown}"], 1)


def bound_rows():
    """An issuer with the path length 0, and who is held back from it: neither the target, nor one
    that issued itself, nor anyone if there is a path."""
    constraints = extension(CONSTRAINTS, True, bytes.fromhex("30060101ff020100"))
    limited = certificate(name("b"), name("c"), YEAR, [constraints])
    ended = certificate(name("a"), name("b"), ("250101000000Z", "250531235959Z"))
    no_path = ["none", "at 0 CN=a", "at 0 not usable: expired 2025-05-31T23:59:59",
               "at 0 to 1 linked"]
    anchors = [certificate(name("c"), name("c"))]
    yield Row("a path length with the target alone below", [ended, limited], anchors,
              [*no_path, "at 1 CN=b", "at 1 to anchor 0 linked"], 1)
    yield Row("a path length with one that issued itself below",
              [ended, limited, certificate(name("b"), name("b"))], anchors,
              [*no_path[:-1], "at 0 to 1-2 linked", "at 1 CN=b", "at 1 to anchor 0 linked",
               "at 2 CN=b", "at 2 no issuer: no authority", "at 2 to 1-2 linked"], 1)
    crossed = certificate(name("c"), name("b"), YEAR, [AUTHORITY])
    links = ["at 1 CN=b", "at 1 to 2 linked", "at 1 to anchor 0 linked", "at 2 CN=c",
             "at 2 to 1 linked"]
    yield Row("a path length with another one below", [ended, limited, crossed], anchors,
              [*no_path, *links, "at 1 leads to an anchor with at most 0 below"], 1)
    yield Row("a path length that a path keeps", [LEAF, limited, crossed], anchors,
              ["path 0 1 anchor 0", "at 0 CN=a", "at 0 to 1 linked", *links])


def range_rows():
    """A certificate with several issuers: which of them are in one line."""
    links = ["none", "at 0 CN=a"]
    for title, others, lines in (
            ("one after the other", [1, 1, 1], ["at 0 to 1-3 linked"]),
            ("with another item between", [1, 0, 1, 1], ["at 0 to 1, 3-4 linked"]),
            ("each by itself, 21 of them", [1, 0] * 21,
             ["at 0 to " + ", ".join(str(2 * index + 1) for index in range(20)) + " and 1 more linked"])):
        items = [LEAF, *(certificate(name("b" if other else "other"), name("c")) for other in others)]
        issuers = [k + 1 for k, other in enumerate(others) if other]
        own = [line for k in issuers for line in
               (f"at {k} CN=b", f"at {k} no issuer: no authority", f"at {k} no issuer here: CN=c")]
        yield Row(f"issuers {title}", items, [], [*links, *lines, *own], 1)
    yield Row("two anchors of a name", [LEAF], [ANCHOR, ANCHOR],
              ["path 0 anchor 0", "at 0 CN=a", "at 0 to anchor 0-1 linked"])


def demand_rows():
    """Targets whose extKeyUsage, or subjectAltName, isn't well written, or is there twice."""
    client = sequence(bytes.fromhex("06082b06010505070302"))
    host = sequence(element(0x82, b"a.test"))
    for demand, identifier, fails, value in (
            (("purpose", "serverAuth"), EXTENDED_KEY_USAGE, "isn't for serverAuth", client),
            (("host", "b.test"), SUBJECT_ALT_NAME, "doesn't serve b.test", host)):
        called = "extKeyUsage" if identifier == EXTENDED_KEY_USAGE else "subjectAltName"
        for title, values, repeats, words in (
                ("without an element", [b"\x30\0"], [], f"its {called} isn't well written"),
                ("twice", [value, value],
                 [f"not usable: extension 1 repeats 2.5.29.{identifier[-1]}"],
                 f"it has more than one {called}")):
            held = [extension(identifier, False, octets) for octets in values]
            lines = ["none", "at 0 CN=a", *(f"at 0 {reason}" for reason in repeats),
                     f"at 0 {fails}: {words}", "at 0 to anchor 0 linked"]
            yield Row(f"{called} {title}", [certificate(name("a"), name("b"), YEAR, held)],
                      [ANCHOR], lines, 1, demand)


def all_rows():
    """The rows whose dates and names are written out."""
    for rows in (list_rows, first_list_rows, list_key_rows, certificate_rows, repeat_rows,
                 usage_rows, name_rows, bound_rows, range_rows, demand_rows):
        yield from rows()


def report_of(row):
    """The whole report of a row."""
    answer, *lines = row.lines
    return text_of([*[" ".join(row.demand)] * bool(row.demand), answer, "check yes", *lines])


def reports_of_page():
    """The reports that docs/REASONS.md can name as examples, by their titles."""
    found = {row.title: report_of(row) for row in all_rows()}
    for title, report in re.findall(r"(?ms)^== ([^:\n]+):[^\n]*\n(.*?)(?=^== |\Z)",
                                    repo.read("tools/trials/refusals.txt")):
        found[title] = report
    for title, report in re.findall(r"(?ms)^case ([^\n]+)\n(.*?)^status ",
                                    repo.read(paths.PRINTED["why"])):
        found[title] = re.sub(r"(?m)^> ", "", report)
    return found


def named_examples():
    """The lines of docs/REASONS.md, as patterns, with the titles of their examples."""
    for line, title in re.findall(r"(?m)^\| `([^`]+)` \|.*\| ([^|]+) \|$", repo.read(PAGE)):
        parts = re.split(r"\b(V|P|K|R|MANY|NAME|MOMENT|OID|LIST|WORDS)\b", line)
        pattern = "".join(".+" if k % 2 else re.escape(part) for k, part in enumerate(parts))
        yield line, pattern, title


class Asking:
    """Asks the program of files in a folder."""

    def __init__(self, program, folder):
        self.program, self.folder = program, folder

    def report(self, files, words):
        """What the program says: its status, its output and its error."""
        titles = "bundle", "anchors", "vouchers"
        for title, octets in zip(titles, files):
            with open(os.path.join(self.folder, title), "wb") as file:
                file.write(octets)
        run = subprocess.run([self.program, "why", *titles, *words], cwd=self.folder,
                             capture_output=True, timeout=SECONDS)
        return run.returncode, run.stdout.decode(errors="backslashreplace"), run.stderr


def text_of(lines):
    return "".join(f"{line}\n" for line in lines)


def try_rows(count, asking):
    """The rows whose dates and names are written out."""
    for row in all_rows():
        files = (b"".join(row.items), b"".join(row.anchors),
                 paths.vouchers(row.signed or ((KEY, item) for item in row.items)))
        words = [f"--{row.demand[0]}", row.demand[1]] if row.demand else []
        count.same(row.title, asking.report(files, ["--target", "0", "--at", AT, *words]),
                   (row.status, report_of(row), b""))


def try_page(count):
    """Each line that docs/REASONS.md names is in the report of its example."""
    reports, examples = reports_of_page(), [*named_examples()]
    for line, pattern, title in examples:
        report = reports.get(title, "")
        count.row(any(re.search(rf"(?:^|: | ){pattern}$", entry) for entry in report.split("\n")),
                  f"{PAGE}: {line} isn't in the report of {title}")
    count.row(len(examples) >= EXAMPLES, f"{PAGE}: {len(examples)} lines have an example")


def differences(said, lines):
    """Where a report differs from the model's, the model's lines with a minus."""
    return "\n".join(difflib.unified_diff(lines.split("\n"), said.split("\n"), lineterm="", n=1))


def try_bundles(count, asking, bundles):
    """Random bundles; gives how often each kind of line occurred, and each case."""
    kinds = collections.Counter()
    for k in range(bundles):
        asked = making.Chance(f"{SEED} {k}").question()
        made = model.Model(asked)
        lines, status = made.report()
        kinds.update(line.kind for line in lines)
        kinds.update(made.cases())
        wanted = text_of(line.text for line in lines)
        words = making.words_of(asked)
        got, said, error = asking.report(making.files_of(asked), words)
        count.row((got, said, error) == (status, wanted, b""),
                  f"bundle {k}, {' '.join(words)}: status {got}, wanted is {status}; {error!r}\n"
                  f"{differences(said, wanted)}")
    return kinds


class Reasons(Trial):
    by_hand = MANY

    def setUp(self):
        folder = tempfile.TemporaryDirectory(prefix="reasons-")
        self.addCleanup(folder.cleanup)
        self.asking = Asking(self.program(), folder.name)

    def test_rows(self):
        try_rows(self, self.asking)

    def test_page(self):
        try_page(self)

    def test_bundles(self):
        self.try_bundles(size(SOME, FEW))

    def try_bundles(self, bundles):
        """Random bundles, among whose lines each kind has to occur, and each case, if there are
        enough of them."""
        kinds = try_bundles(self, self.asking, bundles)
        if bundles >= SOME:
            lacking = [kind for kind in ALL_KINDS if not kinds[kind]]
            self.same("kinds of lines that didn't occur", lacking, [])
        self.same("kinds of lines that have no name", {*kinds} - {*ALL_KINDS}, set())
        return kinds

    def runTest(self):
        """Many random bundles, by hand."""
        try_rows(self, self.asking)
        begun = time.monotonic()
        kinds = self.try_bundles(self.by_hand)
        print(f"{self.by_hand} bundles in {time.monotonic() - begun:.0f} s")
        for kind in ALL_KINDS:
            print(f"{kinds[kind]:8} {kind}")


def main(words):
    if len(words) > 1 or not all(map(str.isdigit, words)):
        sys.exit(__doc__)
    Reasons.by_hand = int(words[0]) if words else MANY
    return 0 if unittest.TextTestRunner().run(Reasons()).wasSuccessful() else 1


if __name__ == "__main__":
    sys.exit(main(sys.argv[1:]))
