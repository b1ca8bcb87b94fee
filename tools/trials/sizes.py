"""Asks about large input, with ample memory: 1,000 items, a path of 300, a list of 1,000 entries,
300 extensions, items of 100 KB, 1,000 vouchers. A body that gives up beyond a size fails here.

It asks the program, the package python/certpath, whose search and check read items by two readers,
and the programs of rows, which have every extension and entry printed.
"""
import os
import re
import subprocess
import sys
import tempfile
from datetime import datetime
from typing import NamedTuple

from dev import items
from program import repo
from trials import paths
from trials.count import Trial

sys.path.insert(0, os.path.join(repo.TOP, "python"))
import certpath

MANY, CHAIN, EXTENSIONS, OCTETS = 1_000, 300, 300, 100_000
MOMENT, SECONDS = "2025-06-01T00:00:00", 600
KEY = items.octets("30(30(06(2a03))03(00))")
VERSION_3 = "a0(02(02))"
AUTHORITY = "30(06(551d13)01(ff)04(30(01(ff))))"
# The classes of items: the words of a report, with those of rows and of the package.
CERTIFICATE, LIST = "cert", "list"
WORDS = {CERTIFICATE: "certificate", LIST: "list"}
KINDS = {CERTIFICATE: certpath.Kind.CERTIFICATE, LIST: certpath.Kind.LIST}
# An extension or an entry, as the programs of rows print it.
PART = re.compile(r"(?m)^  (?:extension|entry|revoked) ")


class Item(NamedTuple):
    """An item: its class, its octets, and how many extensions and entries it has."""
    kind: str
    octets: bytes
    parts: int = 0


class Case(NamedTuple):
    """A bundle and anchors, the items that the one key vouches for, the line of the answer, the
    target, and whether lists are demanded."""
    title: str
    bundle: list
    anchors: list
    vouched: list
    answer: str
    target: int = 0
    demand: bool = False

    def report(self):
        """What `certpath path` prints."""
        count = len(self.anchors)
        lines = [f"{place} {item.kind}" for place, item in enumerate(self.bundle)]
        lines += ["end clean", f"anchors {count} of {count}, clean", self.answer, "check yes"]
        return "".join(f"{line}\n" for line in lines)


# ---- what is asked about, in the words of tools/dev/items.py


def name(text):
    """A name of one common name."""
    return f'30(31(30(06(550403)0c("{text}"))))'


def spelled(words, **parts):
    return items.item(" ".join([words, *(f"{part}={text}" for part, text in parts.items())]))


def certificate(extensions=(), **parts):
    """A certificate with extensions, plain but for its parts."""
    if extensions:
        parts |= {"version": VERSION_3, "extensions": f"a3(30({''.join(extensions)}))"}
    return Item(CERTIFICATE, spelled("certificate", **parts), len(extensions))


def authority(subject, issuer, further=()):
    return certificate((AUTHORITY, *further), issuer=name(issuer), subject=name(subject))


def number(place):
    """A positive INTEGER of two octets."""
    return f"02({0x1000 + place:04x})"


def unknown_extensions():
    """So many different extensions that nobody knows."""
    numbers = (0x8100 + index // 128 * 256 + index % 128 for index in range(EXTENSIONS))
    return [f"30(06(2a{index:04x})04(05()))" for index in numbers]


def large_items():
    """Items by their titles."""
    entries = "".join(f'30({number(index)}17("250101000000Z"))' for index in range(MANY))
    attributes = f'30(06(550403)0c("a"))*{OCTETS // 10}'
    return {
        "1,000 entries": Item(LIST, spelled("list", entries=f"30({entries})"), MANY),
        "300 extensions": certificate(unknown_extensions(), issuer=name("b")),
        "an issuer of 301 extensions": authority("b", "root", unknown_extensions()),
        "a value of 100 KB": certificate([f"30(06(2a03)04(ab*{OCTETS}))"]),
        "a name of 100 KB": certificate(subject=f"30(31({attributes}))"),
    }


def cases(large):
    anchor, root = certificate(), certificate(subject=name("root"))
    many = [certificate(serial=number(index), subject=name(index)) for index in range(MANY)]
    names = [*range(CHAIN), "root"]
    chain = [authority(*names[index:index + 2]) for index in range(CHAIN)]
    last, whole = MANY - 1, " ".join(map(str, range(CHAIN)))
    revoking = large["1,000 entries"]
    found = "path 0 anchor 0"
    yield Case("1,000 items", many, [anchor], many[-1:], f"path {last} anchor 0", last)
    yield Case("the last of 1,001 vouchers", [anchor], [anchor], [*many, anchor], found)
    yield Case("1,000 anchors", [anchor], [*many[1:], anchor], [anchor], f"path 0 anchor {last}")
    yield Case("a path of 300", chain, [root], chain, f"path {whole} anchor 0")
    for title, leaf, answer in (("the last of 1,000 entries", many[-1], "none"),
                                ("none of 1,000 entries", anchor, found)):
        bundle = [leaf, revoking]
        yield Case(f"revoked by {title}", bundle, [anchor], bundle, answer, demand=True)
    bundle = [large["300 extensions"], large["an issuer of 301 extensions"]]
    yield Case("300 extensions", bundle, [root], bundle, "path 0 1 anchor 0")
    for title in ("a value of 100 KB", "a name of 100 KB"):
        yield Case(title, [large[title]], [anchor], [large[title]], found)


# ---- asking


def octets_of(found):
    return b"".join(entry.octets for entry in found)


def lines_of(case):
    """The lines of the voucher file."""
    return paths.vouchers((KEY, entry.octets) for entry in case.vouched)


def by_program(count, program, room, case):
    """`path` prints the report, and no other command is out of memory."""
    files = [os.path.join(room, item) for item in ("bundle", "anchors", "vouchers")]
    contents = octets_of(case.bundle), octets_of(case.anchors), lines_of(case)
    for path, octets in zip(files, contents):
        with open(path, "wb") as file:
            file.write(octets)
    asked, row = paths.Case(), {"target": str(case.target)}
    asked.moment, asked.demand = MOMENT, case.demand
    commands = [paths.words_of(entry, files, row, asked) for entry in paths.PRINTED]
    all_words, evidence = paths.words_of("paths", files, row, asked), os.path.join(room, "evidence")
    commands.append([*all_words, "--evidence", evidence])
    commands.append(["recheck", *files, evidence, *all_words[len(files) + 1:]])
    known = {"path": case.report(), "recheck": "check yes\n"}
    for words in (["frame", files[0]], *commands):
        ran = subprocess.run([program, *words], stdin=subprocess.DEVNULL, stdout=subprocess.PIPE,
                             stderr=subprocess.PIPE, text=True, timeout=SECONDS)
        is_right = ran.returncode in (0, 1) and not ran.stderr
        is_right = is_right and ran.stdout == known.get(words[0], ran.stdout)
        count.row(is_right, f"{case.title}: {words[0]} ended with status {ran.returncode}: "
                            f"{ran.stderr or ran.stdout[-200:]}")


def by_package(count, case):
    """The items have their classes, something is found, and the check says yes to it."""
    bundle, anchors = (certpath.frame(octets_of(value)) for value in (case.bundle, case.anchors))
    pairs = bytes.fromhex(lines_of(case).decode())
    asked = bundle, anchors, pairs, case.target, datetime.fromisoformat(MOMENT)
    try:
        kinds = [item.kind for item in bundle]
        count.row(kinds == [KINDS[item.kind] for item in case.bundle], f"{case.title}: other classes")
        count.row(certpath.questions(bundle, anchors), f"{case.title}: no questions")
        answer = certpath.find(*asked, demand_lists=case.demand)
        count.row(line_of(answer) == case.answer, f"{case.title}: {line_of(answer)[:200]}")
        says_yes = certpath.check(*asked, answer, demand_lists=case.demand)
        count.row(says_yes, f"{case.title}: the check says no")
        report = certpath.path(*asked, demand_lists=case.demand)
        count.row(report == case.report(), f"{case.title}: path gives {report[-200:]}")
        lines = f"{case.answer}\ncheck yes\n"
        reasons = certpath.why(*asked, demand_lists=case.demand)
        count.row(reasons.startswith(lines), f"{case.title}: why gives {reasons[:200]}")
        of_all = certpath.paths(*asked[:3], asked[-1], demand_lists=case.demand)
        count.row(of_all.endswith("check yes\n"), f"{case.title}: paths gives {of_all[-200:]}")
    except certpath.Error as error:
        count.row(False, f"{case.title}: {error!r}")


def line_of(answer):
    """The line of a report that says this answer."""
    if answer.outcome is not certpath.Outcome.PATH:
        return "none"
    return " ".join(["path", *map(str, answer.positions), "anchor", str(answer.anchor)])


def by_rows(count, large):
    """Two readers of items, and `from_der`, read each extension and each entry."""
    programs = {entry: count.program(entry) for entry in ("rows_cert", "rows_x509")}
    for title, item in large.items():
        word, octets = WORDS[item.kind], item.octets.hex()
        written = f"  written {len(item.octets)}, the item\n"
        for crate, row, front, end in (
                ("rows_cert", octets, f" = {word}\n", written),
                ("rows_x509", f"{word} {word} {octets}", " = 30 ", "; rest none\n")):
            told = printed(programs[crate], row)
            is_right = told.startswith(front) and told.endswith(end)
            count.row(is_right and len(PART.findall(told)) == item.parts,
                      f"{title}: {crate} prints {told[:100]} .. {told[-100:]}")


def printed(program, row):
    """What a program of rows prints after the row; nothing where it fails."""
    ran = subprocess.run([program], input=f"{row}\n", stdout=subprocess.PIPE, text=True,
                         timeout=SECONDS)
    return ran.stdout[len(row):] if ran.returncode == 0 else ""


class Sizes(Trial):
    def test_program_and_package(self):
        program = self.program()
        with tempfile.TemporaryDirectory(prefix="sizes-") as room:
            for case in cases(large_items()):
                by_program(self, program, room, case)
                by_package(self, case)

    def test_rows(self):
        by_rows(self, large_items())
