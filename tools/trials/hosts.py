#!/usr/bin/env python3
"""Asks for hosts and purposes: rows beside `openssl verify`, and random chains beside a model that
is written apart from the code.

    python3 tools/trials/hosts.py [NUMBER]    makes so many random chains, 10000 if no number is given
"""
import ipaddress
import json
import os
import random
import ssl
import subprocess
import sys
import tempfile
import unittest
from datetime import datetime, timezone
from typing import List, NamedTuple, Optional

sys.dont_write_bytecode = True
sys.path.insert(0, os.path.dirname(os.path.dirname(os.path.abspath(__file__))))
from program import repo
from trials import hosts_model as model, paths
from trials.count import Trial, size
from trials.synthetic import (CONSTRAINTS, USAGE, Authority, Made, certificate, element, extension,
                              name, sequence)
from verify import core, waiting
from verify.faults import NONE, PATH, WORDS

certpath, purposes = core.certpath, core.certpath.purposes
HERE = os.path.dirname(os.path.abspath(__file__))
AT, STAMP = datetime(2026, 12, 1, tzinfo=timezone.utc), "1796083200"
# How many random chains are made: by hand, in the gate, and on a machine without the toolchain.
MANY, SOME, FEW = 10_000, 1_000, 100
# The smaller size has one row of so many.
SAMPLED = 4
SEED, SECONDS = 20261201, 600
SUBJECT_ALT_NAME, EXTENDED_KEY_USAGE = (bytes.fromhex(f"0603551d{it}") for it in ("11", "25"))
ANY = "2.5.29.37.0"
# The tags of kinds of names (RFC 5280, 4.2.1.6).
TAGS = {"mail": 0x81, "dns": 0x82, "dir": 0xa4, "uri": 0x86, "ip": 0x87, "id": 0x88}
# How openssl names a purpose.
OF_OPENSSL = {"serverAuth": "sslserver", "clientAuth": "sslclient", "emailProtection": "smimesign"}
VERDICTS = {PATH: "yes", NONE: "no", WORDS: "refused"}


class Row(NamedTuple):
    """A row of a table: what the certificates hold, the target's first, what is asked, and the
    answers."""
    line: str
    chain: list
    host: Optional[str]
    purpose: Optional[str]
    ours: str
    openssl: str
    common_name: str = "leaf"
    go: str = ""


class Holds(NamedTuple):
    """What a certificate holds: its alternatives and its usages as the model has them, and their
    extensions' DER."""
    alternatives: list
    usages: list
    extensions: List[bytes]


def long(octets):
    """An element whose length is in an octet more than it needs, as BER allows and DER doesn't."""
    return octets[:1] + b"\x81" + octets[1:]


def octets_of(kind, text):
    """The content of a name."""
    if kind == "ip":
        return bytes.fromhex(text[1:]) if text[:1] == "#" else ipaddress.ip_address(text).packed
    if kind == "id":
        return purposes.identifier_of(text)
    return name(text) if kind == "dir" else text.encode()


def valued(identifier, parts, words, critical=False):
    """The extensions of a value, as words say: none if nothing is given."""
    value = sequence(*parts)
    if "malformed" in words:
        value = long(value)
    if not parts and not {"empty", "malformed", "twice"} & {*words}:
        return []
    return [extension(identifier, critical, value)] * (2 if "twice" in words else 1)


def held(parts, words):
    """A value as the model has it."""
    if not parts and not {"empty", "malformed", "twice"} & {*words}:
        return []
    one = model.MALFORMED if "malformed" in words else [*parts]
    return [one] * (2 if "twice" in words else 1)


def holds(names=(), usages=(), words_of_names=(), words_of_usages=()):
    """What a certificate of these names and usages holds."""
    numbers = [ANY if it == "any" else purposes.NAMES.get(it, it) for it in usages]
    of_names = [element(TAGS[kind], value) for kind, value in names]
    of_usages = [element(0x06, purposes.identifier_of(it)) for it in numbers]
    return Holds(held(names, words_of_names), held(numbers, words_of_usages), [
        *valued(SUBJECT_ALT_NAME, of_names, words_of_names),
        *valued(EXTENDED_KEY_USAGE, of_usages, words_of_usages, "critical" in words_of_usages)])


def rows_of(file):
    """The rows of a table."""
    with open(os.path.join(HERE, file), encoding="utf-8") as it:
        for line in it:
            if line.strip() and not line.startswith("#"):
                yield [part.strip() for part in line.split("|")]


def host_rows():
    for names, host, ours, openssl, go, why in rows_of("hosts.txt"):
        words = names.split()
        kinds = [it.partition(":")[::2] for it in words if ":" in it]
        common = next((text for kind, text in kinds if kind == "cn"), "leaf")
        given = [(kind, octets_of(kind, text)) for kind, text in kinds if kind != "cn"]
        held_by = [holds(given, (), words), holds(), holds()]
        yield Row(f"{names} | {host}: {why}", held_by, host, None, ours, openssl, common, go)


def purpose_rows():
    for *chain, purpose, ours, openssl, why in rows_of("purposes.txt"):
        marks = "critical", "twice", "malformed", "empty"
        given = [[it for it in one.split() if it != "-"] for one in chain]
        made = []
        for words in given:
            usages = [it for it in words if it not in marks]
            if not usages and {"twice", "malformed"} & {*words}:
                usages = ["serverAuth"]
            made.append(holds((), usages, (), words))
        yield Row(f"{' | '.join(chain)} | {purpose}: {why}", made, None, purpose, ours, openssl)


class Maker:
    """Makes chains of three certificates: a target, its issuer, and the anchor, which issued
    itself."""

    def __init__(self):
        self.root, self.middle, self.leaf = map(Authority, ("Root", "Middle", "Leaf"))
        self.serial = 0

    def made(self, issuer, subject, public, extensions) -> Made:
        self.serial += 1
        return certificate(self.serial, issuer, subject, public, extensions)

    def authority(self, issuer, subject, further) -> Made:
        return self.made(issuer, subject.name, subject.public, [
            extension(CONSTRAINTS, True, sequence(b"\x01\x01\xff")),
            extension(USAGE, True, bytes.fromhex("03020106")), *further])

    def chain(self, held_by, common_name="leaf"):
        """The certificates, the target's first."""
        target, between, anchor = held_by
        return [self.made(self.middle, name(common_name), self.leaf.public, target.extensions),
                self.authority(self.root, self.middle, between.extensions),
                self.authority(self.root, self.root, anchor.extensions)]


    def files(self, chain):
        """Bundle, anchors and vouchers of a chain, as ./certpath reads them."""
        target, between, anchor = (it.octets for it in chain)
        pairs = [(self.middle.public, target), (self.root.public, between)]
        return target + between, anchor, paths.vouchers(pairs)


class Beside:
    """Runs ./verify, ./certpath and openssl on the files of a chain."""

    def __init__(self, folder):
        self.folder = folder

    def keep(self, title, octets):
        with open(os.path.join(self.folder, title), "w", encoding="ascii") as it:
            it.write(ssl.DER_cert_to_PEM_cert(octets))
        return title

    def ran(self, words):
        return subprocess.run(words, cwd=self.folder, stdin=subprocess.DEVNULL, capture_output=True,
                              text=True, timeout=SECONDS)

    def run(self, *words):
        """A run of ./verify on the chain."""
        verify = [sys.executable, "-IS", os.path.join(repo.TOP, "verify")]
        return self.ran([*verify, "leaf.pem", "middle.pem", "--anchors", "root.pem", "--at",
                         "2026-12-01", *words])

    def ours(self, row):
        """What ./verify answers: its verdict, its standard output and its standard error."""
        asked = f"--purpose={row.purpose}" if row.host is None else f"--host={row.host}"
        run = self.run(asked)
        return VERDICTS.get(run.returncode, f"status {run.returncode}"), run.stdout, run.stderr

    def path(self, row, vouching):
        """What ./certpath path answers, and its lines that name what is demanded."""
        for title, octets in zip(("bundle", "anchors", "vouchers"), vouching):
            with open(os.path.join(self.folder, title), "wb") as it:
                it.write(octets)
        asked = f"--purpose={row.purpose}" if row.host is None else f"--host={row.host}"
        run = self.ran([sys.executable, "-IS", os.path.join(repo.TOP, "certpath"), "path", "bundle",
                        "anchors", "vouchers", "--target", "0", "--at", "2026-12-01T00:00:00", asked])
        named = [it for it in run.stdout.splitlines() if it.startswith(("host ", "purpose "))]
        return VERDICTS.get(run.returncode, f"status {run.returncode}"), named

    def openssl(self, row):
        """What openssl answers."""
        if row.host is None:
            asked = ["-purpose", OF_OPENSSL[row.purpose]]
        else:
            asked = ["-verify_ip" if model.address_of(row.host) else "-verify_hostname", row.host]
        run = self.ran(["openssl", "verify", "-attime", STAMP, "-no-CAstore", "-no-CApath", "-CAfile",
                        "root.pem", "-untrusted", "middle.pem", *asked, "leaf.pem"])
        return "yes" if run.returncode == 0 else "no"


def reason_of(row):
    """What ./verify says why a row has no path; none if it says something else too."""
    if row.ours != "no" or "critical" in row.line or "occurs twice" in row.line:
        return None
    return f"it isn't for {row.purpose}" if row.host is None else f"it doesn't serve {row.host}"


def try_rows(count):
    """Each row of both tables, by ./verify and by openssl."""
    maker = Maker()
    with tempfile.TemporaryDirectory(prefix="hosts-") as folder:
        beside = Beside(folder)
        for row in [*host_rows(), *purpose_rows()][::size(1, SAMPLED)]:
            chain = maker.chain(row.chain, row.common_name)
            for title, made in zip(("leaf.pem", "middle.pem", "root.pem"), chain):
                beside.keep(title, made.octets)
            verdict, out, line = beside.ours(row)
            count.same(f"{row.line}, ./verify", verdict, row.ours)
            count.same(f"{row.line}, openssl", beside.openssl(row), row.openssl)
            named = f"purpose {row.purpose}" if row.host is None else f"host {row.host}"
            count.same(f"{row.line}, ./certpath path", beside.path(row, maker.files(chain)),
                       (row.ours, [] if row.ours == "refused" else [named]))
            reason = reason_of(row)
            if reason:
                count.same(f"{row.line}, its reason", reason in out, True)
            if row.ours == "refused":
                lines = [it.partition(": ")[0] for it in line.splitlines()]
                count.same(f"{row.line}, its one line", lines, ["verify"])
                count.same(f"{row.line}, its words", line.split()[1], "--host")


class Chance:
    """Random names, hosts and purposes; of a few letters, so that they meet often."""

    LABELS = ("a", "B", "b", "*", "a*", "", "_", "a-", "xn--a", "1", "a b", "ä")
    ADDRESSES = tuple(map(bytes.fromhex, (
        "01020304", "01020305", "00" * 15 + "01", "00" * 10 + "ffff01020304", "010203")))
    HOSTS = ("a.b.test", "b.test", "a.a.b.test", "A.B.TEST", "b.test.", "_.b.test", "test",
             "1.2.3.4", "::1", "[::1]", "::ffff:1.2.3.4", "xn--a.b.test", "1.b.test")
    BAD_HOSTS = ("", ".", "*.b.test", "a..test", "a-.test", "a b.test", "1.2.3.4.5",
                 "http://b.test", "b.test:1", "a@b.test", "::1%1", "::g", "ä.test", "[1.2.3.4]",
                 "1.2.3.04", "a" * 64 + ".test", ".".join(["a" * 49] * 5) + ".abcd")
    USAGES = ([], [], ["serverAuth"], ["clientAuth"], ["any"], ["clientAuth", "serverAuth"],
              ["1.2.3"])

    def __init__(self, seed):
        self.chance = random.Random(seed)

    def dns(self):
        pick = self.chance.choice
        labels = [pick(self.LABELS) for _ in range(self.chance.randrange(3))]
        text = ".".join([*labels, *pick((["b", "test"], ["b", "test"], ["test"], []))])
        return (text + pick(("", "", "", "."))).encode("latin-1")

    def name(self):
        kind = self.chance.choice(("dns", "dns", "dns", "ip", "mail", "uri", "dir", "id"))
        if kind == "dns":
            return kind, self.dns()
        address, directory = self.chance.choice(self.ADDRESSES), name("b.test")
        return kind, {"ip": address, "id": b"\x2a\x03", "dir": directory}.get(kind, b"a.b.test")

    def words(self):
        return self.chance.choice(((),) * 12 + (("malformed",), ("twice",), ("empty",)))

    def holds(self, is_target):
        words_of_names, words_of_usages = self.words(), self.words()
        names = [self.name() for _ in range(self.chance.randrange(5))] if is_target else []
        if "empty" in words_of_names:
            names = []
        usages = self.chance.choice(self.USAGES)
        if "empty" in words_of_usages:
            usages = []
        made = holds(names, usages, words_of_names, words_of_usages)
        if all(value.isascii() for kind, value in names if kind in ("dns", "mail", "uri")):
            return made
        return made._replace(alternatives=[model.MALFORMED for _ in made.alternatives])

    def demands(self):
        """A host and a purpose, either of them maybe none."""
        pick = self.chance.choice
        return pick((None, *self.HOSTS)), pick((None, "serverAuth", "clientAuth", "1.2.3"))


def is_sound(held_by):
    """Whether no certificate below the anchor has an extension twice, which no path has."""
    return all(len(it.alternatives) < 2 and len(it.usages) < 2 for it in held_by)


# What a certificate of the next trial is for.
OTHERS = "it is for clientAuth, emailProtection"


def try_forms(count):
    """What the other forms of output say of a certificate that isn't for a purpose and a host."""
    maker = Maker()
    usages = ["clientAuth", "emailProtection"]
    chain = maker.chain([holds([("dns", b"b.test")], usages), holds((), usages), holds()])
    with tempfile.TemporaryDirectory(prefix="hosts-") as folder:
        beside = Beside(folder)
        for title, made in zip(("leaf.pem", "middle.pem", "root.pem"), chain):
            beside.keep(title, made.octets)
        asked = ["--host", "a.test", "--purpose", "sslserver"]
        found = json.loads(beside.run("--json", *asked).stdout)
        reasons = [(it["of"], it["reason"], it["to"]) for it in found["reasons"]]
        count.same("the reasons", reasons, [
            ("item 0", f"isn't for serverAuth: {OTHERS}", None),
            ("item 0", "doesn't serve a.test: it names b.test", None),
            ("item 1", f"isn't for serverAuth: {OTHERS}", None)])
        count.same("the text", found["reasons"][0]["text"],
                   f"it isn't for serverAuth: {OTHERS}")
        count.same("what is asked", (found["host"], found["purpose"]), ("a.test", "serverAuth"))
        left = {"host names", "extended key usage"} & {*found["not_judged"]}
        count.same("what isn't judged", left, set())
        count.same("the first line", found["headline"].split(": ")[0],
                   "no valid path at 2026-12-01T00:00:00Z for host a.test and purpose serverAuth")
        graph = beside.run("--dot", *asked).stdout
        count.same("the graph", f"it isn't for serverAuth: {OTHERS}" in graph, True)
        run = beside.run("--purpose", "nothing")
        count.same("no purpose", (run.returncode, run.stderr.split(": ")[1]),
                   (WORDS, "--purpose nothing"))


def try_chains(count, chains):
    """Random chains: which of them are paths, and what the library says of each certificate."""
    # (the seconds of a run of ./verify are for this whole process here)
    waiting.BUDGET.given = sys.maxsize
    chance, maker = Chance(SEED), Maker()
    for _ in range(chains):
        held_by = [chance.holds(True), chance.holds(False), chance.holds(False)]
        target, between, anchor = maker.chain(held_by)
        host, purpose = chance.demands()
        asked = None if host is None else model.host_of(host)
        wanted = purpose and purposes.NAMES.get(purpose, purpose)
        for made, one in ((target, held_by[0]), (between, held_by[1])):
            if host is not None:
                count.same(f"{one.alternatives} serves {host}", certpath.serves(made.octets, host),
                           model.serves(one.alternatives, asked))
            if purpose is not None:
                count.same(f"{one.usages} for {purpose}", certpath.allows(made.octets, purpose),
                           model.allows(one.usages, wanted))
        side = core.Side([File(made.octets, "item") for made in (target, between)], False)
        vouchers = certpath.Vouchers()
        vouchers.add(maker.middle.public, target.octets)
        vouchers.add(maker.root.public, between.octets)
        found = certpath.find(side.items, certpath.frame(anchor.octets), vouchers, 0, AT,
                              host=host, purpose=purpose)
        chain = [(it.alternatives, it.usages) for it in held_by[:2]]
        path = is_sound(held_by[:2]) and model.has_path(chain, asked, wanted)
        count.same(f"a path for {host} and {purpose}: {held_by[:2]}", bool(found), path)


class File(NamedTuple):
    """An item of a file."""
    octets: bytes
    file: str


def try_hosts(count):
    """Texts that are hosts, and texts that are none, beside the model."""
    for text in [*Chance.HOSTS, *Chance.BAD_HOSTS]:
        try:
            certpath.serving.refuse_host(text)
            is_host = True
        except certpath.BadHost:
            is_host = False
        count.same(f"{text!r:.80} is a host", is_host, model.host_of(text) is not None)


class Hosts(Trial):
    by_hand = MANY

    def setUp(self):
        self.need("openssl")
        self.need_libcrypto()
        self.program()

    def test_rows(self):
        try_rows(self)

    def test_forms(self):
        try_forms(self)

    def test_hosts(self):
        try_hosts(self)

    def test_chains(self):
        try_chains(self, size(SOME, FEW))

    def runTest(self):
        """Many random chains, by hand."""
        try_chains(self, self.by_hand)


def main(words):
    if len(words) > 1 or not all(map(str.isdigit, words)):
        sys.exit(__doc__)
    Hosts.by_hand = int(words[0]) if words else MANY
    return 0 if unittest.TextTestRunner().run(Hosts()).wasSuccessful() else 1


if __name__ == "__main__":
    sys.exit(main(sys.argv[1:]))
