"""Tries `certpath.inventory` on a log that is made apart, by the package `cryptography`: RSA and
elliptic curves, weak keys and digests, crossed authorities, path lengths, revocation lists, copies,
damaged signatures, precertificates, hosts and names that many share. OpenSSL verifies the
signatures, here in each shard and there by `./vouch` over everything. Each row has to say what
`certpath paths` says, and which hosts `cryptography` reads.

    scaling_apart.py N FOLDER     writes the log, of about N entries, and everything in one file

Part of `scaling.py`.
"""
import hashlib
import json
import os
import random
import re
import sqlite3
import subprocess
import sys
from base64 import b64encode
from contextlib import closing
from datetime import datetime
from ipaddress import ip_address
from typing import NamedTuple, Optional

ENTRIES, ROOTS, UPPER, LOWER = 1000, 4, 10, 11
SELF_ISSUED, SERIALS = 30, 1000
MOMENT, BEGIN = datetime(2026, 12, 1), datetime(2026, 1, 1)
PAST, FUTURE = datetime(2026, 11, 1), datetime(2027, 6, 1)
BUNDLE, ANCHORS, VOUCHERS, LOG = "everything.der", "anchors.der", "vouchers.txt", "log.json"
SHARED = "localhost"
# How many entries an answer to get-entries has; a time stamp in milliseconds.
ANSWER, TIMESTAMP = 200, 1_790_000_000_000


# The page, and its question for certificates that were issued for precertificates.
PAGE, QUERY = "docs/SCALE.md", re.compile(r"SELECT .* FROM issued;")
# What is compared of a row; octets of a block, for so many entries.
COLUMNS, BLOCKSIZE = ("class", "outcome", "path", "anchor"), 60_000


class Made(NamedTuple):
    """An item, and of a leaf the number of its issuer."""
    octets: bytes
    issuer: Optional[int] = None
    tbs: bytes = b""
    """Of a precertificate the TBSCertificate that the log's tree has."""


def vector(octets, length=3):
    return len(octets).to_bytes(length, "big") + octets


class Maker:
    """Makes certificates and lists; a number makes the choices, and keys are new each time."""

    def __init__(self, seed, entries):
        self.entries, self.first, self.issued = entries, {}, []
        from cryptography import x509
        from cryptography.hazmat.primitives import hashes, serialization
        from cryptography.hazmat.primitives.asymmetric import ec, rsa
        self.x509, self.hashes, self.der = x509, hashes, serialization.Encoding.DER
        self.serialization = serialization
        self.chance, self.serial = random.Random(seed), SERIALS
        self.keys = [rsa.generate_private_key(65537, 2048) if it % 3
                     else ec.generate_private_key(ec.SECP256R1())
                     for it in range(ROOTS + UPPER + LOWER - 1)]
        self.keys.append(rsa.generate_private_key(65537, 1024))

    def one_in(self, count):
        return self.chance.randrange(count) == 0

    def name(self, text):
        return self.x509.Name([self.x509.NameAttribute(self.x509.NameOID.COMMON_NAME, text)])

    def builder(self, subject, key, issuer, signer, length=None, is_authority=False, serial=None):
        x509, self.serial = self.x509, self.serial + 1
        made = x509.CertificateBuilder(
            self.name(issuer), self.name(subject), key.public_key(), serial or self.serial, BEGIN,
            PAST if self.one_in(15) else FUTURE)
        if is_authority:
            made = made.add_extension(x509.BasicConstraints(True, length), True)
            made = made.add_extension(x509.SubjectKeyIdentifier.from_public_key(key.public_key()), False)
        if not self.one_in(3):
            found = x509.AuthorityKeyIdentifier.from_issuer_public_key(signer.public_key())
            made = made.add_extension(found, False)
        return made

    def signing(self):
        return self.hashes.SHA1() if self.one_in(25) else self.hashes.SHA256()

    def signed(self, made, signer):
        return made.sign(signer, self.signing())

    def certificate(self, subject, key, issuer, signer, length=None, is_authority=False):
        made = self.builder(subject, key, issuer, signer, length, is_authority)
        return self.signed(made, signer).public_bytes(self.der)

    def revocations(self, issuer, signer):
        made = self.x509.CertificateRevocationListBuilder(
            self.name(issuer), BEGIN, PAST if self.one_in(5) else FUTURE)
        for _ in range(10):
            serial = SERIALS + self.chance.randrange(1, self.entries)
            made = made.add_revoked_certificate(self.x509.RevokedCertificateBuilder(
                serial, BEGIN).build())
        return made.sign(signer, self.hashes.SHA256()).public_bytes(self.der)

    def authorities(self):
        """Certificates of all authorities, of which some have several, and their lists."""
        for at in range(ROOTS, len(self.keys)):
            above = range(ROOTS) if at < ROOTS + UPPER else range(ROOTS, ROOTS + UPPER)
            for _ in range(self.chance.choice((1, 1, 2, 3))):
                issuer, length = self.chance.choice(above), self.chance.choice((None, None, 0, 1))
                octets = self.certificate(f"Authority {at}", self.keys[at], f"Authority {issuer}",
                                          self.keys[issuer], length, True)
                self.first.setdefault(at, octets)
                yield Made(octets)
            yield Made(self.revocations(f"Authority {at}", self.keys[at]))

    def leaves(self, number):
        for it in range(number - SELF_ISSUED):
            issuer = self.chance.randrange(ROOTS, len(self.keys))
            subject = SHARED if self.one_in(50) else f"{it}.example.test"
            signer, key = self.keys[issuer], self.chance.choice(self.keys)
            made = self.naming(self.builder(subject, key, f"Authority {issuer}", signer), subject)
            if self.one_in(6):
                other = self.builder(subject, self.chance.choice(self.keys), f"Authority {issuer}",
                                     signer, serial=self.serial)
                yield from self.precertificate(made, other if self.one_in(4) else made, signer, issuer)
                continue
            octets = self.signed(made, signer).public_bytes(self.der)
            damaged = octets[:-1] + bytes([octets[-1] ^ 1])
            yield Made(damaged if self.one_in(30) else octets, issuer)
            if self.one_in(40):
                yield Made(octets, issuer)
        for _ in range(SELF_ISSUED):
            key = self.chance.choice(self.keys)
            yield Made(self.certificate(SHARED, key, SHARED, key))

    def naming(self, made, subject):
        """In two of three cases a subjectAltName is added."""
        if self.one_in(3):
            return made
        address = self.chance.choice(("192.0.2.7", "2001:db8::7"))
        names = [self.x509.DNSName(subject), self.x509.DNSName(f"*.{subject}"),
                 self.x509.RFC822Name(f"hostmaster@{subject}"),
                 self.x509.IPAddress(ip_address(address))][self.chance.randrange(4):]
        return made.add_extension(self.x509.SubjectAlternativeName(names), False)

    def hosts(self, octets):
        """The hosts that a certificate names, as cryptography reads them; none of a list."""
        try:
            found = self.x509.load_der_x509_certificate(octets).extensions
            names = found.get_extension_for_class(self.x509.SubjectAlternativeName).value
        except (ValueError, self.x509.ExtensionNotFound):
            return ""
        kinds = self.x509.DNSName, self.x509.IPAddress
        return ", ".join(str(it.value) for it in names if isinstance(it, kinds))

    def precertificate(self, made, to_issue, signer, issuer):
        """A precertificate; in one of two cases a certificate is issued, too, which may be one that
        differs."""
        digest = self.signing()
        pre = made.add_extension(self.x509.PrecertPoison(), True).sign(signer, digest)
        final = to_issue.sign(signer, digest)
        octets, issued = (it.public_bytes(self.der) for it in (pre, final))
        without_poison = made.sign(signer, digest).tbs_certificate_bytes
        yield Made(octets, issuer, without_poison)
        if self.one_in(2):
            digests = [hashlib.sha256(it).hexdigest() for it in (octets, issued)]
            self.issued.append([*digests, self.differing(pre, final, without_poison)])
            yield Made(issued, issuer)

    def differing(self, pre, final, tbs):
        """Which columns differ of a precertificate, for which a TBSCertificate was to be issued, and
        a certificate of its issuer and serial number."""
        one, other = ((self.public(it.public_key()), it.not_valid_after) for it in (pre, final))
        columns = zip(("key_sha256", "not_after"), one, other)
        found = [name for name, its, others in columns if its != others]
        return " ".join(found + ["tbs_sha256"] * (tbs != final.tbs_certificate_bytes))

    def public(self, key):
        return key.public_bytes(self.der, self.serialization.PublicFormat.SubjectPublicKeyInfo)

    def answer(self, made):
        """An entry of an answer to get-entries (RFC 6962, 3.4 and 4.6), and its chain."""
        front = b"\0\0" + TIMESTAMP.to_bytes(8, "big") + bool(made.tbs).to_bytes(2, "big")
        chain = self.first[made.issuer]
        links, extra = vector(vector(chain)), b""
        if made.tbs:
            key = self.public(self.keys[made.issuer].public_key())
            front, extra = front + hashlib.sha256(key).digest(), vector(made.octets)
        leaf = front + vector(made.tbs or made.octets) + vector(b"", 2)
        fields = {"leaf_input": leaf, "extra_data": extra + links}
        return {name: b64encode(octets).decode() for name, octets in fields.items()}, chain

    def write(self, folder):
        roots = [self.certificate(f"Authority {at}", self.keys[at], f"Authority {at}", self.keys[at],
                                  None, True) for at in range(ROOTS)]
        items = [Made(it) for it in roots] + [*self.authorities()]
        items += self.leaves(self.entries - len(items))
        self.chance.shuffle(items)
        # (a log takes no lists, and what has no chain here is left in a file of items)
        logged = [it for it in items[len(items) // 2:] if it.issuer is not None]
        kept = [it for it in items[:len(items) // 2]]
        kept += [it for it in items[len(items) // 2:] if it.issuer is None]
        everything, entries, files = [], [], ["items.der"]
        offset = 0
        for it in kept:
            entries.append((files[0], offset, len(everything)))
            everything.append(it.octets)
            offset += len(it.octets)
        self.put(folder, files[0], b"".join(everything))
        for begin in range(0, len(logged), ANSWER):
            files.append(f"answer-{begin // ANSWER:04}.json")
            answers = []
            for it in logged[begin:begin + ANSWER]:
                answer, chain = self.answer(it)
                entries.append((files[-1], len(answers), len(everything)))
                everything += [it.octets, chain]
                answers.append(answer)
            self.put(folder, files[-1], json.dumps({"entries": answers}).encode())
        self.put(folder, BUNDLE, b"".join(everything))
        self.put(folder, ANCHORS, b"".join(roots))
        digests = [[hashlib.sha256(it).hexdigest() for it in some] for some in (everything, roots)]
        hosts = [*map(self.hosts, everything)]
        self.put(folder, LOG, json.dumps([files, entries, *digests, self.issued, hosts]).encode())

    def put(self, folder, name, octets):
        with open(os.path.join(folder, name), "wb") as to:
            to.write(octets)


def expected(line, items, anchors):
    """The columns class, outcome, path and anchor that a line of `certpath paths` asks for."""
    words = line.split()
    if words[1] == "path":
        at = words.index("anchor")
        path = " ".join(items[int(it)] for it in words[3:at])
        return "cert", "path", path, anchors[int(words[at + 1])]
    return ("cert", "none", "", "") if words[1] == "none" else (words[1], "", "", "")


def trial(count, interpreter, room, entries=ENTRIES):
    from program import repo
    from trials.scaling_runs import PROGRAM, Run, rows_of
    from trials.synthetic import Written
    folder = os.path.join(room, "apart")
    os.mkdir(folder)
    subprocess.run([interpreter, "-W", "ignore", __file__, str(entries), folder], check=True)
    bundle, anchors, vouchers = (os.path.join(folder, it) for it in (BUNDLE, ANCHORS, VOUCHERS))
    with open(os.path.join(folder, LOG), encoding="ascii") as file:
        files, places, digests, held, issued, hosts = json.load(file)
    with open(vouchers, "wb") as to:
        subprocess.run([os.path.join(repo.TOP, "vouch"), bundle, anchors], check=True, stdout=to,
                       stderr=subprocess.DEVNULL)
    words = ["--at", MOMENT.isoformat()]
    lines = subprocess.run([PROGRAM, "paths", bundle, anchors, vouchers, *words], text=True,
                           stdout=subprocess.PIPE, check=False).stdout.splitlines()
    paths = [os.path.join(folder, it) for it in files]
    log, out = Written(paths, anchors, vouchers, 0, 0), os.path.join(room, "made-apart")
    words = ["--names", "--blocksize", str(BLOCKSIZE * entries // ENTRIES), "--workers", "2"]
    run = Run(interpreter, log, out, *words).wait()
    rows = {(it["file"], int(it["offset"])): it for it in rows_of(run.out)}
    wanted = {(os.path.join(folder, file), offset): expected(lines[position], digests, held)
              for file, offset, position in places}
    named = {(os.path.join(folder, file), offset): hosts[position] for file, offset, position in places}
    found = {place: tuple(it[name] for name in COLUMNS) for place, it in rows.items()}
    wrong = [it for it in wanted if found.get(it) != wanted[it]]
    count.row(lines[len(digests)] == "end clean" and found.keys() == wanted.keys() and not wrong,
              f"{len(wrong)} of {len(wanted)} rows differ from one run: {wrong[:5]} "
              f"{run.errors[-2000:]}")
    wrong = [(rows[place]["names"], its) for place, its in named.items() if rows[place]["names"] != its]
    count.row(len({*named.values()}) > len(named) // 5 and not wrong, f"other hosts: {wrong[:5]}")
    outcomes = [it["outcome"] for it in rows.values()]
    count.row(min(map(outcomes.count, ("path", "none"))) > len(rows) // 5, "too few of an outcome")
    count.row({it["source"] for it in rows.values()} == {"item", "x509_entry", "precert_entry"}
              and not any(it["cause"] for it in rows.values()), "other sources, or a fault")
    count.row(all(it["reasons"] and not it["reasons"].startswith("not asked")
                  for it in rows.values() if it["outcome"] == "none"), "none without a reason")
    database = os.path.join(room, "made-apart.sqlite")
    Run(interpreter, log, out, *words, "--resume", "--sqlite", database).wait()
    with closing(sqlite3.connect(database)) as opened:
        joined = {*opened.execute(QUERY.search(repo.read(PAGE))[0])}
    logged = {it["sha256"] for it in rows.values() if it["source"] == "precert_entry"}
    wanted = {tuple(it) for it in issued if it[0] in logged}
    count.row(len(wanted) > len(rows) // 50 and joined == wanted and {it[2] for it in wanted} > {""},
              f"{len(joined)} certificates issued for precertificates, {len(wanted)} were made: "
              f"{[*joined ^ wanted][:3]}")
    return len(rows)


if __name__ == "__main__":
    Maker(64, int(sys.argv[1])).write(sys.argv[2])
