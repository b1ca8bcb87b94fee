"""Tries the parts of certpath.inventory, which need no Dask: it only runs them.

    cd python && python3 -m unittest
"""
import csv
import gzip
import io
import json
import os
import sys
import tempfile
import unittest
from base64 import b64encode
from datetime import datetime
from unittest import mock

import certpath
from certpath.inventory import (anchors, blocks, files, hosts, index, inputs, logs, program, progress,
                                ranges, reasons, rows, shards, signatures, tables, trees, words, work)
from certpath.inventory.entries import Entry, Place
from certpath.items import LIMIT

from . import arrow

TOP = os.path.join(os.path.dirname(os.path.abspath(__file__)), "..", "..")
MILLISECONDS, TIMESTAMP = 1_700_000_000_123, "2023-11-14T22:13:20.123"
FRONT = b"\0\0" + MILLISECONDS.to_bytes(8, "big")
NONE = b"\0\0\0"
HERE = Place("log.json", 7)


def sample(name):
    with open(os.path.join(TOP, "samples", name), "rb") as file:
        return file.read()


def vector(length, octets):
    return len(octets).to_bytes(length, "big") + octets


LEAF, MIDDLE, ROOT = map(sample, ("leaf.der", "intermediate.der", "root.der"))
ROOT_FILE = os.path.join(TOP, "samples", "root.der")
X509_LEAF = FRONT + b"\0\0" + vector(3, LEAF) + b"\0\0"
KEY_HASH = bytes.fromhex(rows.key_digest(MIDDLE))
PRECERT_LEAF = FRONT + b"\0\1" + KEY_HASH + vector(3, b"\x30\0") + b"\0\0"
CHAIN = vector(3, vector(3, MIDDLE) + vector(3, ROOT))


NAME = bytes.fromhex("300e310c300a06035504030c03") + b"one"
PRECERTIFICATES, ANY, SERVER, POISON, SCT_LIST = map(bytes.fromhex, (
    "060a2b06010401d679020404", "0604551d2500", "06082b06010505070301", "060a2b06010401d679020403",
    "060a2b06010401d679020402"))


def element(tag, content):
    size = len(content)
    length = (b"\x82" + size.to_bytes(2, "big") if size > 255 else bytes([0x81, size]) if size > 127
              else bytes([size]))
    return bytes([tag]) + length + content


def certificate(serial, extensions=b""):
    """A certificate of one name that was issued under it, whose signature nobody vouches for."""
    times = bytes.fromhex("301e170d") + b"260101000000Z" + b"\x17\x0d" + b"270101000000Z"
    key = certpath.frame(LEAF)[0].public_key_bytes
    algorithm = bytes.fromhex("300506032b6570")
    signed = (b"\xa0\x03\x02\x01\x02" + b"\x02\x02" + (1000 + serial).to_bytes(2, "big") + algorithm
              + NAME + times + NAME + key + extensions)
    return element(0x30, element(0x30, signed) + algorithm + b"\x03\x02\x00\x00")


def revocations(*serials):
    """A list of such certificates, which their issuer's name issued."""
    algorithm, time = bytes.fromhex("300506032b6570"), b"\x17\x0d260101000000Z"
    entries = (element(0x30, b"\x02\x02" + (1000 + it).to_bytes(2, "big") + time) for it in serials)
    signed = algorithm + NAME + time + b"\x17\x0d270101000000Z" + element(0x30, b"".join(entries))
    return element(0x30, element(0x30, signed) + algorithm + b"\x03\x02\x00\x00")


def usage(purposes):
    """An extKeyUsage (RFC 5280, 4.2.1.12) as the extensions of a certificate."""
    value = element(0x04, element(0x30, b"".join(purposes)))
    return element(0xa3, element(0x30, element(0x30, bytes.fromhex("0603551d25") + value)))


def extension(identifier):
    """An extension of two octets, by its identifier as an element."""
    return element(0x30, identifier + element(0x04, b"\x05\0"))


def extensions(*each):
    """Extensions as a certificate has them."""
    return element(0xa3, element(0x30, b"".join(each)))


def tbs_of(item):
    """The TBSCertificate of a certificate of more than 255 octets, by its length: all that is before
    the algorithm."""
    size = int.from_bytes(item[6:8], "big")
    return item[4:8 + size]


def alternative(*names):
    """Extensions with a subjectAltName of such names, each an element (RFC 5280, 4.2.1.6)."""
    value = element(0x04, element(0x30, b"".join(names)))
    return element(0xa3, element(0x30, element(0x30, bytes.fromhex("0603551d11") + value)))


def answer(leaf, extra):
    return {"leaf_input": b64encode(leaf).decode(), "extra_data": b64encode(extra).decode()}


class Room(unittest.TestCase):
    """Tests that need a folder."""

    def setUp(self):
        folder = tempfile.TemporaryDirectory()
        self.addCleanup(folder.cleanup)
        self.folder = folder.name

    def put(self, name, octets):
        path = os.path.join(self.folder, name)
        with open(path, "wb") as file:
            file.write(octets)
        return path


class Logs(unittest.TestCase):
    def read(self, leaf, extra):
        return logs.read_entry(HERE, answer(leaf, extra))

    def test_certificates(self):
        self.assertEqual(self.read(X509_LEAF, CHAIN), Entry(HERE, "x509_entry", LEAF, (MIDDLE, ROOT),
                                                            timestamp=TIMESTAMP))
        self.assertEqual(self.read(X509_LEAF, NONE).chain, ())

    def test_precertificates(self):
        found = self.read(PRECERT_LEAF, vector(3, LEAF) + CHAIN)
        self.assertEqual(found, Entry(HERE, "precert_entry", LEAF, (MIDDLE, ROOT),
                                      timestamp=TIMESTAMP, issuer_key_hash=KEY_HASH, tbs=b"\x30\0"))

    def test_every_cut(self):
        for length in range(len(X509_LEAF)):
            found = self.read(X509_LEAF[:length], CHAIN)
            self.assertEqual((found.end, found.cause), ("fault", f"leaf_input: cut at octet {length}"))
        for length in range(len(CHAIN)):
            found = self.read(X509_LEAF, CHAIN[:length])
            self.assertEqual((found.octets, found.end), (LEAF, ""))
            self.assertEqual(found.cause, f"extra_data: cut at octet {length}")
        for length in range(len(LEAF) + 3):
            found = self.read(PRECERT_LEAF, vector(3, LEAF)[:length])
            self.assertEqual((found.source, found.octets, found.end), ("precert_entry", b"", "fault"))

    def test_causes(self):
        for leaf, extra, cause in (
                (X509_LEAF + b"\0", CHAIN, "leaf_input: 1 octets too many"),
                (b"\1" + X509_LEAF[1:], CHAIN, "leaf_input: version 1, leaf type 0"),
                (b"\0\1" + X509_LEAF[2:], CHAIN, "leaf_input: version 0, leaf type 1"),
                (FRONT + b"\0\2" + X509_LEAF[12:], CHAIN, "leaf_input: entry type 2"),
                (X509_LEAF, CHAIN + b"\0", "extra_data: 1 octets too many"),
                (X509_LEAF, vector(3, b"\0\0"), "extra_data: cut at octet 2"),
                (b"\0\0" + b"\xff" * 8 + X509_LEAF[10:], CHAIN,
                 "leaf_input: time stamp 18446744073709551615"),
                (b"", CHAIN, "leaf_input: cut at octet 0")):
            self.assertEqual(self.read(leaf, extra).cause, cause)

    def test_no_text(self):
        good = answer(X509_LEAF, CHAIN)
        for entry, cause in (({**good, "leaf_input": "*" + good["leaf_input"]}, "leaf_input: not base64"),
                             ({**good, "leaf_input": good["leaf_input"][1:]}, "leaf_input: not base64"),
                             ({**good, "leaf_input": "\u00e9"}, "leaf_input: not base64"),
                             ({**good, "extra_data": 7}, "extra_data: not a string"),
                             ({"leaf_input": good["leaf_input"]}, "extra_data: not there"),
                             ({}, "leaf_input: not there"), ("x", "leaf_input: not there"),
                             (None, "leaf_input: not there")):
            self.assertEqual(logs.read_entry(HERE, entry).cause, cause)

    def test_answers(self):
        text = json.dumps({"entries": [answer(X509_LEAF, CHAIN), None]}).encode()
        found = [*logs.read_entries("log.json", text)]
        self.assertEqual([it.place for it in found], [("log.json", 0), ("log.json", 1)])
        self.assertEqual([it.end for it in found], ["", "fault"])
        self.assertEqual([it.number for it in found], [None, None])
        found = [*logs.read_entries("log.json", text, 1000)]
        self.assertEqual([it.number for it in found], [1000, 1001])

    def test_issuer_key_hash(self):
        """It is that of the chain's first certificate, or of the second one where the first signs
        precertificates alone."""
        signing, any_too, either = (certificate(1, usage(it)) for it in (
            [PRECERTIFICATES], [PRECERTIFICATES, ANY], [PRECERTIFICATES, SERVER]))
        own = bytes.fromhex(rows.key_digest(signing))
        for key_hash, chain, cause in (
                (KEY_HASH, (MIDDLE, ROOT), ""), (KEY_HASH, (MIDDLE,), ""),
                (KEY_HASH, (ROOT, MIDDLE), rows.WRONG_HASH), (KEY_HASH, (ROOT,), rows.WRONG_HASH),
                (KEY_HASH, (b"none", MIDDLE), rows.WRONG_HASH), (KEY_HASH, (), rows.NO_HASH),
                (KEY_HASH, (signing, MIDDLE), ""), (KEY_HASH, (either, MIDDLE), ""),
                (KEY_HASH, (signing, ROOT, MIDDLE), rows.WRONG_HASH),
                (own, (signing, MIDDLE), rows.WRONG_HASH), (own, (signing,), rows.NO_HASH),
                (own, (any_too, MIDDLE), ""), (KEY_HASH, (any_too, MIDDLE), rows.WRONG_HASH)):
            entry = Entry(HERE, "precert_entry", LEAF, chain, issuer_key_hash=key_hash)
            self.assertEqual(rows.read(entry, LIMIT).row.cause, cause)
        self.assertEqual(rows.read(Entry(HERE, "x509_entry", LEAF, ()), LIMIT).row.cause, "")

    def test_tbs(self):
        """The TBSCertificate of a precertificate's entry is the precertificate's without the poison,
        unless another certificate signs for the issuer; that of a certificate has no time stamps."""
        poison, stamps, other = (extension(it) for it in (POISON, SCT_LIST, SERVER))
        pre, final, third = (certificate(1, extensions(it, other)) for it in (poison, stamps, stamps * 2))
        tbs, signing = tbs_of(certificate(1, extensions(other))), certificate(1, usage([PRECERTIFICATES]))
        for its, given, chain, cause in (
                (pre, tbs, (MIDDLE,), ""), (pre, tbs_of(pre), (MIDDLE,), rows.WRONG_TBS),
                (pre, b"", (MIDDLE,), rows.WRONG_TBS), (pre, tbs_of(final), (MIDDLE,), rows.WRONG_TBS),
                (final, tbs, (MIDDLE,), rows.WRONG_TBS), (pre, b"0", (signing, MIDDLE), ""),
                (LEAF, tbs_of(LEAF), (MIDDLE,), ""), (b"\x30\0", b"\x30\0", (MIDDLE,), "")):
            entry = Entry(HERE, "precert_entry", its, chain, issuer_key_hash=KEY_HASH, tbs=given)
            row = rows.read(entry, LIMIT).row
            self.assertEqual((row.cause, row.tbs_sha256),
                             (cause, files.digest(given) if row.kind == "cert" else ""))
        for its, of in ((final, tbs), (third, tbs), (pre, tbs_of(pre)), (LEAF, tbs_of(LEAF))):
            row = rows.read(Entry(HERE, "x509_entry", its), LIMIT).row
            self.assertEqual((row.cause, row.tbs_sha256), ("", files.digest(of)))

    def test_no_answers(self):
        for text, offset, cause in ((b'{"entries": [', 13, "not JSON: Expecting value"),
                                    (b'{"\xff"}', 2, "not JSON: not UTF-8"),
                                    (b'{"a": 1}', 0, "no answer to get-entries: KeyError 'entries'"),
                                    (b'{"entries": []}', 0, "no answer to get-entries: Malformed "
                                                            "entries: none"),
                                    (b'{"entries": 1}', 0, "no answer to get-entries: Malformed "
                                                           "entries: not a list")):
            found = [*logs.read_entries("log.json", text)]
            self.assertEqual([(it.place.offset, it.end, it.cause) for it in found],
                             [(offset, "fault", cause)])
        self.assertEqual(len([*logs.read_entries("deep", b'{"a":' * 100000)]), 1)


class Files(Room):
    def spans(self, octets, blocksize):
        self.path = self.put("items.der", octets)
        return files.spans_of(self.path, blocksize, LIMIT).spans

    def entries(self, spans):
        return [it for span in spans for it in files.read_octets(span, files.octets_of(span), LIMIT)]

    def test_every_size(self):
        octets = sample("bundle.der")
        whole = self.entries(self.spans(octets, len(octets)))
        self.assertEqual([it.place.offset for it in whole], [0, 884, 1741, 2554])
        for blocksize in range(1, len(octets), 97):
            spans = self.spans(octets, blocksize)
            self.assertEqual(self.entries(spans), whole)
            self.assertEqual([spans[0].begin, spans[-1].end], [0, len(octets)])
            found = files.spans_of(self.path, blocksize, LIMIT)
            self.assertEqual(found.sha256, files.digest(octets))

    def test_ends(self):
        for more, end in ((b"\x30\x82", "cut"), (b"no item", "fault"), (LEAF[:-1], "cut"),
                          (b"no item" + LEAF, "fault")):
            for blocksize in (100, 1000, 1 << 20):
                found = self.entries(self.spans(LEAF + MIDDLE + more, blocksize))
                self.assertEqual([it.octets for it in found], [LEAF, MIDDLE, b""])
                self.assertEqual((found[-1].place.offset, found[-1].end), (len(LEAF + MIDDLE), end))

    def test_kinds_of_files(self):
        for octets, kind in ((b' \n{"entries": []}', (True, False)), (LEAF, (False, False)),
                             (b"", (False, False)), (b"-----BEGIN", (False, False)),
                             (gzip.compress(LEAF), (False, True))):
            span = self.spans(octets, 100)[0]
            self.assertEqual((span.is_answer, span.is_packed), kind)

    def test_empty(self):
        for octets in (b"", gzip.compress(b"")):
            found = self.entries(self.spans(octets, 100))
            self.assertEqual([(it.end, it.cause) for it in found], [("fault", files.EMPTY)])

    def test_compressed(self):
        text = json.dumps({"entries": [answer(X509_LEAF, CHAIN)]}).encode()
        for octets, expected in ((gzip.compress(LEAF) + gzip.compress(MIDDLE), [LEAF, MIDDLE]),
                                 (gzip.compress(text), [LEAF])):
            self.assertEqual([it.octets for it in self.entries(self.spans(octets, 100))], expected)
        for octets in (gzip.compress(LEAF)[:-1], gzip.compress(LEAF) + b"x", files.GZIP + LEAF):
            found = self.entries(self.spans(octets, 100))
            self.assertEqual([it.cause for it in found], ["it can't be unpacked: damaged or cut"])
        with mock.patch.object(files, "MOST_UNPACKED", len(LEAF)):
            self.assertEqual(files.unpacked(gzip.compress(LEAF)), LEAF)
            with self.assertRaises(files.TooLarge):
                files.unpacked(gzip.compress(LEAF) * 2)

    def test_changes(self):
        octets = LEAF + MIDDLE
        for changed in (MIDDLE + LEAF, octets[:-1], octets + ROOT, b""):
            spans = self.spans(octets, 100)
            self.put("items.der", changed)
            with self.assertRaises(files.Changed):
                [*map(files.octets_of, spans)]

    def test_no_file(self):
        fifo = os.path.join(self.folder, "fifo")
        os.mkfifo(fifo)
        for path in (os.path.join(self.folder, "none"), self.folder, fifo):
            with self.assertRaises(OSError):
                files.spans_of(path, 100, LIMIT)

    def test_ranges(self):
        for name, by_names, expected in (
                ("get-entries?start=5&end=9", False, (5, 9)), ("log-5-9.json.gz", True, (5, 9)),
                ("0-999", True, (0, 999)), ("log-5-9.json", False, (None, None)),
                ("0007.json", True, (None, None))):
            self.assertEqual(files.range_of(f"/1-2/{name}", by_names), expected)
        path = self.put("5-9.json", b"{}")
        span = files.spans_of(path, 100, LIMIT, True).spans[0]
        self.assertEqual((span.first, span.last), (5, 9))

    def test_groups(self):
        spans = [files.Span(name, 0, size, size) for name, size in (("a", 3), ("b", 3), ("c", 9), ("d", 1))]
        found = [[it.file for it in block.spans] for block in blocks.blocks_of(spans, 6)]
        self.assertEqual(found, [["a", "b"], ["c"], ["d"]])
        few = blocks.blocks_of([files.Span("a", 0, 0, 0)] * (2 * blocks.MOST_SPANS + 1), 6)
        self.assertEqual([len(it.spans) for it in few], [blocks.MOST_SPANS] * 2 + [1])


class Inputs(Room):
    def test_folders_and_lists(self):
        os.makedirs(os.path.join(self.folder, "in", "b"))
        for name in ("in/c", "in/b/x", "in/a"):
            self.put(name, b"")
        listed = self.put("list", b"in/c\n\nin/b\r\n")
        before = os.getcwd()
        self.addCleanup(os.chdir, before)
        os.chdir(self.folder)
        whole = [os.path.join(self.folder, "in", it) for it in ("a", "c", "b/x")]
        self.assertEqual(inputs.listed(["in"]), whole)
        self.assertEqual(inputs.listed([], [listed]), whole[1:])
        self.assertEqual(inputs.listed(["none"]), [os.path.join(self.folder, "none")])
        os.mkdir("empty")
        for names, lists in ((["empty"], []), ([], []), ([], ["none"])):
            with self.assertRaises(OSError):
                inputs.listed(names, lists)


class Ranges(unittest.TestCase):
    def test_gaps(self):
        for held, last, missing, twice in (
                ([(0, 9), (10, 19)], 19, [], []), ([(10, 19), (0, 7)], None, [(8, 9)], []),
                ([(0, 9), (5, 12), (6, 6)], 20, [(13, 20)], [(5, 9), (6, 6)]), ([], 5, [], [])):
            found = ranges.covered([ranges.Range(*it) for it in held], last)
            self.assertEqual(found, (missing, twice))
        self.assertEqual([*map(str, (ranges.Range(3, 3), ranges.Range(3, 4)))], ["3", "3 to 4"])


class Trees(unittest.TestCase):
    """The roots are those of the examples that Certificate Transparency's own code has."""
    LEAVES = [bytes.fromhex(it) for it in (
        "", "00", "10", "2021", "3031", "40414243", "5051525354555657", "606162636465666768696a6b6c6d6e6f")]
    ROOTS = ["e3b0c44298fc1c149afbf4c8996fb92427ae41e4649b934ca495991b7852b855",
             "6e340b9cffb37a989ca544e6bb780a2c78901d3fb33738768511a30617afa01d",
             "fac54203e7cc696cf0dfcb42c92a1d9dbaf70ad9e621f4bd8d98662f00e3c125",
             "aeb6bcfe274b70a14fb067a5e5578264db0fa9b51af5e0ba159158f329e06e77",
             "d37ee418976dd95753c1c73862b9398fa2a2cf9b4ff0fdfe8b30cd95209614b7",
             "4e3bbb1f7b478dcfe71fb631631519a3bca12c9aefca1612bfce4c13a86264d4",
             "76e67dadbcdf1e10e1b74ddc608abd2f98dfb16fbce75277b5232a127f2087ef",
             "ddb89be403809e325750d3d263cd78929c2942b7942a34b77e122c9594a74c8c",
             "5dc9da79a70659a9ad559cb701ded9a2ab9d823aad2f4960cfe370eff4604328"]

    def test_every_cutting(self):
        hashes = [*map(trees.leaf_hash, self.LEAVES)]
        for size, root in enumerate(self.ROOTS):
            for one in range(size + 1):
                for other in range(one, size + 1):
                    parts = [(0, one), (one, other), (other, size)]
                    found = [tree for begin, end in parts[::-1]
                             for tree in trees.of_leaves(begin, hashes[begin:end], size)]
                    self.assertEqual(trees.root_of(trees.joined(found).row, size), root)
                    self.assertEqual(trees.compared(found, trees.TreeHead(size, root)), "")

    def test_holes_and_doubles(self):
        hashes = [*map(trees.leaf_hash, self.LEAVES)]
        for missing in range(8):
            leaves = [None if it == missing else leaf for it, leaf in enumerate(hashes)]
            self.assertIsNone(trees.root_of(trees.of_leaves(0, leaves, 8), 8))
        head, whole = trees.TreeHead(8, self.ROOTS[8]), trees.of_leaves(0, hashes, 8)
        self.assertEqual(trees.compared(whole + whole, head), "")
        for begin, end in ((4, 6), (0, 1), (7, 8), (2, 4)):
            doubled = whole + trees.of_leaves(begin, hashes[begin:end], 8)
            self.assertIn("several files", trees.compared(doubled, head))
        halves = trees.of_leaves(0, hashes[:6], 8) + trees.of_leaves(4, hashes[4:], 8)
        self.assertIn("several files", trees.compared(halves, head))


class Anchors(Room):
    def test_amiss(self):
        neither = "neither certificate nor revocation list"
        missing = f"1 octet of it missing, {len(LEAF) - 1} octets to the file's end"
        for octets, amiss in ((ROOT, ""), (sample("root.pem"), ""),
                              (ROOT + sample("list.der"), "1 of 2 items are certificates"),
                              (ROOT + b"\x30\0", f"octet {len(ROOT)}: {neither}; left out"),
                              (ROOT + b"\x30\0" * 3, f"octet {len(ROOT)}: {neither}; left out, and 2 more"),
                              (ROOT + LEAF[:-1], f"octet {len(ROOT)}: {missing}; left out"),
                              (sample("keys/root.pem") + sample("root.pem"),
                               f"line 1 PRIVATE KEY: the block holds {neither}; left out")):
            path = self.put("anchors", octets)
            found = anchors.read(path, LIMIT)
            self.assertEqual(found.amiss(path), amiss and f"anchors {path}: {amiss}")
            self.assertEqual((found.octets[:len(ROOT)], found.usable), (ROOT, 1))
        found = anchors.read(self.put("anchors", ROOT + sample("intermediate.der")), len(ROOT))
        self.assertEqual((found.items, found.is_whole), (1, False))
        self.assertIn("; an item is above the limit", f"; {found.amiss('').partition(': ')[2]}")

    def test_none_usable(self):
        for octets, cause in ((b"", "the file is empty"), (b"-----BEGIN CERTIFICATE-----\n",
                                                           "line 1 CERTIFICATE: its END is missing"),
                              (b"\x30\0", "octet 0: neither certificate nor revocation list"),
                              (sample("list.der"), "none of its items is a certificate")):
            path = self.put("anchors", octets)
            with self.assertRaises(anchors.BadAnchors) as caught:
                anchors.read(path, LIMIT)
            self.assertEqual(str(caught.exception), f"anchors {path}: {cause}")
        with self.assertRaisesRegex(anchors.BadAnchors, "an item is above the limit"):
            anchors.read(self.put("anchors", ROOT), 9)


class Rows(unittest.TestCase):
    def row(self, octets, limit=LIMIT):
        return rows.read(Entry(HERE, "item", octets), limit).row

    def test_certificates(self):
        found, item = self.row(LEAF), certpath.frame(LEAF)[0]
        self.assertEqual((found.kind, found.subject, found.issuer),
                         ("cert", str(item.subject), str(item.issuer)))
        self.assertEqual((found.serial, found.not_before), ("03", "2026-11-22T00:00:00"))
        self.assertEqual(found.key_sha256, rows.digest(item.public_key_bytes))
        self.assertEqual((found.algorithm, self.row(sample("list.der")).algorithm), ("2a864886f70d01010b",) * 2)
        self.assertEqual(found.sha256, rows.digest(LEAF))

    def test_lists(self):
        found = self.row(sample("list.der"))
        self.assertEqual((found.kind, found.subject, found.serial), ("list", "", ""))
        self.assertEqual(found.not_after, "2031-11-22T00:00:00")

    def test_others(self):
        for octets, cause in ((b"\x30\0", ""), (LEAF + b"\0", "not one item: 1 items, end fault 884"),
                              (LEAF + LEAF, "not one item: 2 items"),
                              (LEAF[:-1], "not one item: 0 items, end cut 0")):
            found = self.row(octets)
            self.assertEqual((found.kind, found.cause, found.subject), ("other", cause, ""))
        self.assertEqual(self.row(LEAF, 100).cause, "not one item: 0 items, end fault 0")

    def test_names(self):
        attribute = bytes.fromhex("300e310c300a06035504030c03") + b"a\n\\"
        self.assertEqual(rows.shown(attribute), "CN=a\\0A\\5C")
        attribute = bytes.fromhex("3010310e300c06035504030c05") + "ö\u202e".encode()
        self.assertEqual(rows.shown(attribute), "CN=ö\\E2\\80\\AE")
        self.assertEqual((rows.shown(b"\x30\0"), rows.shown(b"\x02\x01")), ("(empty)", "#0201"))

    def test_chains(self):
        entry = Entry(HERE, "x509_entry", LEAF, (MIDDLE, ROOT))
        met = set()
        found = [it.source for it in rows.with_chains([entry, entry], met)]
        self.assertEqual(found, ["x509_entry", "chain", "chain", "x509_entry"])
        self.assertEqual(met, {*map(rows.digest, (MIDDLE, ROOT))})


class Tables(Room):
    def test_csv(self):
        row = rows.read(Entry(Place("a,\n\udcff", 3), "item", LEAF), LIMIT).row
        path = tables.part(self.folder, 4, tables.CSV)
        self.assertEqual(tables.write(path, [row, row], tables.CSV, self.folder), 2)
        self.assertEqual(os.listdir(self.folder), ["part-000004.csv"])
        with open(os.path.join(self.folder, "part-000004.csv"), encoding="utf-8",
                  errors="surrogateescape", newline="") as file:
            found = [*csv.DictReader(file)]
        self.assertEqual([(it["file"], it["offset"], it["class"]) for it in found],
                         [("a,\n\udcff", "3", "cert")] * 2)

    def test_parquet(self):
        """Rows are read back as they were, also where there is none; a name that isn't UTF-8 is
        escaped."""
        first = rows.read(Entry(HERE, "item", LEAF), LIMIT).row
        held = [first, first._replace(file="a\udcff", log_index="7"), first._replace(cause="ö")]
        expected = [first, held[1]._replace(file="a\\xff", log_index=7), held[2]]
        for name, modules in arrow.tried():
            with self.subTest(pyarrow=name), mock.patch.dict(sys.modules, modules):
                for number, written in ((0, held), (1, [])):
                    path = tables.part(self.folder, number, tables.PARQUET)
                    count = tables.write(path, written, tables.PARQUET, self.folder)
                    self.assertEqual(count, len(written))
                    found = [[it or "" for it in row] for row in tables.read(path, tables.PARQUET)]
                    self.assertEqual(found, [[*it] for it in expected[:count]])

    def test_values(self):
        for heading, held, expected in (
                ("file", "a\udcff", "a\\xff"), ("file", "ö", "ö"), ("offset", "7", 7),
                ("offset", 0, 0), ("log_index", "", None), ("log_index", "12", 12),
                ("cause", "", None), ("cause", None, None)):
            self.assertEqual(tables.value(heading, held), expected)


class Indexed(Room):
    """An index of the samples."""

    def setUp(self):
        super().setUp()
        self.path = os.path.join(self.folder, "index.sqlite")
        index.create(self.path)
        self.reads = {it: rows.read(Entry(HERE, "item", sample(f"{it}.der")), LIMIT)
                      for it in ("leaf", "intermediate", "root", "list")}
        found = [index.Candidate(self.reads[it], sample(f"{it}.der"))
                 for it in ("root", "list", "intermediate", "root")]
        self.assertEqual([*index.add_issuers(self.path, found)], found[:3])

    def items(self, *names):
        return [self.reads[it].row.sha256 for it in names]

    def test_closure(self):
        with index.Index(self.path) as opened:
            found = opened.closure([self.reads["leaf"].issuer])
            self.assertEqual([it.item for it in found], self.items("root", "list", "intermediate"))
            found = opened.closure([self.reads["intermediate"].issuer])
            self.assertEqual([it.item for it in found], self.items("root"))
            self.assertEqual(opened.closure(["none"]), [])

    def test_names(self):
        index.add_names(self.path, ["a", "b", "a"])
        with index.Index(self.path) as opened:
            self.assertEqual([*map(opened.issues, "abc")], [True, True, False])

    def test_vouchers(self):
        path = os.path.join(TOP, "samples", "vouchers.txt")
        index.add_vouchers(self.path, signatures.lines_of(path))
        with index.Index(self.path) as opened:
            keys = signatures.given(opened, self.items("leaf", "list"))
        self.assertEqual([*map(len, keys.values())], [1, 1])
        lines = signatures.text(keys, self.items("leaf")).splitlines()
        with open(path, encoding="ascii") as file:
            self.assertIn(lines[0], file.read().splitlines())

    def test_bad_vouchers(self):
        path = self.put("vouchers.txt", b"0" * 64 + b" " + b"f" * 64 + b"\r\n\n" + b"no line\n")
        with self.assertRaisesRegex(signatures.BadLine, "line 3"):
            [*signatures.lines_of(path)]

    def shard(self, opened, name):
        read = self.reads[name]
        return shards.Target(read.row.sha256, read.issuer, sample(f"{name}.der"))

    def test_answers(self):
        bundle, words = sample("bundle.der"), ["--at", "2026-12-01T00:00:00"]
        keys = signatures.verified(bundle, ROOT, LIMIT, False, 16)
        asked = shards.Asked(program.found(), ROOT_FILE, [rows.digest(ROOT)], words, keys)
        with index.Index(self.path) as opened:
            target = self.shard(opened, "leaf")
            shard = shards.shard_of(opened, [target])
            self.assertEqual(shard.items, self.items("root", "list", "intermediate", "leaf"))
            found = shards.answers(shard, asked)
            self.assertEqual([found[it].outcome for it in shard.items], ["path", "list", "path", "none"])
            given = work.Settings(ROOT_FILE, datetime(2026, 12, 1))
            said = reasons.Reasons(opened, asked, given).of([target])[target.item]
        middle, revoking = self.items("intermediate", "list")
        self.assertIn(f"at target to {middle} not linked: revoked by list {revoking}", said)

    def test_remembered(self):
        """What is in other shards is verified once, unless other keys or options are asked with."""
        bundle, shared = LEAF + MIDDLE, {rows.digest(it) for it in (MIDDLE, LEAF)}
        asked = []
        def judged(judge, item, holders):
            asked.append(rows.digest(item.public_bytes()))
            return self.judged(judge, item, holders)
        self.judged = signatures.openssl.Judge.judged
        with mock.patch.object(signatures.openssl.Judge, "judged", judged), \
                mock.patch.dict(signatures.REMEMBERED, clear=True):
            for octets, anchors, tries, weak, count in (
                    (bundle, ROOT, 16, False, 2), (bundle, ROOT, 16, False, 0),
                    (MIDDLE, ROOT, 16, False, 0), (bundle, ROOT, 1, False, 2),
                    (bundle, ROOT, 16, True, 2), (bundle, b"", 16, False, 1),
                    (LEAF, ROOT, 16, False, 1)):
                asked.clear()
                found = signatures.verified(octets, anchors, LIMIT, weak, tries, shared)
                self.assertEqual(len(asked), count)
                self.assertEqual(found, signatures.verified(octets, anchors, LIMIT, weak, tries))
            self.assertEqual(len(signatures.REMEMBERED), 8)
            with mock.patch.object(signatures, "MOST_REMEMBERED", 8):
                signatures.verified(MIDDLE, ROOT, LIMIT, False, 2, shared)
            self.assertEqual(len(signatures.REMEMBERED), 1)

    def test_other_reports(self):
        asked = shards.Asked("", "", ["a"], [], {})
        shard = shards.Shard(["x", "y", "z"], [])
        self.assertEqual(shards.answer_of("1 path 1 2 anchor 0", 1, shard, asked),
                         ("path", ("z",), "a"))
        self.assertEqual(shards.answer_of("0 path 0 anchor 0", 0, shard, asked), ("path", (), "a"))
        for line in ("1 none", "0 nothing", "end clean", "0 path 0"):
            with self.assertRaises(program.Failed):
                shards.answer_of(line, 0, shard, asked)


class Programs(Room):
    def test_missing(self):
        with self.assertRaises(program.Missing):
            program.found(os.path.join(self.folder, "none"))

    def test_refused(self):
        question = program.Question(LEAF, ROOT_FILE, "no vouchers\n", ["--at", "2026-12-01T00:00:00"])
        with self.assertRaisesRegex(program.Failed, "vouchers line 1"):
            program.report(program.found(), program.PATHS, question)


class Hosts(Room):
    """The hosts that certificates name, by the program."""

    def names(self, octets):
        return hosts.names_of(octets, program.found())

    def test_names(self):
        dns, address = (lambda it: element(0x82, it)), (lambda it: element(0x87, it))
        many = [dns(b"%d.example.test" % it) for it in range(25)]
        for names, expected in (
                ([dns(b"a.test"), dns(b"*.invalid"), address(bytes([10, 0, 0, 1]))],
                 "a.test, *.invalid, 10.0.0.1"),
                ([element(0x81, b"a@b.test")], ""), ([], "its subjectAltName isn't well written"),
                (many, ", ".join(f"{it}.example.test" for it in range(20)) + " and 5 more"),
                ([dns(b"a, b\n")], "a\\2C b\\0A")):
            self.assertEqual(self.names(certificate(1, alternative(*names))), expected)
        self.assertEqual([*map(self.names, (LEAF, ROOT))], ["www.example.test", ""])

    def test_no_answer(self):
        for octets, error in ((b"none", "nothing is said|ended with status"), (sample("list.der"), "status 3")):
            with self.assertRaisesRegex(program.Failed, error):
                self.names(octets)


class Reasons(Room):
    """Reasons of certificates of one name."""

    def made(self, count):
        path = os.path.join(self.folder, "index.sqlite")
        index.create(path)
        found = [certificate(it) for it in range(count)]
        reads = [rows.read(Entry(HERE, "item", it), LIMIT) for it in found]
        self.assertEqual({it.row.kind for it in reads}, {"cert"})
        held = [index.Candidate(*it) for it in zip(reads, found)]
        self.assertEqual(len([*index.add_issuers(path, held)]), count)
        targets = [shards.Target(it.row.sha256, it.issuer, octets) for it, octets in zip(reads, found)]
        return path, targets

    def reasons(self, opened):
        asked = shards.Asked(program.found(), ROOT_FILE, (rows.digest(ROOT),), [], {})
        return reasons.Reasons(opened, asked, work.Settings(ROOT_FILE, datetime(2026, 12, 1)))

    def test_together_and_alone(self):
        path, targets = self.made(5)
        with index.Index(path) as opened:
            together = self.reasons(opened).of(targets)
            alone = {it.item: self.reasons(opened).of([it])[it.item] for it in targets}
        self.assertEqual(together, alone)
        said = together[targets[4].item].split("; ")
        self.assertEqual(said[:5], [f"at target to {it.item if it != targets[4] else 'target'} not linked: "
                                    "no voucher" for it in targets])
        self.assertEqual(said[5], f"at {targets[0].item} no issuer: no authority")
        self.assertEqual((len(said), said[-1]), (21, ".. 9 further"))

    def test_first_list(self):
        """Of lists that revoke, the first one in the order of everything is named in each report."""
        path, targets = self.made(4)
        lists = [revocations(*range(4), it) for it in (9, 8, 7)]
        reads = [rows.read(Entry(HERE, "item", it), LIMIT) for it in lists]
        held = [index.Candidate(*it) for it in zip(reads, lists)]
        self.assertEqual(len([*index.add_issuers(path, held)]), 3)
        first, second = (it.row.sha256 for it in reads[1:])
        key = rows.digest(certpath.frame(LEAF)[0].public_key_bytes)
        with index.Index(path) as opened:
            held, size = self.reasons(opened), reasons.Size(16, 16)
            held.asked.keys.update({first: [key], second: [key]})
            asked = targets[0].issuer, targets[:3], size
            found = [held.together(*asked), {it.item: held.alone(it, size) for it in targets[:3]}]
            with mock.patch.multiple(reasons, FRONT=3, MOST_REASONS=6):
                found.append(dict(held.by_front(*asked)))
        self.assertEqual([*map(len, found)], [3, 3, 3])
        for said in (it for each in found for it in each.values()):
            self.assertIn(f"not linked: revoked by list {first}", said)
            self.assertNotIn(f"revoked by list {second}", said)

    def test_many_anchors(self):
        """Anchors are counted by themselves: there may be more of them than items."""
        path, targets = self.made(1)
        with index.Index(path) as opened:
            held = self.reasons(opened)
            obstacle = reasons.obstacle_of("at 0 to anchor 2 not linked: no voucher")
            held.asked = held.asked._replace(anchor_items=("a", "b", "c"))
            shard = shards.shard_of(opened, targets)
            self.assertEqual(held.naming(shard, targets[0].item)(obstacle),
                             "at target to anchor c not linked: no voucher")

    def test_path_lengths(self):
        """Where one of them matters, targets are asked about one by one."""
        path, targets = self.made(3)
        bound = "none\ncheck yes\nat 1 leads to an anchor with at most 0 below\n"
        with index.Index(path) as opened:
            held = self.reasons(opened)
            reported = reasons.Reported(reasons.places_of(bound))
            self.assertTrue(reported.has_bound)
            with mock.patch.object(held, "reported", return_value=reported) as asked:
                self.assertEqual(len(held.of(targets)), 3)
            self.assertEqual([it.args[1] for it in asked.call_args_list],
                             [targets[0], targets[1], *targets])

    def test_other_names(self):
        """Where none of them issued itself, both reports are of the whole bundle."""
        path, targets = self.made(4)
        with index.Index(path) as opened:
            held, whole, size = self.reasons(opened), opened.closure([targets[0].issuer]), reasons.Size(16, 18)
            with mock.patch.object(held, "reported", wraps=held.reported) as asked, \
                    mock.patch.object(opened, "under", return_value=[]):
                opened.closure = lambda names: whole
                found = held.together("", targets, size)
            self.assertEqual([len(it.args[0].items) for it in asked.call_args_list], [4, 4])
            self.assertEqual(held.left, reasons.MOST_OF_BLOCK - 2 * 18)
            self.assertEqual(found, self.reasons(opened).together(targets[0].issuer, targets, size))

    def test_lines(self):
        """Names that read like a reason are none, and of many lines the first are kept."""
        lines = ["none", "check yes", "at 3 CN=a", "at 3 not usable: expired 2026-01-01T00:00:00Z",
                 *(f"at 3 to {it} not linked: no voucher" for it in range(30)), "at 3 to 30 linked",
                 "at 3 to anchor 0 not linked: no voucher", "at 12 CN=b not linked: no voucher",
                 "at 12 no issuer: no authority", "at 12 no issuer here: CN=c",
                 "list 9 CN=c", "list 9 not used: no next update", ""]
        found = reasons.places_of("\n".join(lines))
        kinds = {(part.name, at): {kind: few.total for kind, few in held.items()}
                 for (part, at), held in found.items()}
        self.assertEqual(kinds, {("CERTIFICATES", 3): {"not usable": 1, "not linked": 31},
                                 ("CERTIFICATES", 12): {"no issuer": 1, "no issuer here": 1},
                                 ("LISTS", 9): {"not used": 1}})
        first = [*map(reasons.obstacle_of, found[reasons.Part.CERTIFICATES, 3]["not linked"].first)]
        self.assertEqual([it.to for it in first], [*range(reasons.MOST_REASONS)])

    def test_ranges(self):
        """A line of several positions is one obstacle for each of them."""
        lines = ["none", "check yes", "at 3 to 0, 2-4 not linked: no voucher",
                 "at 3 to anchor 1-2 not linked: revoked by list 7",
                 f"at 4 to {', '.join(str(2 * it) for it in range(20))} and 3 more not linked: no voucher",
                 "at 4 to 5-6 linked", ""]
        found = reasons.places_of("\n".join(lines))
        first, total = found[reasons.Part.CERTIFICATES, 3]["not linked"]
        self.assertEqual((first, total), (
            [*(f"at 3 to {it} not linked: no voucher" for it in (0, 2, 3, 4)),
             *(f"at 3 to anchor {it} not linked: revoked by list 7" for it in (1, 2))], 6))
        first, total = found[reasons.Part.CERTIFICATES, 4]["not linked"]
        self.assertEqual((len(first), total), (20, 23))

    def test_name_like_a_list(self):
        """A name that ends as a reason does names no list."""
        path, targets = self.made(1)
        line = "at 0 no issuer here: CN=not linked: revoked by list 99"
        with index.Index(path) as opened:
            shard = shards.shard_of(opened, targets)
            named = self.reasons(opened).naming(shard, targets[0].item)
            self.assertEqual(named(reasons.obstacle_of(line)), line.replace("at 0", "at target"))

    def test_limit(self):
        """A report of too many pairs isn't asked for, nor more than a block may have, where the
        octets that are read count, too."""
        path, targets = self.made(5)
        with index.Index(path) as opened:
            size, octets = self.reasons(opened).size(targets[0].issuer), sum(len(it.octets) for it in targets)
            self.assertEqual(size, (30, 30 + octets // reasons.OCTETS_OF_PAIR))
            with mock.patch.object(reasons, "MOST_PAIRS", 29):
                found = self.reasons(opened).of(targets[:1])
            self.assertEqual([*found.values()],
                             ["not asked: 30 pairs of a certificate and one of its issuer's name"])
            held = self.reasons(opened)
            held.left = 2 * size.steps - 1
            found = held.of(targets[:2])
            self.assertEqual([it.startswith("not asked") for it in found.values()], [False, True])

    def test_limit_of_one_name(self):
        """A thousand certificates of one name have one report, with all of each."""
        path, _ = self.made(1)
        with index.Index(path) as opened:
            for count, may in ((1000, True), (1100, False)):
                pairs = count + count ** 2
                self.assertEqual(self.reasons(opened).may_ask(reasons.Size(pairs, pairs)), may)

    def test_many_of_one_name(self):
        """All reasons are counted, also where there are hundreds of thousands."""
        path, targets = self.made(400)
        with index.Index(path) as opened:
            held = self.reasons(opened)
            with mock.patch.object(held, "reported", wraps=held.reported) as asked:
                found = held.of(targets)
        self.assertEqual(asked.call_count, 2)
        self.assertEqual({it.rpartition("; ")[2] for it in found.values()},
                         {f".. {400 * 400 + 400 - 1 - reasons.MOST_REASONS} further"})

    def test_front(self):
        """Where reports on all of many certificates of one name take too much, some of them give all
        reasons that stand in the table; where they give fewer, all are asked about, as long as may
        be. Nothing is tried where the name has no more certificates than these."""
        path, targets = self.made(9)
        not_asked = "not asked: 90 pairs of a certificate and one of its issuer's name"
        with index.Index(path) as opened, mock.patch.object(reasons, "MOST_REASONS", 4):
            size = self.reasons(opened).size(targets[0].issuer)
            whole = {it.item: self.reasons(opened).alone(it, size).split("; ") for it in targets}
            cut = {item: [*lines[:4], f".. further {not_asked}"] for item, lines in whole.items()}
            for front, many, calls, expected in (
                    (4, 9 * size.steps - 1, 9, cut), (6, 0, 9, cut), (3, 0, 18, whole), (9, 0, 9, whole),
                    (4, 9 * size.steps, 9, whole)):
                held = self.reasons(opened)
                with mock.patch.multiple(reasons, FRONT=front, MANY=many), \
                        mock.patch.object(held, "together", return_value={}), \
                        mock.patch.object(held, "reported", wraps=held.reported) as asked:
                    found = held.of(targets)
                self.assertEqual({item: it.split("; ") for item, it in found.items()}, expected)
                self.assertEqual(asked.call_count, calls)

    def test_limit_of_front(self):
        """No more is tried than a block may have."""
        path, targets = self.made(9)
        with index.Index(path) as opened, mock.patch.multiple(reasons, MOST_REASONS=4, FRONT=4, MOST_PAIRS=89):
            held = self.reasons(opened)
            held.left = 3 * (25 + 4 * len(targets[0].octets) // reasons.OCTETS_OF_PAIR)
            found = [it.rpartition("; ")[2].startswith(".. further") for it in held.of(targets).values()]
        self.assertEqual(found, [True] * 3 + [False] * 6)


class Shown(unittest.TestCase):
    """What is shown while a run is on its way."""

    def progress(self, is_terminal):
        self.time, self.stream, self.there = 0.0, io.StringIO(), {"a", "b"}
        self.stream.isatty = lambda: is_terminal
        return progress.Progress(lambda: self.there, self.stream, lambda: self.time)

    def test_lines(self):
        shown = self.progress(False)
        done = shown.begin("first pass", 1000)
        self.time = 30.0
        done.step(250, 600)
        shown.look()
        self.assertEqual(self.stream.getvalue(), "")
        self.time = 60.0
        shown.look()
        self.assertRegex(self.stream.getvalue(), r"\Ainventory: first pass: 25%, 600 entries, "
                                                 r"10 a second, 3 min left, until \d\d:\d\d\n\Z")

    def test_files(self):
        """Of files that are cut as many are said to be done as there were."""
        shown = self.progress(False)
        shown.begin("cutting", 2000, "files").step(500, 500)
        self.time = 60.0
        shown.look()
        self.assertRegex(self.stream.getvalue(), "^inventory: cutting: 25%, 500 files, 8 a second, 3 min left")

    def test_terminal(self):
        shown = self.progress(True)
        shown.begin("second pass", 1000)
        self.time = 1.0
        shown.look()
        shown.show("a fault")
        self.assertEqual(self.stream.getvalue(), f"{progress.CLEAR}inventory: second pass: 0%, 0 entries, "
                                                 f"0 a second{progress.CLEAR}a fault\n")

    def test_lost_workers(self):
        shown = self.progress(False)
        shown.look()
        self.there = {"b"}
        shown.look()
        self.assertEqual(self.stream.getvalue(), "inventory: 1 of the workers lost (a); 1 there; what "
                                                 "they did is done again\n")

    def test_lengths(self):
        found = [*map(progress.length_of, (0, 89, 90, 7199, 7260))]
        self.assertEqual(found, ["0 s", "89 s", "2 min", "2 h 0 min", "2 h 1 min"])


class Words(unittest.TestCase):
    def test_defaults(self):
        read = words.parser().parse_args(["a", "--anchors", "b", "--out", "c"])
        given = work.Settings(**{it: getattr(read, it) for it in work.Settings._fields})
        self.assertEqual(given, work.Settings("b"))

    def test_refused(self):
        for given in (["--workers", "2", "--scheduler", "tls://a"], ["--tries", "0"], ["--at", "now"]):
            with mock.patch("sys.stderr", io.StringIO()), self.assertRaises(SystemExit) as ended:
                words.parser().parse_args(["a", "--anchors", "b", "--out", "c", *given])
            self.assertEqual(ended.exception.code, 2)


if __name__ == "__main__":
    unittest.main()
