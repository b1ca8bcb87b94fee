"""Tries tasks and runs of certpath.inventory, which need no Dask: they are run at once.

    cd python && python3 -m unittest
"""
import csv
import errno
import json
import os
import shutil
import sqlite3
import sys
import unittest
from base64 import b64decode, b64encode
from contextlib import closing
from datetime import datetime
from unittest import mock

from certpath.inventory import (anchors, blocks, databases, files, index, jobs, parquet, program,
                                probe, records, rows, running, signatures, tables, trees, work, writing)
from certpath.inventory.entries import Entry, Place
from certpath.items import LIMIT

from . import arrow
from .test_inventory import (CHAIN, FRONT, HERE, KEY_HASH, LEAF, POISON, ROOT, ROOT_FILE, SERVER, TOP,
                             X509_LEAF, Room, answer, certificate, extension, extensions, sample, tbs_of,
                             vector)


class Tasks(Room):
    """The tasks of a block, one after the other, without processes."""

    def job(self, **more):
        given = work.Settings(os.path.join(TOP, "samples", "root.der"), datetime(2026, 12, 1), **more)
        out = os.path.join(self.folder, "table")
        held = anchors.read(given.anchors, LIMIT)
        job = work.Job(jobs.completed(given), out)
        jobs.begin(job, out, {}, held)
        index.create(job.index_file)
        return job

    def block(self, *names):
        paths = [os.path.join(TOP, "samples", it) for it in names]
        return blocks.Block(0, tuple(span for it in paths
                                     for span in files.spans_of(it, 1 << 20, LIMIT).spans))

    def written(self, job):
        with open(os.path.join(job.out, "entries", "part-000000.csv"), encoding="utf-8") as file:
            return [*csv.DictReader(file)]

    def test_passes(self):
        job, block = self.job(), self.block("bundle.der", "fullchain.pem")
        survey = work.survey(block, job)
        self.assertEqual((survey.entries, len(survey.names)), (5, 2))
        self.assertEqual([it.place.offset for it in survey.faults], [0])
        self.assertEqual(survey, work.survey(block, job))
        index.add_names(job.index_file, survey.names)
        found = work.candidates(block, job).candidates
        self.assertEqual([it.read.row.offset for it in found], [884, 1741, 2554])
        self.assertEqual(len([*index.add_issuers(job.index_file, found)]), 3)
        part = work.finish(block, job)
        self.assertEqual(part, (5, {"none": 1, "path": 2, "list": 1, "fault": 1}, "", ()))
        rows_there = self.written(job)
        self.assertEqual([it["path"] for it in rows_there][1:3], ["", ""])
        self.assertIn("revoked by list", rows_there[0]["reasons"])
        self.assertEqual(os.listdir(os.path.join(job.out, "entries")), ["part-000000.csv"])

    def test_trouble(self):
        job = self.job()
        block = self.block("bundle.der")
        work.survey(block, job)
        bad = job._replace(settings=job.settings._replace(program="/bin/false"))
        part = work.finish(block, bad)
        self.assertEqual((part.rows, part.outcomes), (4, {"fault": 3, "list": 1}))
        self.assertIn("its check doesn't say yes", part.trouble)
        self.assertEqual(self.written(job)[0]["reasons"], part.trouble)
        self.assertEqual(work.finish(block, job).trouble, "")

    def test_lost(self):
        job, block = self.job(), self.block("bundle.der", "root.der")
        survey = work.lose(block, job, "no worker is left")
        self.assertEqual((survey.entries, len(survey.faults)), (2, 2))
        self.assertEqual(work.finish(block, job).rows, 2)
        self.assertEqual(work.survey(block, job).entries, 5)

    def test_folder_in_use(self):
        self.job()
        with self.assertRaisesRegex(writing.CannotWrite, "--resume goes on"):
            self.job()

    def test_parts(self):
        """A part is begun in the folder of the work, and one that is cut leaves nothing."""
        job = self.job()
        path = tables.part(job.folder("entries"), 0, tables.CSV)
        with self.assertRaises(ZeroDivisionError), writing.whole(path, job.work) as begun:
            self.assertEqual(os.path.dirname(begun), job.work)
            with open(begun, "w", encoding="ascii"):
                raise ZeroDivisionError
        self.assertEqual(os.listdir(job.folder("entries")), [])
        self.assertFalse([it for it in os.listdir(job.work) if it.endswith(".begun")])

    def test_full_disk(self):
        job = self.job()
        row = rows.read(Entry(HERE, "item", LEAF), LIMIT).row
        full = OSError(errno.ENOSPC, os.strerror(errno.ENOSPC))
        path = tables.part(job.folder("entries"), 0, tables.CSV)
        with mock.patch.object(tables.csv, "writer", side_effect=full), \
                self.assertRaisesRegex(writing.CannotWrite, "cannot write .*part-000000.csv: No space"):
            tables.write(path, [row], tables.CSV, job.work)
        with self.assertRaisesRegex(writing.CannotWrite, "cannot write .*: unable to open"):
            index.add_names(os.path.join(self.folder, "none", "index"), ["a"])

    def test_faults(self):
        shown = []
        faults = running.Faults(shown.append)
        for number in range(7):
            faults.add(work.Fault(Place("a", number), f"not base64 at octet {number}"))
        self.assertEqual((faults.end(), len(shown), shown[-1]), (7, 6, ".. 2 further: not base64 at octet N"))


class Held:
    """What a task gave or raised, as a future of Dask shows it."""

    def __init__(self, task, arguments, is_lost):
        self.error = self.value = None
        try:
            if is_lost:
                raise RuntimeError("no worker is left")
            self.value = task(*arguments)
        except Exception as error:  # as Dask does, whatever it is
            self.error = error

    def exception(self):
        return self.error

    def result(self):
        return self.value


class Here:
    """In the place of a client of Dask: it runs tasks at once, and loses those of one name, of the
    first block. `between` is called before the tasks of each name."""

    def __init__(self, lost="", between=lambda name: None):
        self.lost, self.between = lost, between

    def map(self, task, *columns, pure):
        assert not pure
        self.between(task.__name__)
        return [Held(task, arguments, task.__name__ == self.lost and number == 0)
                for number, arguments in enumerate(zip(*columns))]


class Stopped(BaseException):
    """As a signal ends a run."""


class Runs(Room):
    FILES = ["bundle.der", "fullchain.pem", "leaf.der"]

    def run_with(self, client, paths=None, resume=False, **more):
        self.shown, self.out = [], os.path.join(self.folder, "table")
        given = {"anchors": ROOT_FILE, "at": datetime(2026, 12, 1), "blocksize": 1}
        named = paths or [os.path.join(TOP, "samples", it) for it in self.FILES]
        return running.run(named, self.out, work.Settings(**{**given, **more}), client,
                           self.shown.append, resume)

    def rows(self):
        found = []
        for name in sorted(os.listdir(os.path.join(self.out, "entries"))):
            with open(os.path.join(self.out, "entries", name), encoding="utf-8") as file:
                found += csv.DictReader(file)
        return found

    def table(self):
        """All octets of the table."""
        found = {}
        for folder in ("entries", "issuers"):
            for name in os.listdir(os.path.join(self.out, folder)):
                with open(os.path.join(self.out, folder, name), "rb") as file:
                    found[folder, name] = file.read()
        return found

    def record(self):
        return jobs.load(os.path.join(self.out, "run.json"))

    def test_everything(self):
        done = self.run_with(Here())
        self.assertEqual(done[:6], (6, 6, 3, 6, 1, {"none": 2, "path": 2, "list": 1, "fault": 1}))
        self.assertEqual(sorted(os.listdir(self.out)), ["entries", "issuers", "run.json"])
        self.assertEqual([it["outcome"] or it["class"] for it in self.rows()],
                         ["none", "path", "path", "list", "fault", "none"])
        self.assertEqual([it.partition(": ")[2] for it in self.shown], [files.CAUSES["fault"]])

    def test_record(self):
        done = self.run_with(Here(), vouchers=os.path.join(TOP, "samples", "vouchers.txt"))
        record = self.record()
        self.assertEqual([(it["file"], it["octets"], it["sha256"]) for it in record["inputs"]],
                         [(os.path.realpath(os.path.join(TOP, "samples", it)), len(sample(it)), rows.digest(sample(it)))
                          for it in self.FILES])
        self.assertEqual(record["vouchers"]["sha256"], rows.digest(sample("vouchers.txt")))
        self.assertEqual((record["anchors"]["sha256"], record["anchors"]["usable"]), (rows.digest(ROOT), 1))
        self.assertEqual((record["status"], record["moment"]), (1, "2026-12-01T00:00:00"))
        with open(program.found(), "rb") as file:
            self.assertEqual(record["versions"]["program_sha256"], rows.digest(file.read()))
        self.assertEqual(record["versions"]["package_sha256"], probe.fingerprint())
        self.assertEqual(records.done_of(record), done)

    def test_fingerprint(self):
        """Another octet in a module, another name of it, one more or another library: another digest."""
        found = [probe.fingerprint()]
        with mock.patch.object(probe, "PACKAGE", self.folder):
            for name, octets in (("a.py", b"1"), ("a.py", b"2"), ("b.py", b"2")):
                self.put(name, octets)
                found.append(probe.fingerprint())
            os.remove(os.path.join(self.folder, "b.py"))
            self.assertEqual(probe.fingerprint(), found[2])
            os.rename(*(os.path.join(self.folder, it) for it in ("a.py", "c.py")))
            found.append(probe.fingerprint())
            with mock.patch.object(probe.library, "loaded", return_value=mock.Mock(_name=ROOT_FILE)):
                found.append(probe.fingerprint())
        self.assertEqual(len({*found}), 6)

    def test_names(self):
        """Hosts are in the rows of certificates, and where the program fails that is a fault."""
        self.run_with(Here(), names=True, why=False)
        found = [it["names"] for it in self.rows()]
        self.assertEqual(found, ["www.example.test", "", "", "", "", "www.example.test"])
        shutil.rmtree(self.out)
        with mock.patch.object(work, "names_of", side_effect=program.Failed("no answer")):
            done = self.run_with(Here(), names=True, why=False)
        self.assertEqual((done.faults, done.kinds["names: no answer"]), (5, 4))

    def test_given_vouchers(self):
        whole = self.run_with(Here(), blocksize=1 << 20, why=False,
                              vouchers=os.path.join(TOP, "samples", "vouchers.txt"))
        self.assertEqual(whole.outcomes, {"none": 2, "path": 2, "list": 1, "fault": 1})
        self.assertEqual([it["reasons"] for it in self.rows()], [""] * 6)

    def test_lost_in_the_first_pass(self):
        done = self.run_with(Here("survey"))
        self.assertEqual((done.entries, done.rows, done.faults), (6, 6, 2))
        self.assertEqual(self.rows()[0]["cause"], "not read: RuntimeError: no worker is left")

    def test_lost_issuers(self):
        done = self.run_with(Here("candidates"))
        self.assertEqual((done.rows, done.issuers, done.faults), (6, 3, 2))
        self.assertTrue(any("its issuers are left out" in it for it in self.shown))

    def test_lost_in_the_second_pass(self):
        done = self.run_with(Here("finish"))
        self.assertEqual((done.entries, done.rows, done.outcomes["fault"]), (6, 6, 2))
        self.assertIn("no worker is left", self.rows()[0]["reasons"])

    def test_worker_without_a_module(self):
        """What every task would lack ends the run, and is no fault of a block."""
        with mock.patch.object(work, "read_span", side_effect=ImportError("No module named 'a'")), \
                self.assertRaisesRegex(running.Lost, "a worker lacks a module: ImportError: No module"):
            self.run_with(Here())

    def test_given_up_blocks_again(self):
        self.run_with(Here())
        whole = self.table()
        for lost in ("survey", "candidates", "finish"):
            with self.subTest(lost=lost):
                shutil.rmtree(self.out)
                self.assertEqual(self.run_with(Here(lost)).unanswered, 1)
                done = self.run_with(Here(), resume=True)
                self.assertEqual((done.unanswered, self.table()), (0, whole))
                self.assertFalse(os.path.exists(os.path.join(self.out, "work")))

    def stop_at(self, stop):
        """A run that is stopped before the tasks of a name, or after some of them."""
        def between(name):
            if name == stop:
                raise Stopped
        with self.assertRaises(Stopped):
            self.run_with(Here(between=between))

    def test_stopped_and_resumed(self):
        self.run_with(Here())
        whole = self.table()
        for stop in ("cut", "survey", "candidates", "finish"):
            with self.subTest(stop=stop):
                shutil.rmtree(self.out)
                self.stop_at(stop)
                self.assertFalse(os.path.exists(os.path.join(self.out, "run.json")))
                self.assertEqual(self.run_with(Here(), resume=True).rows, 6)
                self.assertEqual(self.table(), whole)
        self.assertEqual(self.run_with(None, resume=True).rows, 6)

    def test_done_blocks_are_not_done_again(self):
        self.stop_at("finish")
        asked = []
        with mock.patch.object(work, "read_span", side_effect=AssertionError):
            self.run_with(Here(between=asked.append), resume=True)
        self.assertEqual(asked, ["survey", "candidates", "finish"])

    def test_another_run_is_not_resumed(self):
        self.stop_at("survey")
        for more, differing in (({"tries": 3}, "tries"), ({"at": datetime(2026, 12, 2)}, "at"),
                                ({"why": False, "weak": True}, "weak, why"),
                                ({"paths": [ROOT_FILE]}, "files"), ({"names": True}, "names"),
                                ({"anchors": os.path.join(TOP, "samples", "leaf.der")}, "anchors"),
                                ({"vouchers": ROOT_FILE}, "vouchers")):
            with self.assertRaisesRegex(running.Different, f"other {differing}$"):
                self.run_with(Here(), resume=True, **more)
        self.assertEqual(self.run_with(Here(), resume=True, at=None).rows, 6)

    def test_killed_before_anything_was_noted(self):
        os.makedirs(os.path.join(self.folder, "table", "work"))
        with self.assertRaises(writing.CannotWrite):
            self.run_with(Here())
        self.assertEqual(self.run_with(Here(), resume=True).rows, 6)

    def test_no_record_of_what_is_gone_on_with(self):
        self.run_with(Here("finish"))
        def between(name):
            self.assertFalse(os.path.exists(os.path.join(self.out, "run.json")))
        self.run_with(Here(between=between), resume=True)
        self.assertEqual(self.record()["done"]["unanswered"], 0)

    def test_two_runs_at_once(self):
        def between(name):
            if name == "survey":
                with self.assertRaisesRegex(writing.CannotWrite, "another run works there"):
                    self.run_with(Here(), resume=True)
        self.run_with(Here(between=between))

    def test_changed_files(self):
        """A file that is written again between two passes gives rows that say so, and no answers."""
        good = os.path.join(TOP, "samples", "bundle.der")
        for pass_name, octets, outcomes in (
                ("candidates", ROOT + LEAF, {"fault": 2, "none": 1, "path": 2, "list": 1}),
                ("finish", LEAF, {"fault": 2, "none": 1, "path": 2, "list": 1}),
                ("finish", LEAF + LEAF, {"fault": 2, "none": 1, "path": 2, "list": 1}),
                ("survey", ROOT, {"fault": 1, "none": 1, "path": 2, "list": 1})):
            with self.subTest(pass_name=pass_name, octets=len(octets)):
                path = self.put("changing.der", LEAF + ROOT)
                def between(name):
                    if name == pass_name:
                        self.put("changing.der", octets)
                done = self.run_with(Here(between=between), [path, good], blocksize=1 << 20)
                self.assertEqual(done.outcomes, outcomes)
                self.assertEqual(done.changed, 2 if pass_name == "candidates" else 1)
                self.assertEqual(self.record()["status"], 8)
                self.assertTrue(any("the file changed while it was read" in it for it in self.shown))
                said = [it["reasons"] or it["cause"] for it in self.rows() if "changing" in it["file"]]
                self.assertEqual({*said}, {"the file changed while it was read"})
                shutil.rmtree(self.out)

    def test_changed_chains(self):
        """What an earlier file of the block has in its chains is known, though it changed."""
        text = json.dumps({"entries": [answer(X509_LEAF, CHAIN)]}).encode()
        paths = [self.put(it, text) for it in ("a.json", "b.json")]
        def between(name):
            if name == "finish":
                self.put("a.json", b"{}")
        done = self.run_with(Here(between=between), paths, blocksize=1 << 20)
        self.assertEqual(done.outcomes, {"fault": 1, "path": 1})

    def test_gaps(self):
        text = json.dumps({"entries": [answer(X509_LEAF, CHAIN)] * 2}).encode()
        paths = [self.put(f"get-entries?start={it}&end={it + 1}", text) for it in (0, 4, 5)]
        done = self.run_with(Here(), paths)
        self.assertEqual((done.missing, done.twice), (((2, 3),), ((5, 5),)))
        self.assertEqual([it["log_index"] for it in self.rows()], ["0", "1", "4", "5", "5", "6"])
        self.assertEqual(self.shown, ["entries 2 to 3 of the log: in no file",
                                     "entries 5 of the log: in several files"])
        self.assertEqual(self.record()["status"], 1)

    def test_refusals(self):
        for more, error in (({"anchors": os.path.join(self.folder, "none")}, OSError),
                            ({"anchors": os.path.join(TOP, "samples", "list.pem")}, anchors.BadAnchors),
                            ({"paths": [os.path.join(self.folder, "none")]}, OSError),
                            ({"vouchers": ROOT_FILE}, signatures.BadLine),
                            ({"vouchers": os.path.join(self.folder, "none")}, FileNotFoundError),
                            ({"program": self.folder}, program.Missing)):
            with self.subTest(more=more), self.assertRaises(error):
                self.run_with(Here(), **more)
            self.assertFalse(os.path.isdir(self.out) and os.listdir(self.out))

    def test_tree_head(self):
        """Entries in two answers and their tree; then with a hole, another root, and a smaller tree.
        Of each answer the record says whether all of its entries are there."""
        entries = [answer(X509_LEAF[:-2] + b"\0\2" + number.to_bytes(2, "big"), CHAIN) for number in range(5)]
        leaves = [trees.leaf_hash(b64decode(it["leaf_input"])) for it in entries]
        for spoilt, size, root, expected, included in (
                (None, 5, leaves, "", [True, True]), (None, 3, leaves[:3], "", [False, True]),
                (None, 0, [], "", [False, False]), (4, 4, leaves[:4], "", [False, True]),
                (None, 4, leaves[1:], "the tree of the entries has another root", [None, None]),
                (1, 5, leaves, "4 of its 5 entries were read, by their numbers in the log", [None, None]),
                (None, 6, leaves + leaves[:1], "5 of its 6 entries were read, by their numbers in the log",
                 [None, None])):
            given = [{} if number == spoilt else it for number, it in enumerate(entries)]
            names = [self.put(f"log?start={begin}&end={begin + len(part) - 1}",
                              json.dumps({"entries": part}).encode())
                     for begin, part in ((2, given[2:]), (0, given[:2]))]
            hashed = trees.root_of(trees.of_leaves(0, root, len(root)), len(root))
            head = self.put("sth.json", json.dumps({"tree_size": size, "sha256_root_hash": b64encode(
                bytes.fromhex(hashed)).decode()}).encode())
            done, record = self.run_with(Here(), names, tree_head=head), self.record()
            self.assertEqual((done.tree, record["status"]), (expected, 1 if expected or spoilt else 0))
            self.assertEqual([(it["block"], it["file"], it["first"], it["entries"]) for it in record["tree"]],
                             [(0, names[0], 2, 3), (1, names[1], 0, 2)])
            self.assertEqual([it["included"] for it in record["tree"]], included)
            beyond = f"; {5 - size} further entries aren't in it" if size < 5 else ""
            self.assertTrue(self.shown[-1].endswith(
                (expected or "each of them is there, and the root is equal") + beyond), self.shown)
            subtrees = [trees.Subtree(**tree) for it in record["tree"] for tree in it["subtrees"]]
            self.assertEqual(trees.compared(subtrees, trees.TreeHead(size, hashed)), expected)
            shutil.rmtree(self.out)
        self.run_with(Here())
        self.assertIsNone(self.record()["tree"])

    def test_no_tree_head(self):
        for octets in (b"", b"[]", b'{"tree_size": 1}', b'{"tree_size": 1, "sha256_root_hash": "AAAA"}',
                       b'{"tree_size": true, "sha256_root_hash": "' + b64encode(bytes(32)) + b'"}'):
            with self.assertRaises(trees.BadTreeHead):
                self.run_with(Here(), tree_head=self.put("sth.json", octets))

    def test_database(self):
        self.run_with(Here(), why=False)
        path = os.path.join(self.folder, "table.sqlite")
        for _ in range(2):
            databases.write(self.out, path)
            with closing(sqlite3.connect(path)) as opened:
                found = opened.execute('SELECT "offset", class, outcome, log_index FROM entries '
                                       'ORDER BY rowid').fetchall()
                issuers, = opened.execute("SELECT count(*) FROM issuers").fetchone()
                record, = opened.execute("SELECT record FROM run").fetchone()
                plan = opened.execute("EXPLAIN QUERY PLAN SELECT * FROM entries WHERE sha256 = ''")
                self.assertIn("USING INDEX", plan.fetchone()[3])
            self.assertEqual(found, [(int(it["offset"]), it["class"], it["outcome"] or None, None)
                                     for it in self.rows()])
            self.assertEqual((issuers, json.loads(record)), (3, self.record()))
        with self.assertRaisesRegex(writing.CannotWrite, "there already"):
            writing.tested(path)
        for bad in (os.path.join(self.folder, "none", "a"), self.folder):
            with self.assertRaises(writing.CannotWrite):
                databases.write(self.out, bad)
        self.assertFalse([it for it in os.listdir(self.folder) if it.endswith(".begun")])

    def test_issued(self):
        """Of precertificates a database has the certificates of their issuer and serial number, and
        in which fields these differ."""
        poison, other = extension(POISON), extension(SERVER)
        pre, final = (certificate(1, extensions(*it)) for it in ((poison, other), (other,)))
        later = final.replace(b"\x17\x0d270101", b"\x17\x0d280101")
        leaves = [FRONT + b"\0\0" + vector(3, it) + b"\0\0" for it in (final, later, certificate(2))]
        first = FRONT + b"\0\1" + KEY_HASH + vector(3, tbs_of(final)) + b"\0\0"
        entries = [answer(first, vector(3, pre) + CHAIN), *(answer(it, CHAIN) for it in leaves)]
        names = [self.put("log.json", json.dumps({"entries": entries}).encode())]
        self.assertEqual(self.run_with(Here(), names, why=False).faults, 0)
        path = os.path.join(self.folder, "table.sqlite")
        databases.write(self.out, path)
        with closing(sqlite3.connect(path)) as opened:
            found = opened.execute("SELECT * FROM issued ORDER BY differing").fetchall()
        digests = [*map(rows.digest, (pre, final, later))]
        self.assertEqual(found, [(*digests[:2], ""), (digests[0], digests[2], "not_after tbs_sha256")])

    def test_parquet(self):
        """One file has the rows of all parts, and the record; so has a database. Parts are CSV, or
        Parquet if that is asked for."""
        path, database = (os.path.join(self.folder, f"table.{it}") for it in ("parquet", "sqlite"))
        for name, modules in arrow.tried():
            with self.subTest(pyarrow=name), mock.patch.dict(sys.modules, modules):
                self.run_with(Here(), why=False)
                expected = [{heading: tables.value(heading, it) for heading, it in row.items()}
                            for row in self.rows()]
                self.assertEqual(len(expected), 6)
                for form in (tables.CSV, tables.PARQUET):
                    shutil.rmtree(self.out)
                    self.run_with(Here(), why=False, form=form)
                    self.assertEqual({it.rpartition(".")[2] for it in os.listdir(
                        os.path.join(self.out, "entries"))}, {form})
                    parquet.write(self.out, path)
                    found = tables.parquet_module().read_table(path)
                    self.assertEqual(found.to_pylist(), expected)
                    self.assertEqual(json.loads(found.schema.metadata[b"run"]), self.record())
                    databases.write(self.out, database)
                    with closing(sqlite3.connect(database)) as opened:
                        held = opened.execute("SELECT * FROM entries").fetchall()
                    self.assertEqual(held, [tuple(it.values()) for it in expected])
                shutil.rmtree(self.out)

    def test_no_parquet(self):
        with mock.patch.dict(sys.modules, {"pyarrow": None}):
            with self.assertRaisesRegex(tables.NoParquet, "pip install pyarrow"):
                self.run_with(Here(), form=tables.PARQUET)
            self.assertFalse(os.path.exists(self.out))
            self.run_with(Here(), why=False)
            with self.assertRaises(tables.NoParquet):
                parquet.write(self.out, os.path.join(self.folder, "table.parquet"))

    def test_anchors_of_any_form(self):
        found = []
        for name in ("root.der", "root.pem"):
            self.run_with(Here(), anchors=os.path.join(TOP, "samples", name))
            found.append((self.table(), self.record()["anchors"]["sha256"]))
            shutil.rmtree(self.out)
        self.assertEqual(found[0], found[1])

    def test_anchors_that_change(self):
        path = self.put("anchors.der", ROOT)
        done = self.run_with(Here(between=lambda name: self.put("anchors.der", LEAF)), anchors=path)
        self.assertEqual(done.outcomes["path"], 2)


if __name__ == "__main__":
    unittest.main()
