#!/usr/bin/env python3
"""Compares names of hosts with Go's crypto/x509 and with the tests that Go and webpki bring along.

    python3 tools/trials/hosts_peers.py

The rows of hosts.txt are asked of Go, and the library is asked for the rows of both peers' own
tables, which are read where Debian's packages golang-go and librust-webpki-dev install them.
"""
import ast
import glob
import os
import re
import subprocess
import sys
import tempfile
import unittest

sys.dont_write_bytecode = True
sys.path.insert(0, os.path.dirname(os.path.dirname(os.path.abspath(__file__))))
from trials import hosts
from trials.count import Trial
from verify import core

certpath = core.certpath
PROGRAM = os.path.join(os.path.dirname(os.path.abspath(__file__)), "hosts_go.go")
SECONDS = 900
WEBPKI = "/usr/share/cargo/registry/webpki-*/src/name/dns_name.rs"
# A table of webpki's test, a row of it, and what a row's answer is; lines of comments are no rows.
TABLE = re.compile(r"PRESENTED_MATCHES_REFERENCE: &.*?\];", re.S)
ROW = re.compile(r'\(\s*(b"[^"]*"),\s*(b"[^"]*"),\s*(None|Some\(true\)|Some\(false\))')
COMMENT = re.compile(r"^\s*//.*$", re.M)
# Rows of Go's table that Go matches and this library doesn't, each with the rule.
UNLIKE_GO = {
    ("www.example..com", "www.example..com"): "RFC 1123, 2.1: no label of a host is empty",
    ("example.com.", "example.com."): "RFC 5280, 4.2.1.6: a presented name has no final dot",
    ("*.com", "example.com"): "two labels have to follow a star",
    ("*.com", "example.com."): "two labels have to follow a star",
    ("foo:bar", "foo:bar"): "RFC 4291, 2.2: a host with a colon is an IPv6 address",
}


class Peers(Trial):
    def setUp(self):
        self.need_libcrypto()
        self.program()
        self.maker = hosts.Maker()

    def target(self, presented):
        """A certificate that presents one dNSName."""
        held_by = hosts.holds([("dns", presented)])
        return self.maker.chain([held_by, hosts.holds(), hosts.holds()])[0].octets

    def is_served(self, presented, host):
        """Whether such a certificate serves a host. A text that is no host is served by none."""
        try:
            return certpath.serves(self.target(presented), host)
        except certpath.BadHost:
            return False

    def go(self, room, *words):
        """What the program in Go prints, by lines."""
        run = subprocess.run(["go", "run", PROGRAM, *words], cwd=room, capture_output=True, text=True,
                             timeout=SECONDS, env={**os.environ, "GOCACHE": room, "GOFLAGS": "-mod=mod"})
        self.assertEqual(run.returncode, 0, run.stderr)
        return run.stdout.splitlines()

    def need_go(self):
        """Asks for Go, which the gate doesn't need; gives the folder of its sources."""
        try:
            run = subprocess.run(["go", "env", "GOROOT"], capture_output=True, text=True)
        except FileNotFoundError:
            self.skipTest("go isn't on the path")
        return run.stdout.strip()

    def test_rows_in_go(self):
        """Each row of hosts.txt is answered by Go as its column says."""
        self.need_go()
        rows = [*hosts.host_rows()]
        made = [self.maker.chain(row.chain, row.common_name)[0].octets.hex() for row in rows]
        with tempfile.TemporaryDirectory(prefix="hosts-") as room:
            asked = os.path.join(room, "asked")
            with open(asked, "w", encoding="utf-8") as it:
                it.writelines(f"{octets}\t{row.host}\n" for octets, row in zip(made, rows))
            answers = self.go(room, asked)
        self.assertEqual(len(answers), len(rows))
        for row, answer in zip(rows, answers):
            said = answer if answer in ("yes", "no") else "refused"
            self.same(f"{row.line}, Go", said, row.go)

    def test_table_of_go(self):
        """The library answers the rows of Go's own test as Go does, but for the named ones."""
        file = os.path.join(self.need_go(), "src", "crypto", "x509", "x509_test.go")
        if not os.path.isfile(file):
            self.skipTest(f"{file} isn't installed")
        with tempfile.TemporaryDirectory(prefix="hosts-") as room:
            lines = self.go(room, "--table", file)
        self.row(len(lines) > 30, f"{len(lines)} rows are too few")
        for line in lines:
            presented, host, is_match = line.split("\t")
            presented, host = map(ast.literal_eval, (presented, host))
            wanted = is_match == "true" and (presented, host) not in UNLIKE_GO
            self.same(f"Go's row {presented!r}, {host!r}", self.is_served(presented.encode(), host), wanted)

    def test_table_of_webpki(self):
        """The library answers the rows of webpki's own test as webpki does. There a row without an
        answer is a name that is refused: it matches nothing."""
        files = glob.glob(WEBPKI)
        if not files:
            self.skipTest("librust-webpki-dev isn't installed")
        with open(files[0], encoding="utf-8") as it:
            table = COMMENT.sub("", TABLE.search(it.read())[0])
        rows = ROW.findall(table)
        self.same("rows of webpki's table", len(rows), table.count('b"') // 2)
        for presented, host, answer in rows:
            presented, host = map(ast.literal_eval, (presented, host))
            self.same(f"webpki's row {presented}, {host}",
                      self.is_served(presented, host.decode("latin-1")), answer == "Some(true)")


if __name__ == "__main__":
    unittest.main()
