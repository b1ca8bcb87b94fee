"""Runs ./verify and `openssl verify` on one store of trust anchors each time: the system's, with
SSL_CERT_FILE and SSL_CERT_DIR, and folders of hashed names; and on several FILEs at once."""
import json
import os
import re
import shutil
import subprocess
import sys

from program import repo
from trials import installing_places
from trials.chains import OF_AUTHORITY, OF_LEAF, OF_ROOT, Chain
from trials.count import size
from trials.verifying_large import pem
from trials.vouching_pki import Workshop

LONG = {"begin": "20200101000000Z", "end": "20490101000000Z"}
AT, STAMP = "2026-06-01T12:00:00", "1780315200"
VARIABLES = ("SSL_CERT_FILE", "SSL_CERT_DIR")
SECONDS = 600
# The smaller size has one row of so many.
SAMPLED = 3
WIDER = {"a gap in the numbers", "DER", "capital digits", "a number with a zero"}
BY_SYSTEM = re.compile(r"(?:no )?valid path at \S+ by the system's store(?: with [A-Z_]+(?: and [A-Z_]+)?)?: ")


class OfStores(installing_places.InRoom):
    """A root, an intermediate and a leaf of each of three names, and runs of both verifiers on them."""

    def setUp(self):
        self.need("openssl")
        self.program()
        super().setUp()
        self.shop = Workshop(self.room)
        made = Chain(self.shop, "store")
        self.chains = {}
        for name in ("one", "two", "three"):
            root = made.certificate(f"/CN=Root {name}", "p256", extensions=OF_ROOT, **LONG)
            between = made.certificate(f"/CN=Between {name}", "p384", root, OF_AUTHORITY, **LONG)
            self.chains[name] = made.certificate(f"/CN=leaf {name}", "p521", between, OF_LEAF, **LONG), between, root
        self.leaves = {name: chain[0].file for name, chain in self.chains.items()}
        self.between = self.shop.keep("between.pem", b"".join(self.octets(link[1].file) for link in self.chains.values()))

    def at(self, file):
        return os.path.join(self.room, file)

    def octets(self, file):
        with open(self.at(file), "rb") as entry:
            return entry.read()

    def hash(self, file):
        return self.shop.openssl("x509", "-in", file, "-noout", "-hash").decode().strip()

    def folder(self, name, **files):
        """A folder of files: octets by their names, of which _ is a dot."""
        path = self.at(name)
        os.mkdir(path)
        for file, octets in files.items():
            with open(os.path.join(path, file.lstrip("h").replace("_", ".")), "wb") as entry:
                entry.write(octets)
        return path

    def hashed(self, name, *files):
        """A folder in which `openssl rehash` names files by their hashes."""
        path = self.at(name)
        os.mkdir(path)
        for file in files:
            shutil.copy(self.at(file), path)
        self.shop.openssl("rehash", path)
        return path

    def environment(self, **variables):
        kept = {name: value for name, value in os.environ.items() if name not in VARIABLES}
        return {**kept, **variables}

    def openssl(self, *words, **variables):
        """The names whose leaf `openssl verify` accepts, each in a run of its own: it keeps what it has read for another leaf."""
        given = ["openssl", "verify", "-attime", STAMP, *words, "-untrusted", self.between]
        return {name for name, file in self.leaves.items() if subprocess.run(
            [*given, file], cwd=self.room, env=self.environment(**variables), stdin=subprocess.DEVNULL, capture_output=True,
            timeout=SECONDS).returncode == 0}

    def verify(self, *words, **variables):
        """The status of ./verify, and its two outputs."""
        given = [sys.executable, os.path.join(repo.TOP, "verify"), *words, "--at", AT]
        ran = subprocess.run(given, cwd=self.room, env=self.environment(**variables), stdin=subprocess.DEVNULL,
                             capture_output=True, timeout=SECONDS, text=True)
        return ran.returncode, ran.stdout, ran.stderr

    def both(self, title, wanted, openssl, anchors, **variables):
        """A row: both verifiers accept the leaves of these names, and no others. A store without any anchor ends ./verify with
        a status of its own."""
        words = [*self.leaves.values(), "--all", "--lists", self.between, *anchors]
        status, text, said = self.verify(*words, "--json", **variables)
        found = {load["target"]["subject"].rpartition(" ")[2] for load in map(json.loads, text.splitlines()) if load["status"] == 0}
        self.same(f"{title}: {said}", (self.openssl(*openssl, **variables), found, status),
                  (wanted, wanted, 0 if len(wanted) == len(self.leaves) else 1 if wanted else 4))
        if not anchors and wanted:
            heads = [json.loads(line)["headline"] for line in text.splitlines()]
            self.row(all(map(BY_SYSTEM.match, heads)), f"{title}: the first lines are {heads}")


class Stores(OfStores):
    """The system's store, its variables, and folders."""

    def test_variables(self):
        """Each variable replaces its own part of the store, which both verifiers read alike."""
        one, two, three = (self.octets(self.chains[name][2].file) for name in ("one", "two", "three"))
        self.shop.keep("bundle.pem", one + two)
        self.shop.keep("notes", b"no certificate\n")
        self.shop.keep("root.der", self.chains["one"][2].octets)
        folder = self.hashed("folder", self.chains["three"][2].file)
        other = self.hashed("other", self.chains["two"][2].file)
        plain = self.folder("plain", root_pem=three)
        nothing = self.folder("nothing")
        file = self.at("bundle.pem")
        for title, wanted, variables in (
                ("a file", {"one", "two"}, {"SSL_CERT_FILE": file, "SSL_CERT_DIR": nothing}),
                ("a file of one", {"three"}, {"SSL_CERT_FILE": self.at(self.chains["three"][2].file), "SSL_CERT_DIR": nothing}),
                ("a file and a folder", {"one", "two", "three"}, {"SSL_CERT_FILE": file, "SSL_CERT_DIR": folder}),
                ("a folder", {"three"}, {"SSL_CERT_FILE": self.at("notes"), "SSL_CERT_DIR": folder}),
                ("folders", {"two", "three"}, {"SSL_CERT_FILE": self.at("missing"), "SSL_CERT_DIR": f"{folder}::{other}:{self.at('missing')}"}),
                ("a folder without hashes", set(), {"SSL_CERT_FILE": self.at("missing"), "SSL_CERT_DIR": plain}),
                ("DER in the place of PEM", set(), {"SSL_CERT_FILE": self.at("root.der"), "SSL_CERT_DIR": nothing}),
                ("empty variables", set(), {"SSL_CERT_FILE": "", "SSL_CERT_DIR": ""}),
                ("a folder beside the system's own file", {"two"}, {"SSL_CERT_DIR": other}),
                ("a file beside the system's own folder", {"one", "two"}, {"SSL_CERT_FILE": file}))[::size(1, SAMPLED)]:
            self.both(title, wanted, (), (), **variables)
        self.both("--anchors system", {"one", "two"}, (), ("--anchors", "system"), SSL_CERT_FILE=file, SSL_CERT_DIR=nothing)
        leaf, between, root = self.chains["three"]
        words = [leaf.file, between.file, "--anchors", "system", "--anchors", root.file, "--quiet"]
        self.same("--anchors system beside a file", self.verify(*words, SSL_CERT_FILE=file, SSL_CERT_DIR=nothing), (0, "", ""))

    def test_warnings(self):
        """What a variable names, and can't be read, is a warning, if other anchors are there."""
        leaf, between, root = self.chains["one"]
        folder = self.hashed("folder", root.file)
        for variables, said in (({"SSL_CERT_FILE": self.at("missing"), "SSL_CERT_DIR": folder}, "SSL_CERT_FILE: cannot read "),
                                ({"SSL_CERT_FILE": self.at(root.file), "SSL_CERT_DIR": self.at("missing")}, "SSL_CERT_DIR: "),
                                ({"SSL_CERT_FILE": self.at(root.file), "SSL_CERT_DIR": self.room}, "no file in it is named by a hash")):
            status, text, _ = self.verify(leaf.file, between.file, **variables)
            self.same(f"{variables}: {text}", (status, said in text), (0, True))
        listed = Chain(self.shop, "listed").list(between, (), next_update="20480101000000Z")
        # (a date of a type that none has)
        unread = pem(root.octets.replace(b"\x17\x0d", b"\x19\x0d", 1))
        own, of_list = self.hash(root.file), self.hash(between.file)
        folder = self.folder("warned", **{f"h{own}_0": self.octets(root.file), f"h{own}_1": self.octets(self.chains["two"][2].file),
                                          f"h{own}_2": self.octets(listed.file), f"h{own}_3": root.octets, f"h{of_list}_0": unread})
        os.mkdir(os.path.join(folder, f"{own}.4"))
        status, text, _ = self.verify(leaf.file, between.file, "--anchors", folder)
        self.row(f"{of_list}.0: OpenSSL can't read it; left out" in text, f"an unreadable certificate: {text}")
        for number, said in ((1, "the hash of its subject is "), (2, "under names with r; left out"), (3, "no PEM, which is all"),
                             (4, "no file is there; left out")):
            self.row(status == 0 and f"{own}.{number}" in text and said in text, f"{said}: {text}")
        found = self.verify(leaf.file, SSL_CERT_FILE=self.at("missing"), SSL_CERT_DIR=self.room)[2]
        self.row("; openssl rehash gives its files such names" in found, found)
        status, text, said = self.verify(leaf.file, SSL_CERT_FILE=self.at("missing"), SSL_CERT_DIR=self.at("missing"))
        self.same("no store", (status, text, said.count("\n"), "the system's store has no certificate (SSL_CERT_FILE" in said), (4, "", 1, True))

    def test_default(self):
        """Without variables both verifiers read the system's own store: the first of its certificates that is itself
        accepted by the one is accepted by the other."""
        directory = self.shop.openssl("version", "-d").decode().partition('"')[2].partition('"')[0]
        file = os.path.join(directory, "cert.pem")
        if not os.path.isfile(file):
            self.skipTest(f"the system has no {file}")
        ran = subprocess.run(["openssl", "crl2pkcs7", "-nocrl", "-certfile", file], capture_output=True, check=True)
        first = subprocess.run(["openssl", "pkcs7", "-print_certs"], input=ran.stdout, capture_output=True, check=True).stdout
        blocks = re.findall(rb"-----BEGIN CERTIFICATE-----.*?-----END CERTIFICATE-----\n", first, re.S)[:5]
        self.row(len(blocks) == 5, f"{file} has {len(blocks)} certificates")
        for number, block in enumerate(blocks):
            self.shop.keep(f"system-{number}.pem", block)
            status, text, _ = self.verify(f"system-{number}.pem", "--weak")
            ran = subprocess.run(["openssl", "verify", "-attime", STAMP, f"system-{number}.pem"], cwd=self.room,
                                 env=self.environment(), capture_output=True)
            self.same(f"certificate {number}: {text[:200]}", (status, bool(BY_SYSTEM.match(text))), (ran.returncode and 1, True))
        status, text, _ = self.verify(*self.leaves.values(), "--all", "--lists", self.between, "--json")
        found = [json.loads(line)["status"] for line in text.splitlines()]
        self.same("leaves of others", (status, found, self.openssl()), (1, [1, 1, 1], set()))

    def test_explicit(self):
        """A file that is named is no system's store, and the first line doesn't say so."""
        leaf, between, root = self.chains["one"]
        status, text, _ = self.verify(leaf.file, between.file, "--anchors", root.file)
        self.same(text, (status, text.startswith(f"valid path at {AT}Z: CN=leaf one to CN=Root one\n")), (0, True))

    def test_folders(self):
        """Of a folder with hashed names the same certificates are found as by `openssl verify -CApath`."""
        roots = {name: self.octets(chain[2].file) for name, chain in self.chains.items()}
        hashes = {name: self.hash(chain[2].file) for name, chain in self.chains.items()}
        openssl, nothing = ("-no-CAfile", "-no-CAstore"), self.folder("nothing")
        self.row(hashes["two"] != hashes["two"].upper(), f"the hash of Root two has no letter: {hashes['two']}")

        def named(**names):
            return {f"h{hashes[word]}_{number}": octets for word, number, octets in names.values()}

        for title, wanted, folder in (
                ("rehashed", {"one", "three"}, self.hashed("rehashed", self.chains["one"][2].file, self.chains["three"][2].file)),
                ("a plain file beside", {"one"}, self.folder("beside", **named(a=("one", 0, roots["one"])), root_pem=roots["two"])),
                ("the hash of another", {"one"}, self.folder("foreign", **named(a=("one", 0, roots["one"]), b=("two", 0, roots["three"])))),
                ("a gap in the numbers", {"one"}, self.folder("gap", **named(a=("one", 0, roots["one"]), b=("two", 1, roots["two"])))),
                ("a second number", {"one", "two"}, self.folder("second", **named(
                    a=("one", 0, roots["one"]), b=("two", 0, roots["three"]), c=("two", 1, roots["two"])))),
                ("several in one file", {"one"}, self.folder("several", **named(a=("one", 0, roots["one"] + roots["two"])))),
                ("DER", {"one"}, self.folder("der", **named(a=("one", 0, roots["one"]), b=("two", 0, self.chains["two"][2].octets)))),
                ("capital digits", {"one"}, self.folder("capital", **named(a=("one", 0, roots["one"])), **{f"h{hashes['two'].upper()}_0": roots["two"]})),
                ("a longer hash", {"one"}, self.folder("longer", **named(a=("one", 0, roots["one"])), **{f"h{hashes['two']}0_0": roots["two"]})),
                ("a number with a zero", {"one"}, self.folder("zero", **named(a=("one", 0, roots["one"]), b=("two", "00", roots["two"])))),
                ("no number", {"one"}, self.folder("none", **named(a=("one", 0, roots["one"]), b=("two", "x", roots["two"])))))[::size(1, SAMPLED)]:
            self.both(title, wanted, ("-CApath", folder, *openssl), ("--anchors", folder))
            # (by OSSL_STORE more names are found in the one folder of a store, and not in one of several)
            wide = wanted | ({"two"} if title in WIDER else set())
            self.both(f"{title}, SSL_CERT_DIR", wide, (), (), SSL_CERT_DIR=folder, SSL_CERT_FILE=self.at("missing"))
            self.both(f"{title}, one of two in SSL_CERT_DIR", wanted, (), (), SSL_CERT_DIR=f"{folder}:{nothing}", SSL_CERT_FILE="")

    def test_lists(self):
        """A revocation list with a hashed name is read, as `openssl verify -crl_check` reads it."""
        leaf, between, root = self.chains["one"]
        folder = self.hashed("with-lists", root.file)
        lists = Chain(self.shop, "lists")
        for serials, wanted in (((), True), ((3,), False)):
            found = lists.list(between, serials, next_update="20480101000000Z")
            shutil.copy(self.at(found.file), os.path.join(folder, f"{self.hash(between.file)}.r0"))
            status, text, _ = self.verify(leaf.file, between.file, "--anchors", folder)
            openssl = self.openssl("-CApath", folder, "-no-CAfile", "-no-CAstore", "-crl_check")
            self.same(f"a list of {serials}: {text[:500]}", ("one" in openssl, status == 0), (wanted, wanted))

    def test_plain_folder(self):
        """Of a folder without hashed names each file is taken; texts without certificates are passed over."""
        folder = self.folder("plain", one_pem=self.octets(self.chains["one"][2].file), notes_txt=b"none\n",
                             two_der=self.chains["two"][2].octets, key_pem=self.octets(self.shop.key("p256")))
        for name, wanted in (("one", 0), ("two", 0), ("three", 1)):
            leaf, between, _ = self.chains[name]
            status, text, _ = self.verify(leaf.file, between.file, "--anchors", folder)
            self.same(f"a plain folder: {name}: {text}", (status, "left out" in text), (wanted, False))
        leaf, between, root = self.chains["three"]
        self.shop.openssl("crl2pkcs7", "-nocrl", "-certfile", root.file, "-outform", "DER", "-out", os.path.join(folder, "three.p7b"))
        self.shop.openssl("pkey", "-in", self.shop.key("p256"), "-outform", "DER", "-out", os.path.join(folder, "key.der"))
        status, text, _ = self.verify(leaf.file, between.file, "--anchors", folder)
        self.same(text, (status, "key.der octet 0: neither certificate nor revocation list; left out" in text), (0, True))

    def test_labels(self):
        """Of a store OpenSSL takes neither PKCS #7 nor the label X.509 CERTIFICATE, which count in any file here."""
        leaf, between, root = self.chains["one"]
        text, nothing = self.octets(root.file), self.folder("none")
        self.shop.openssl("crl2pkcs7", "-nocrl", "-certfile", root.file, "-out", "root.p7b")
        for title, octets, by_openssl in (("X509", text.replace(b" CERTIFICATE-", b" X509 CERTIFICATE-"), {"one"}),
                                          ("X.509", text.replace(b" CERTIFICATE-", b" X.509 CERTIFICATE-"), set()),
                                          ("PKCS #7", self.octets("root.p7b"), set())):
            variables = {"SSL_CERT_FILE": self.at(self.shop.keep("labelled.pem", octets)), "SSL_CERT_DIR": nothing}
            found = self.openssl(**variables), self.verify(leaf.file, between.file, "--quiet", **variables)
            self.same(f"a store of {title}", found, (by_openssl, (0, "", "")))


class Several(OfStores):
    """Several FILEs: the first certificate of the first one is the target, and with --all every certificate is one."""

    def setUp(self):
        super().setUp()
        self.roots = self.shop.keep("roots.pem", b"".join(self.octets(self.chains[entry][2].file) for entry in ("one", "two")))
        self.files = []
        for name, (leaf, between, _) in self.chains.items():
            self.files.append(self.shop.keep(f"{name}.pem", self.octets(leaf.file)))

    def accepted_by_openssl(self):
        """The FILEs that `openssl verify FILE..` calls OK: to it each FILE is a target."""
        words = ["openssl", "verify", "-attime", STAMP, "-no-CApath", "-no-CAstore", "-CAfile", self.roots, "-untrusted", self.between]
        ran = subprocess.run([*words, *self.files], cwd=self.room, capture_output=True, text=True)
        return {file for file in self.files if f"{file}: OK\n" in ran.stdout}

    def objects(self, *words):
        status, text, _ = self.verify(*words, "--anchors", self.roots, "--json")
        return status, [json.loads(line) for line in text.splitlines()]

    def test_all(self):
        """`--all FILE..` with helpers in --lists judges what `openssl verify FILE..` judges."""
        status, found = self.objects(*self.files, "--all", "--lists", self.between)
        accepted = {entry["target"]["file"] for entry in found if entry["status"] == 0}
        self.same("--all", (status, [entry["target"]["file"] for entry in found]), (1, self.files))
        self.same("--all beside openssl", (accepted, self.accepted_by_openssl()), ({"one.pem", "two.pem"},) * 2)
        self.same("what are targets", (found[0]["targets"], found[0]["helpers"]),
                  ([f"{file}: 1 certificate" for file in self.files], ["between.pem: 3 certificates"]))
        _, text, _ = self.verify(*self.files, "--all", "--lists", self.between, "--anchors", self.roots)
        self.row("\ntargets\n  one.pem: 1 certificate\n  two.pem: 1 certificate\n  three.pem: 1 certificate\n"
                 "helpers\n  between.pem: 3 certificates\n" in text, f"--all: {text}")

    def test_first(self):
        """Without --all the output says which FILE was the target, which were helpers, and how to have it otherwise."""
        status, text, _ = self.verify(*self.files, self.between, "--anchors", self.roots)
        self.row(status == 0 and text.split("\n")[1:9] == [
            "targets", "  the first certificate of one.pem", "helpers", "  two.pem: 1 certificate", "  three.pem: 1 certificate",
            "  between.pem: 3 certificates", "  --all makes every certificate of every FILE a target", "path"], f"without --all: {text}")
        self.same("one target", len(self.objects(*self.files, self.between)[1]), 1)

    def test_named(self):
        """A target that is named is said, and no hint is given."""
        three = self.objects("three.pem", "between.pem")[1][0]["target"]["sha256"]
        for word, wanted in (("three.pem", "the first certificate of three.pem"), ("2", "item 2 (three.pem), by --target"),
                             (three, "item 2 (three.pem), by --target")):
            found = self.objects(*self.files, "--target", word, "--lists", self.between)[1][0]
            self.same(f"--target {word}", (found["targets"], [entry for entry in found["helpers"] if "--all" in entry], found["target"]["file"]),
                      ([wanted], [], "three.pem"))

    def test_one_file(self):
        """Of one FILE the further certificates are helpers, and that is no matter of --all."""
        self.shop.keep("chain.pem", self.octets("one.pem") + self.octets(self.chains["one"][1].file))
        found = self.objects("chain.pem")[1][0]
        self.same("a chain", (found["targets"], found["helpers"]), (["the first certificate of chain.pem"], ["chain.pem: 1 further certificate"]))
        found = self.objects(*(file for file in self.files for _ in range(2)))[1][0]
        self.same("FILEs twice", found["helpers"][:2], ["two.pem: 1 certificate", "three.pem: 1 certificate"])

    def test_many(self):
        """Of many FILEs the first ones have a line."""
        many = [self.shop.keep(f"{number:03}.pem", self.octets("two.pem")) for number in range(30)]
        found = self.objects("one.pem", *many)[1][0]["helpers"]
        self.same("many FILEs", (len(found), found[20]), (22, "and 10 further files"))
