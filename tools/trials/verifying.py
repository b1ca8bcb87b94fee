"""Runs ./verify on chains that openssl makes anew, in all forms of files and of output, and compares its answers with `openssl
verify` and, where it is installed, with `certtool --verify`: where they differ, the output names the rule that is the cause."""
import json
import os
import re
import shutil
import subprocess
import tempfile
from concurrent.futures import ThreadPoolExecutor
from html.parser import HTMLParser

from program import repo
from trials import messages, refusals, verifying_faults, verifying_large, verifying_others
from trials.chains import ISSUER_ID, NO_AUTHORITY, NO_SIGNER, OF_AUTHORITY, OF_LEAF, OF_ROOT, OWN_ID, Chain
from trials.count import Trial, size
from trials.vouching_pki import Workshop
from trials.vouching_trials import Trials
from verify import times

AT, STAMP = refusals.AT, "1780272000"
LONG = {"begin": "20200101000000Z", "end": "20490101000000Z"}
PSS = ("-sigopt", "rsa_padding_mode:pss", "-sigopt", "rsa_pss_saltlen:32")
# Kinds of chains: the kind of key, the digest, further words for what signs.
KINDS = {
    "RSA": ("rsa", "sha256", ()), "RSA with PSS": ("rsa", "sha256", PSS), "an RSA-PSS key": ("rsa-pss", "sha256", PSS),
    "P-256": ("p256", "sha256", ()), "P-384": ("p384", "sha384", ()), "Ed25519": ("ed25519", None, ()),
}
# Where OpenSSL gives another answer than ./verify, the rule that ./verify names.
RULES = {
    "critical extended key usage": "RFC 5280, 6.1.4, o, and 6.1.5, f", "time stamping": "RFC 5280, 6.1.4, o, and 6.1.5, f",
    "name constraints": "RFC 5280, 6.1.4, g", "critical name constraints": "RFC 5280, 6.1.4, o, and 6.1.5, f",
    "policies": "RFC 5280, 6.1.4, o, and 6.1.5, f", "policy constraints": "RFC 5280, 6.1.4, i",
    "weak signature": "RFC 5280, 6.1.3, a, 1", "name in another string type": "RFC 5280, 6.1.3, a, 4",
    # OpenSSL looks at no list that it isn't told to look at
    "revoked": "RFC 5280, 6.1.3, a, 3", "revoked issuer": "RFC 5280, 6.1.3, a, 3", "names with control characters": "RFC 5280, 6.1.3, a, 3",
    "revoked below a path length": "RFC 5280, 6.1.3, a, 3",
    "list demanded": "RFC 5280, 6.1.3, a, 3", "list past its next update, demanded": "RFC 5280, 6.1.3, a, 3",
    "list with a critical extension, demanded": "RFC 5280, 6.1.3, a, 3", "list that no key vouches for, demanded": "RFC 5280, 6.1.3, a, 3",
    "list past its next update": "RFC 5280, 5.1.2.5", "list with a critical extension": "RFC 5280, 5.2", "list that no key vouches for": "RFC 5280, 6.3.3, g",
}
# What certtool refuses, and OpenSSL doesn't; and what it accepts at other moments, since it judges by the clock.
STRICTER = {"name constraints", "critical name constraints", "weak signature"}
OF_DATES = {"not yet valid"}
# What the first line says of a list that isn't used, by the case.
DOUBTS = {
    "list past its next update": "item 0 CN=leaf is revoked by list 2 ",
    "list with a critical extension": "whether item 0 CN=leaf is revoked isn't known from list 2 ",
    "list that no key vouches for": "item 0 CN=leaf is revoked by list 2 ",
}
# How the first line begins, by the outcome.
VERDICTS = {"path": "valid path at {}: CN=", "none": "no valid path at {}: CN=", "refused": "path refused at {}, since "}
FIELDS = {"headline", "status", "outcome", "checked", "at", "target", "path", "anchor", "reasons", "unused_lists", "doubts", "warnings", "anchors", "targets", "helpers", "not_judged",
          "version"}
# What ./verify concludes where `why` has no line against a certificate or a link.
CONCLUDED = {"self-signed": {"issued by itself"}}
TIMES = {
    "2026-06-01": "2026-06-01T00:00:00Z", "2026-06-01T12:30": "2026-06-01T12:30:00Z", "2026-06-01 12:30:01": "2026-06-01T12:30:01Z",
    "2026-06-01Z": "2026-06-01T00:00:00Z", "2026-06-01T12:30:00Z": "2026-06-01T12:30:00Z", "2026-06-01T12:30:00+02:00": "2026-06-01T10:30:00Z",
}
HEADERS = "/usr/include/openssl/evp.h"
# The smaller size has one case of so many.
SAMPLED = 3
RUNS, STORE = 4, "/etc/ssl/certs/ca-certificates.crt"
CONTROL = re.compile(r"[\x00-\x09\x0b-\x1f\x7f-\x9f]")


class Reader(HTMLParser):
    """Reads a page: which elements it has, which are open, and what it loads from elsewhere."""

    EMPTY = {"meta", "br", "wbr"}

    def __init__(self, text):
        super().__init__()
        self.open, self.names, self.loads, self.faults = [], set(), [], []
        self.feed(text)

    def handle_starttag(self, tag, attributes):
        self.names.add(tag)
        self.loads += [attribute for attribute in attributes if attribute[0] in ("src", "href")]
        if tag not in self.EMPTY and not self.get_starttag_text().endswith("/>"):
            self.open.append(tag)

    def handle_endtag(self, tag):
        if self.open[-1:] == [tag]:
            self.open.pop()
        elif tag not in ("rect", "path"):
            self.faults.append(tag)


def named(items):
    return [item.file for item in items]


class Verify:
    """Runs ./verify and other verifiers in the workshop's folder."""

    def __init__(self, t):
        self.t, self.shop = t, t.shop

    def run(self, *words, **further):
        status, text, told = self.t.run("verify", words, **further)
        return status, (text or b"").decode(), told

    def json(self, *words):
        """The objects that --json prints, and the status."""
        status, text, told = self.run(*words, "--json")
        return status, [json.loads(line) for line in text.splitlines()], told

    def openssl(self, leaf, others, anchors):
        """Whether `openssl verify` accepts a leaf at the moment of the trials."""
        room = self.shop.room
        certificates = [other for other in others if other.subject]
        with tempfile.NamedTemporaryFile(dir=room) as between, tempfile.NamedTemporaryFile(dir=room) as roots:
            for file, items in ((between, certificates), (roots, anchors)):
                for item in items:
                    with open(os.path.join(room, item.file), "rb") as held:
                        file.write(held.read())
                file.flush()
            untrusted = ["-untrusted", between.name] if certificates else []
            words = ["openssl", "verify", "-attime", STAMP, "-no-CAstore", "-no-CApath", "-CAfile", roots.name, *untrusted, leaf.file]
            return subprocess.run(words, cwd=room, stdin=subprocess.DEVNULL, capture_output=True).returncode == 0

    def certtool(self, certificates, anchors):
        """Whether `certtool --verify-chain` accepts a chain today, which ends with the anchors."""
        chain = b"".join(self.octets(certificate.file) for certificate in [*certificates, *anchors])
        return subprocess.run(["certtool", "--verify-chain"], cwd=self.shop.room, input=chain, capture_output=True).returncode == 0

    def octets(self, file):
        with open(os.path.join(self.shop.room, file), "rb") as entry:
            return entry.read()


def chain_of(shop, title, key, digest, signed):
    """A root, two certificates between, a leaf: the leaf first."""
    made, subjects = Chain(shop, title), ("/CN=Root", "/CN=First", "/CN=Second", "/CN=leaf")
    extensions = (OF_ROOT, OF_AUTHORITY, OF_AUTHORITY, OF_LEAF)
    found = [None]
    for subject, further in zip(subjects, extensions):
        found.append(made.certificate(subject, key, found[-1], further, digest=digest, signed=signed, **LONG))
    return found[:0:-1]


def kinds(v, title):
    """A chain of one kind of keys and signatures has a path by all verifiers."""
    chain = chain_of(v.shop, title.replace(" ", "-"), *KINDS[title])
    *items, root = chain
    status, found, _ = v.json(*named(items), "--anchors", root.file)
    yield title, (status, [step["place"] for step in found[0]["path"]], found[0]["anchor"]["subject"]), (0, ["item 0", "item 1", "item 2"], "CN=Root")
    yield f"{title}: openssl", v.openssl(items[0], items[1:], [root]), True
    if verifying_others.CERTTOOL:
        yield f"{title}: certtool", v.certtool(items, [root]), True


def crossed(v):
    """An intermediate that two roots signed leads to the one that is an anchor."""
    made = Chain(v.shop, "crossed")
    roots = [made.certificate(f"/CN={entry}", key, extensions=OF_ROOT, **LONG) for entry, key in (("One", "p384"), ("Other", "rsa"))]
    between = [made.certificate("/CN=Between", "p256", anchor, OF_AUTHORITY, **LONG) for anchor in roots]
    leaf = made.certificate("/CN=leaf", "p521", between[0], (NO_AUTHORITY, NO_SIGNER, OWN_ID, ISSUER_ID), **LONG)
    for k, root in enumerate(roots):
        _, found, _ = v.json(leaf.file, *named(between), "--anchors", root.file)
        yield f"cross-signed, root {k}", [step["position"] for step in found[0]["path"]], [0, k + 1]
        # OpenSSL takes the first issuer of the name, and doesn't come back to another one
        yield f"cross-signed, root {k}: openssl", v.openssl(leaf, [between[k], between[1 - k]], [root]), True


def refused(v, title, root):
    """A kind of refusal: the answer of `certpath why` with names and a rule; where OpenSSL accepts it, the rule of the difference."""
    case = refusals.CASES[title](refusals.Maker(v.shop, f"{title} verified", root))
    anchors = [word for anchor in case.anchors for word in ("--anchors", anchor.file)]
    words = [*named(case.bundle), *anchors, "--at", AT, *case.words]
    status, found, told = v.json(*words)
    wanted, is_demanded = v.wanted[title], bool({"--host", "--purpose"} & {*case.words})
    is_path = wanted.why[refusals.head(wanted.why) - 2].startswith("path ")
    is_accepted = is_path and title not in DOUBTS
    answer, ends, outcome = found[0], 0 if is_accepted else 1, "path" if is_accepted else "refused" if is_path else "none"
    yield title, (status, answer["status"], answer["outcome"], len(answer["path"]) > 0, told), (ends, ends, outcome, is_path, [])
    reasons = {reason["reason"] for reason in answer["reasons"]}
    true = {re.sub(r"^at \d+ (?:to (?:anchor )?\d[-, \d]* )?(?:not usable: |no issuer: |not linked: )?", "", reason) for reason in wanted.why if obstacle(reason)}
    true = {"no issuer here" if entry.startswith("no issuer here: ") else entry for entry in true} or CONCLUDED.get(title, set())
    yield f"{title}: its reasons", reasons, true
    rules = {reason["rule"] for reason in answer["reasons"]}
    # (what others say of hosts and purposes, tools/trials/hosts.py compares)
    if not is_demanded:
        yield f"{title}: openssl", v.openssl(case.bundle[0], case.bundle[1:], case.anchors), is_path or title in RULES
    yield f"{title}: its rule", title in RULES and RULES[title] not in rules and f"({RULES[title]})" not in answer["headline"], False
    if verifying_others.CERTTOOL and title not in OF_DATES and not is_demanded:
        certificates = [item for item in case.bundle if item.subject]
        yield f"{title}: certtool", v.certtool(certificates, case.anchors), (is_path or title in RULES) and title not in STRICTER
    verdict = VERDICTS[outcome].format(times.as_shown(times.moment_of(AT)))
    # (what is demanded comes before the name)
    verdict = verdict.partition(": CN=")[0] if is_demanded else verdict
    yield f"{title}: the first line", (answer["headline"].startswith(verdict), DOUBTS.get(title, "") in answer["headline"]), (True, True)
    yield f"{title}: --quiet", v.run(*words, "--quiet"), (ends, "", [])
    yield f"{title}: --ignore-unused-lists", v.run(*words, "--quiet", "--ignore-unused-lists"), (0 if is_path else 1, "", [])
    if title == "names with control characters":
        text = v.run(*words, "--html", "-")[1] + v.run(*words, "--dot")[1] + v.run(*words)[1]
        yield title, CONTROL.findall(text), []


def obstacle(line):
    return re.match(r"at \d+ (?:not usable|no issuer|isn't for|doesn't serve|to .* not linked|leads to an anchor)", line)


def other_key(v, root):
    """A list that another key of the issuer's name signed is used, and not for what this key signed."""
    made = refusals.Maker(v.shop, "other key", root)
    case = made.of_list(signer={"key": "rsa"})
    status, text, _ = v.run(*named(case.bundle), "other-key-3.pem", "--anchors", root.file, "--at", AT)
    yield "a list by another key", (status, "since item 0 CN=leaf is revoked by list 2 " in text.split("\n")[0]), (1, True)


def two_lists(v, root):
    """Of used lists that revoke the leaf the first one is named; each list that isn't used is asked
    about by itself, though another one revokes the leaf when it was issued."""
    made = refusals.Maker(v.shop, "two lists", root)
    leaf, issuer, past = made.of_list(next_update=refusals.PAST_UPDATE).bundle
    later = made.chain.list(issuer, [2], "20260115000000Z", refusals.PAST_UPDATE)
    used, last = made.chain.list(issuer, [2]), made.chain.list(issuer, [2, 3])
    by_first = ["revoked by list 2"]
    for title, lists, wanted in (
            ("past their next updates", [past, later], ("refused", [], {2: "yes", 3: "yes"})),
            ("one past its next update", [used, past], ("none", by_first, {3: "yes"})),
            ("both used", [used, last], ("none", by_first, {}))):
        words = [*named([leaf, issuer, *lists]), "--anchors", root.file, "--at", AT]
        answer, = v.json(*words)[1]
        unused = {one["position"]: one["revokes"] for one in answer["unused_lists"]}
        reasons = [one["reason"] for one in answer["reasons"]]
        yield f"two lists, {title}", (answer["outcome"], reasons, unused), wanted


def forms(v, chain):
    """Files in all forms lead to one answer."""
    leaf, second, first, root = chain
    shop, (_, found, _) = v.shop, v.json(*named(chain[:3]), "--anchors", root.file)
    wanted = found[0]["path"]
    texts = [v.octets(link.file) for link in chain[:3]]
    key = v.octets(shop.key("p256"))
    shop.keep("all.pem", b"subject=leaf\nissuer=Second\n\n" + texts[0] + b"Bag Attributes: <none>\n" + texts[1] + texts[2])
    shop.keep("crlf.pem", b"".join(texts).replace(b"\n", b"\r\n"))
    shop.keep("keys.pem", key + texts[0] + key + texts[1] + texts[2])
    shop.keep("all.der", b"".join(link.octets for link in chain[:3]))
    shop.keep("between.pem", texts[1] + texts[2])
    shop.openssl("crl2pkcs7", "-nocrl", "-certfile", "all.pem", "-out", "all.p7b")
    shop.openssl("crl2pkcs7", "-nocrl", "-certfile", "all.pem", "-outform", "DER", "-out", "all.p7c")
    twelve = ("pkcs12", "-export", "-in", leaf.file, "-inkey", shop.key("p256"), "-certfile", "between.pem")
    shop.openssl(*twelve, "-passout", "pass:", "-out", "open.p12")
    shop.openssl(*twelve, "-passout", "pass:secret", "-out", "closed.p12")

    def shown(path):
        return [(step["subject"], step["sha256"]) for step in path]

    for file in ("all.pem", "crlf.pem", "keys.pem", "all.der", "all.p7b", "all.p7c", "open.p12"):
        status, found, told = v.json(file, "--anchors", root.file)
        # the certificates of PKCS #7 and #12 may stand in another order; the target is the first
        path = found and shown(found[0]["path"])
        yield f"the form {file}", (status, path, told), (0, shown(wanted)[-len(path or [0]):], [])
    status, text, told = v.run("keys.pem", "--anchors", root.file)
    is_told = "keys.pem line 1 PRIVATE KEY: the block holds neither certificate nor revocation list; left out" in text
    yield "private keys", (status, key.split(b"\n")[1].decode() in text, is_told, told), (0, False, True, [])
    status, text, told = v.run("-", "--anchors", root.file, octets=v.octets("all.pem"))
    yield "standard input", (status, text.split(" at ")[0], told), (0, "valid path", [])
    status, text, told = v.run("closed.p12", "--anchors", root.file)
    remedy = "unpack it: openssl pkcs12 -in closed.p12 -nokeys -out closed.p12.pem"
    yield "a password", (status, text, told), (4, "", [f"verify: closed.p12: PKCS #12 with a password, or damaged; {remedy}"])


def words_of(v, chain):
    """The options, and what is refused."""
    leaf, second, first, root = chain
    files, anchors = named(chain[:3]), ["--anchors", root.file]
    digest = v.json(*files, *anchors)[1][0]["path"][1]["sha256"]
    for word in (second.file, digest, digest.upper(), ":".join(digest[k:k + 2] for k in range(0, 64, 2)), "1"):
        _, found, _ = v.json(*files, *anchors, "--target", word)
        yield f"--target {word}", [entry["target"]["subject"] for entry in found], ["CN=Second"]
    v.shop.keep("three.pem", b"".join(map(v.octets, files)))
    yield "--all", [anchor["target"]["subject"] for anchor in v.json("three.pem", *anchors, "--all")[1]], ["CN=leaf", "CN=Second", "CN=First"]
    leaf_again = v.json("three.pem", *files, *anchors, "--all")[1]
    yield "--all of several FILEs", [entry["target"]["subject"] for entry in leaf_again], ["CN=leaf", "CN=Second", "CN=First"]
    yield "--all of files of one each", [path["target"]["subject"] for path in v.json(*files, *anchors, "--all")[1]], ["CN=leaf", "CN=Second", "CN=First"]
    found = v.json(files[0], *anchors, "--lists", files[1], "--lists", files[2], "--all")[1]
    yield "--all and --lists", [entry["target"]["subject"] for entry in found], ["CN=leaf"]
    yield "--all of a FILE of keys too", [path["status"] for path in v.json(*files, v.shop.key("p256"), *anchors, "--all")[1]], [0, 0, 0]
    for words in ([files[0], *anchors, *files[1:]], [*anchors, files[0], "--json", *files[1:]], [*anchors, "--", *files]):
        yield f"the order of words {words}", v.run(*words)[0], 0
    for word, shown in TIMES.items():
        yield f"--at {word}", v.json(*files, *anchors, "--at", word)[1][0]["at"], shown
    yield "no issuer", v.run(files[0], *anchors)[0], 1
    yield "--quiet", v.run(*files, *anchors, "--quiet"), (0, "", [])
    yield "--quiet and none", v.run(files[0], *anchors, "--quiet"), (1, "", [])
    _, found, _ = v.json(*files, *anchors)
    yield "the fields of --json", {*found[0]}, FIELDS
    for words, status in (([], 2), ([*files, *anchors, "--at", "tomorrow"], 2), ([*files, *anchors, "--what"], 2), (["-", "--anchors", "-"], 2),
                          ([*files, *anchors, "--limit", "4294967296"], 2), ([*files, *anchors, "--target", "99"], 3),
                          ([*files, *anchors, "--target", "f" * 64], 3), (["missing.pem", *anchors], 4), ([*files, "--anchors", "missing.pem"], 4),
                          ([*files, "--anchors", "p256.key"], 4), ([*files, "--anchors", "empty"], 4), (["p256.key", *anchors], 3)):
        os.makedirs(os.path.join(v.shop.room, "empty"), exist_ok=True)
        found, text, told = v.run(*words)
        yield f"words {' '.join(words)[:60]}", (found, len(told), CONTROL.findall("".join(told))), (status, 0 if words[-1:] == ["99"] else 1, [])
    with open("/dev/full", "wb") as full:
        yield "a full device", v.run(*files, *anchors, output=full)[0], 7
    folder = os.path.join(v.shop.room, "anchors.d")
    os.makedirs(folder)
    for name, held in (("root.pem", v.octets(root.file)), ("twice.pem", v.octets(root.file)), ("notes.txt", b"no certificate\n")):
        with open(os.path.join(folder, name), "wb") as file:
            file.write(held)
    yield "a folder of anchors", v.json(*files, "--anchors", "anchors.d")[1][0]["anchors"], "1 certificate of anchors.d"


def pages(v, chain, root):
    """The page needs nothing else, is well formed, and shows foreign names as text."""
    made = Chain(v.shop, "pages")
    leaf = made.certificate("/CN=<script>alert(1)<\\/script>", "p521", root, OF_LEAF, **LONG)
    for title, words, status in (("a path", [*named(chain[:3]), "--anchors", chain[3].file], 0), ("none", [chain[0].file, "--anchors", chain[3].file], 1),
                                 ("a strange name", [leaf.file, "--anchors", root.file], 0)):
        found, text, told = v.run(*words, "--html", "-")
        page = Reader(text)
        has_parts = {"svg", "title", "desc", "main", "h1"} <= page.names
        yield f"the page of {title}", (found, told, page.open, page.faults, page.loads, "script" in page.names, has_parts), (status, [], [], [], [], False, True)
        yield f"the look of {title}", all(name in text for name in ('name="viewport"', "prefers-color-scheme:dark", 'role="img"', 'lang="en"')), True
        status_of_dot, graph, _ = v.run(*words, "--dot")
        drawn = subprocess.run(["dot", "-Tsvg"], input=graph.encode(), capture_output=True) if shutil.which("dot") else None
        yield f"the graph of {title}", (status_of_dot, graph.startswith("digraph "), drawn is None or drawn.returncode == 0), (status, True, True)


def looks(v, root):
    """The colours of the page: a certificate that is revoked, or may be, is red, and so is one without an issuer; a bar of dates is red where
    the moment is outside it, and nowhere else."""
    for title, item_zero, item_one, late in (("revoked", "bad", "good", 0), ("list past its next update", "bad", "good", 0), ("missing issuer", "bad", None, 0),
                                             ("expired", "bad", "good", 1), ("nothing", "good", "good", 0)):
        case = refusals.CASES[title](refusals.Maker(v.shop, f"{title} looked at", root))
        _, text, _ = v.run(*named(case.bundle), "--anchors", root.file, "--at", AT, "--html", "-")
        found = dict((place, look) for look, place in re.findall(r'<g class="(\w+)"><title>(item \d+): ', text))
        wanted = {"item 0": item_zero, **({"item 1": item_one} if item_one else {})}
        yield f"the colours of {title}", (found, text.count('class="bar late"')), (wanted, late)
    for title, note in (("wrong root of the name", "signature not verified"), ("weak signature", "weak signature: sha1"), ("key identifiers", "names another key")):
        case = refusals.CASES[title](refusals.Maker(v.shop, f"{title} looked at", root))
        text = v.run(*named(case.bundle), "--anchors", case.anchors[0].file, "--at", AT, "--html", "-")[1]
        yield f"the picture's words of {title}", (f">{note}</text>" in text, ">no voucher<" in text), (True, False)


def example():
    """The example in C ends in a path, and leaves no file in the repository."""
    if shutil.which("cc") is None or not os.path.exists(HEADERS):
        print("verifying: no C compiler or no headers of OpenSSL, so examples/c/run.sh is not run")
        return
    before = sorted(os.listdir(repo.TOP))
    ran = subprocess.run([os.path.join(repo.TOP, "examples", "c", "run.sh")], stdin=subprocess.DEVNULL, capture_output=True)
    ends = ran.stdout.decode().splitlines()[-2:]
    yield "examples/c/run.sh", (ran.returncode, ends, sorted(os.listdir(repo.TOP))), (0, ["path 0 1 anchor 0", "check yes"], before)


def of_system(v):
    """The system's store against itself: each certificate has a path to itself, or a reason with its rule."""
    if not os.path.isfile(STORE):
        return
    _, found, told = v.json(STORE, "--all", "--at", AT)
    yield "the system's store", (len(found) > 20, told, "(the system's store" in found[0]["anchors"]), (True, [], True)
    silent = [entry["headline"] for entry in found if entry["outcome"] == "none" and not (entry["reasons"] and all(one["rule"] for one in entry["reasons"]))]
    yield "the system's store: reasons", silent, []
    # (roots that SHA-1 signed have none without --weak)
    yield "the system's store: most have a path", sum(bool(entry["path"]) for entry in found) > len(found) / 2, True


def large(v):
    """Many certificates, and the progress on a terminal."""
    count = size(verifying_large.FEW, verifying_large.FEW // 3)
    words = verifying_large.made(v.shop, count)
    yield from verifying_large.trials(v.shop, words, count)
    yield from verifying_large.progress(v.shop, words, count)


class Verifying(Trial):
    def setUp(self):
        self.need("openssl")
        self.program()

    def test_verify(self):
        if not verifying_others.CERTTOOL:
            with self.subTest():
                self.skipTest("the rows beside certtool (gnutls-bin), which isn't on the path")
        with tempfile.TemporaryDirectory(prefix="verifying-") as room, ThreadPoolExecutor(RUNS) as runs:
            t = Trials(Workshop(room), self)
            v = Verify(t)
            v.wanted = refusals.wanted()
            root = Chain(t.shop, "root").certificate("/CN=Root", "p384", extensions=OF_ROOT, **LONG)
            chain = chain_of(t.shop, "plain", *KINDS["P-256"])
            jobs = [lambda entry=kind: [*kinds(v, entry)] for kind in KINDS]
            jobs += [lambda entry=case: [*refused(v, entry, root)] for case in [*refusals.CASES][::size(1, SAMPLED)]]
            jobs += [lambda: [*crossed(v)], lambda: [*other_key(v, root)], lambda: [*two_lists(v, root)]]
            jobs += [lambda: [*forms(v, chain)], lambda: [*words_of(v, chain)], lambda: [*pages(v, chain, root)], lambda: [*looks(v, root)],
                     lambda: [*of_system(v)], lambda: [*example()], lambda: [*large(v)]]
            jobs += [*verifying_others.jobs(v, root)][::size(1, SAMPLED)]
            jobs += verifying_faults.jobs(v, root)
            for found in runs.map(lambda job: job(), jobs):
                for title, is_so, should_be in found:
                    t.same(title, is_so, should_be)

    def test_messages(self):
        messages.trials(self)
