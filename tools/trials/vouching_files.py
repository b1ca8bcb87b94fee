"""Trials of ./vouch and ./bundle by their files and words: samples, ends, limits, statuses, refusals, and from PEM files to lines."""
import os
import re
import subprocess
import sys

from dev.items import octets
from pki import package
from program import programs, repo
from trials import bundling
from trials.bundling import CERTIFICATE, pem
from trials.elements import parts_of
from trials.vouching_algorithms import Row
from trials.vouching_pki import line, name, octets_of_pem
from certpath import Certificate

LIST = "X509 CRL"
USAGE = ["usage: ./vouch BUNDLE ANCHORS [--weak] [--tries N] [--verbose] [--limit N] > vouchers.txt"]
NOT_WHOLE, NO_ITEM = "the last item isn't whole", "what begins there is no item"
NO_FIRST = f"{NO_ITEM}; of PEM files ./bundle makes items"
SAMPLES = os.path.join(repo.TOP, "samples")
NEITHER = octets("30(02(05))")
# What begins no item, and what is the front of one.
FAULT, CUT = b"\x31\x00", NEITHER[:-1]


def in_samples(file):
    return os.path.join(SAMPLES, file)


def held(file):
    with open(in_samples(file), "rb") as entry:
        return entry.read()


def samples(t):
    """The lines for the samples are those that samples/make.sh computes."""
    t.same("samples", t.run("vouch", [in_samples("bundle.der"), in_samples("root.der")]),
           (0, held("vouchers.txt"), ["vouch: 4 items, 4 vouched for, 4 lines, 0 unverified"]))
    for pem_name, names in (("fullchain", ("leaf", "intermediate")), ("root", ("root",)), ("list", ("list",)), ("other_list", ("other_list",))):
        bundled = t.run("bundle", [in_samples(f"{pem_name}.pem")])[1]
        t.same(f"{pem_name}.pem", bundled, b"".join(held(f"{word}.der") for word in names))
    key, root = (Certificate(held(f"{entry}.der")).public_key_bytes for entry in ("intermediate", "root"))
    chain = [held(f"{entry}.der") for entry in ("leaf", "intermediate", "other_list")]
    t.vouch("the samples with the other list", chain, [held("root.der")], [(key, chain[0]), (root, chain[1]), (key, chain[2])])


def paths(t):
    """From PEM files to an answer by the three commands of README.md: where the leaf is kept and where it is revoked, without lists
    where they are demanded, and under another anchor."""
    program = programs.ready(programs.CERTPATH)
    another = t.shop.openssl("req", "-new", "-x509", "-config", "openssl.cnf", "-key", t.shop.key("other"), "-subj", "/C=CZ/O=Example/CN=Example Root")
    t.shop.keep("another.pem", another)
    rows = (
        ("a leaf that is kept", ["other_list.pem"], "root.pem", [], 0, "path 0 1 anchor 0"),
        ("a revoked leaf", ["list.pem"], "root.pem", [], 1, "none"),
        ("no list", [], "root.pem", [], 0, "path 0 1 anchor 0"),
        ("lists demanded, and none", [], "root.pem", ["--demand-lists"], 1, "none"),
        ("an anchor of the same name", ["other_list.pem"], "another.pem", [], 1, "none"),
    )
    for title, lists, root, words, status, answer in rows:
        chain = [in_samples(crl) for crl in ("fullchain.pem", *lists)]
        anchor = root if root == "another.pem" else in_samples(root)
        t.shop.keep("bundle.der", t.run("bundle", chain)[1])
        t.shop.keep("anchors.der", t.run("bundle", [anchor])[1])
        t.shop.keep("vouchers.txt", t.run("vouch", ["bundle.der", "anchors.der"])[1])
        files = ["bundle.der", "anchors.der", "vouchers.txt"]
        asked = [program, "path", *files, "--target", "0", "--at", "2026-12-01T00:00:00", *words]
        ran = subprocess.run(asked, cwd=t.shop.room, stdin=subprocess.DEVNULL, stdout=subprocess.PIPE, stderr=subprocess.PIPE)
        classes = "0 cert\n1 cert\n" + "2 list\n" * len(lists)
        t.same(f"path: {title}", (ran.returncode, ran.stdout.decode(), ran.stderr.decode()),
               (status, f"{classes}end clean\nanchors 1 of 1, clean\n{answer}\ncheck yes\n", ""))


def ends(t):
    """What stands before a cut or a fault is vouched for; a limit holds for both files."""
    shop = t.shop
    root = shop.certificate("p256", name("r"), name("r"), shop.public("p256"))
    root_line, number = line(shop.public("p256"), root), len(root)
    t.vouch("an empty bundle", [], [root], [])
    t.vouch("no files at all", [], [], [])
    for end, word, what, at_first in ((CUT, "cut", NOT_WHOLE, NOT_WHOLE), (FAULT, "fault", NO_ITEM, NO_FIRST)):
        summary = "vouch: 1 item, 1 vouched for, 1 line, 0 unverified"
        alone = [f"bundle: {word} at 0: {at_first}", "vouch: 0 items, 0 vouched for, 0 lines, 0 unverified"]
        t.same(f"a {word} in the bundle", t.lines(word, [root, end], []), (1, root_line, [f"bundle: {word} at {number}: {what}", summary]))
        t.same(f"a {word} in the anchors", t.lines(word, [root], [root, end]), (1, root_line, [f"anchors: {word} at {number}: {what}", summary]))
        t.same(f"a {word} alone", t.lines(word, [end], []), (1, "", alone))
    limit = len(parts_of(root)[0].content)
    for words in (["--limit", str(limit)], [f"--limit=00{limit}"], ["--weak", "--limit", "4294967295"]):
        t.same(f"the words {words}", t.lines("a limit", [root], [], *words), (0, root_line, ["vouch: 1 item, 1 vouched for, 1 line, 0 unverified"]))
    t.same("a limit that is too small", t.lines("a limit", [root], [root], "--limit", str(limit - 1)),
           (1, "", [f"bundle: fault at 0: {NO_FIRST}", f"anchors: fault at 0: {NO_FIRST}", "vouch: 0 items, 0 vouched for, 0 lines, 0 unverified"]))


def patched(t, setting):
    """What ./vouch ends with where something isn't there, by a setting that makes it so."""
    tools, script = os.path.join(repo.TOP, "tools"), os.path.join(repo.TOP, "vouch")
    text = f"import runpy, sys; sys.path.insert(0, {tools!r}); {setting}; sys.argv = ['vouch', 'root', 'root']; runpy.run_path({script!r}, run_name='__main__')"
    ran = subprocess.run([sys.executable, "-IS", "-c", text], cwd=t.shop.room, capture_output=True)
    return ran.returncode, ran.stdout, ran.stderr.decode().partition(", and ")[0].partition(" of ctypes")[0].strip()


def absences(t):
    """Without OpenSSL's library, that of certpath or memory nothing is written."""
    t.same("no libcrypto", patched(t, "from pki import package; import certpath.libcrypto as libcrypto; libcrypto.candidates = lambda: ['libnone.so']"),
           (4, b"", "vouch: OpenSSL cannot be called: no libcrypto of OpenSSL 3 is there"))
    t.same("no ctypes", patched(t, "sys.modules['ctypes'] = None"), (4, b"", "vouch: OpenSSL cannot be called: import"))
    t.same("no library", patched(t, "from pki import package; import certpath.library as library; library.FOLDERS = ('/none',)"), (4, b"", "vouch: libcertpath.so is in none of /none"))
    t.same("a library of another version", patched(t, "from pki import package; import certpath.library as library; library.VERSION = 0")[:2], (4, b""))
    t.same("a library without memory", patched(t, "from pki import package; import certpath.library as library; library.loaded().certpath_frame = lambda *_: 1"), (4, b"", "vouch: out of memory"))


def refusals(t):
    """Refused words, files that can't be read, and standard output that fails: nothing is written."""
    root = t.shop.certificate("p256", name("r"), name("r"), t.shop.public("p256"))
    t.shop.keep("root", root)
    t.shop.keep("two", root + NEITHER)
    os.makedirs(os.path.join(t.shop.room, "folder"), exist_ok=True)
    both = ["root", "root"]
    for words in ([], ["root"], [*both, "root"], ["--help"], [*both, "--wake"], [*both, "--limit"], [*both, "--weak", "--weak"],
                  [*both, "--limit", "1", "--limit", "1"], [*both, "--tries"], [*both, "--tries=1", "--tries", "1"], [*both, "-v", "--verbose"], ["-", "root", "--"]):
        t.same(f"vouch {words}", t.run("vouch", words), (2, b"", USAGE))
    t.same("vouch - -", t.run("vouch", ["-", "-"], root), (2, b"", ["vouch: standard input can be one file only"]))
    for number in ("4294967296", "3x", "", "+3", "-1", "1" * 5000, "٣"):
        shown = "''" if not number else number if len(number) < 200 else f"{number[:200]}.."
        for option, least in (("--limit", 0), ("--tries", 1)):
            told = f"vouch: {option} {shown}: no number from {least} to 4294967295"
            t.same(f"{option} {number:.20}", t.run("vouch", ["none", "none", option, number]), (2, b"", [told]))
    t.same("--tries 00", t.run("vouch", ["none", "none", "--tries", "00"]), (2, b"", ["vouch: --tries 00: no number from 1 to 4294967295"]))
    missing = "no such file; is the name right?"
    for words in (["none", "root"], ["root", "none"]):
        t.same(f"vouch {words}", t.run("vouch", words), (4, b"", [f"cannot read none: {missing}"]))
    t.same("a name with control characters", t.run("vouch", ["\x1b[2J\r\n\x9b", "root"]), (4, b"", [f"cannot read \\x1b[2J\\r\\n\\x9b: {missing}"]))
    t.same("a folder", t.run("vouch", ["folder", "root"]), (4, b"", ["cannot read folder: it is a folder; name its files"]))
    for words in (["/dev/stdin", "root"], ["-", "root"], ["root", "-"]):
        t.same(f"standard input: {words}", t.run("vouch", words, root)[:2], (0, line(t.shop.public("p256"), root).encode()))
    with open("/dev/full", "wb") as full:
        t.same("a full disk", t.run("vouch", ["two", "root"], output=full), (7, None, ["bundle 1: neither certificate nor list", "cannot write"]))
        t.same("a full disk for a bundle", t.run("bundle", ["root"], output=full), (7, None, ["cannot write"]))
    for closing, wanted in ((">&-", (7, b"", b"cannot write\n")), ("2>&-", (0, line(t.shop.public("p256"), root).encode(), b""))):
        ran = subprocess.run(["sh", "-c", f"exec {os.path.join(repo.TOP, 'vouch')} root root {closing}"], cwd=t.shop.room, capture_output=True)
        t.same(f"vouch root root {closing}", (ran.returncode, ran.stdout, ran.stderr), wanted)


def containers(t, chain):
    """Other containers are reported, or unpacked by openssl; no octet of a private key comes out."""
    shop = t.shop
    with open(os.path.join(shop.room, shop.key("p256")), "rb") as file:
        private = file.read()
    shop.keep("chain.pem", b"".join(map(pem, chain)))
    shop.keep("lists.pem", pem(chain[0], LIST))
    shop.openssl("pkcs12", "-export", "-nokeys", "-in", "chain.pem", "-out", "it.p12", "-passout", "pass:")
    shop.openssl("crl2pkcs7", "-nocrl", "-certfile", "chain.pem", "-outform", "DER", "-out", "it.p7b")
    left_out = "octet 0: neither certificate nor revocation list; left out"
    none = "bundle: 0 items (0 certificates, 0 lists), 1 left out"
    t.same("bundle it.p12", t.run("bundle", ["it.p12"]), (1, b"", [f"it.p12 {left_out}", none]))
    t.same("bundle it.p7b", t.run("bundle", ["it.p7b"])[:2], (0, b"".join(chain)))
    unpacked = shop.openssl("pkcs7", "-inform", "DER", "-in", "it.p7b", "-print_certs")
    t.same("bundle of what pkcs7 prints", t.run("bundle", ["-"], unpacked)[:2], (0, b"".join(chain)))
    unpacked = shop.openssl("pkcs12", "-in", "it.p12", "-nokeys", "-passin", "pass:")
    t.same("bundle of what pkcs12 prints", t.run("bundle", ["-"], unpacked)[:2], (0, b"".join(chain)))
    printed = shop.openssl("x509", "-in", "chain.pem", "-text")
    t.same("bundle of what x509 prints", t.run("bundle", ["-"], printed)[:2], (0, chain[0]))
    text_within = shop.certificate("p256", name("r"), name("-----BEGIN CERTIFICATE-----"), shop.public("p256"))
    shop.keep("text_within.der", text_within)
    t.same("bundle of DER with a BEGIN within", t.run("bundle", ["text_within.der"])[:2], (0, text_within))
    shop.keep("private.pem", private + pem(chain[0]))
    shop.keep("private.der", octets_of_pem(private))
    reported = ["private.pem line 1 (PRIVATE KEY): the block holds neither certificate nor revocation list; left out", f"private.der {left_out}", "bundle: 1 item (1 certificate, 0 lists), 2 left out"]
    t.same("bundle with private keys", t.run("bundle", ["private.pem", "private.der"]), (1, chain[0], reported))


def bundles(t):
    """What ./bundle writes is items to its end, as many as it says."""
    program = programs.ready(programs.CERTPATH)
    for files, words, *_ in bundling.CASES:
        for file, octets_held in {**{entry: held(f"{entry}.der") for entry in ("leaf", "intermediate", "root", "list")}, **files}.items():
            t.shop.keep(file, octets_held)
        _, bundled, reported = t.run("bundle", words)
        rows = subprocess.run([program, "frame", "/dev/stdin"], input=bundled, stdout=subprocess.PIPE).stdout.decode().splitlines()
        count = re.match(r"bundle: (\d+) items? ", reported[-1])
        t.same(f"frame of bundle {words}", (len(rows) - 1, rows[-1]), (int(count[1]) if count else 0, "end clean"))
        t.same(f"bundle {words} has no private key", bundling.KEY[-4:] in bundled, False)


def from_pem(t):
    """From PEM files to lines: a leaf of P-256, intermediates of Ed25519 and P-384 in one file, an RSA root, and three lists."""
    shop, rows = t.shop, [Row("first", "rsa", "sha256"), Row("second", "p384", "sha384"), Row("third", "ed25519", None)]
    request = ("req", "-new", "-x509", "-config", "openssl.cnf", "-days", "30")
    shop.keep("first.pem", shop.openssl(*request, "-key", shop.key("rsa"), "-subj", "/CN=first", "-sha256"))
    shop.keep("wrong.pem", shop.openssl(*request, "-key", shop.key("other"), "-subj", "/CN=first", "-sha256"))
    issued, lists = [], []
    for row, title, kind in zip(rows, ("second", "third", "leaf"), ("p384", "ed25519", "p256")):
        digest = [f"-{row.digest}"] if row.digest else []
        of_row = ("-CA", f"{row.title}.pem", "-CAkey", shop.key(row.kind))
        issued.append(shop.openssl(*request, *of_row, "-key", shop.key(kind), "-subj", f"/CN={title}", *digest))
        shop.keep(f"{title}.pem", issued[-1])
        of_row = ("-cert", f"{row.title}.pem", "-keyfile", shop.key(row.kind))
        lists.append(shop.openssl("ca", "-config", "openssl.cnf", "-gencrl", *of_row, *(["-md", row.digest] if row.digest else [])))
    shop.keep("intermediates.pem", issued[1] + b"subject=CN = second\r\n" + issued[0])
    shop.keep("lists.pem", b"".join(lists))
    items = [octets_of_pem(crl) for crl in (issued[2], issued[1], issued[0], *lists)]
    t.same("bundle of PEM files", t.run("bundle", ["leaf.pem", "intermediates.pem", "lists.pem"]),
           (0, b"".join(items), ["bundle: 6 items (3 certificates, 3 lists), 0 left out"]))
    signers = ("ed25519", "p384", "rsa", "rsa", "p384", "ed25519")
    pairs = [(shop.public(kind), item) for kind, item in zip(signers, items)]
    first, wrong = (t.run("bundle", [entry])[1] for entry in ("first.pem", "wrong.pem"))
    t.vouch("from PEM files", items, [first], pairs)
    told = [f"bundle {index}: not verified by 1 key (..)" for index in (2, 3)]
    t.vouch("another root of the same name", items, [wrong], [pair for number, pair in enumerate(pairs) if number not in (2, 3)], told)
    t.vouch("the lists alone", items[3:], [first, *items[1:3]], pairs[3:])
    containers(t, items[:3])


def trials(t):
    """Runs them all."""
    for group in (samples, paths, ends, refusals, absences, bundles, from_pem):
        group(t)
