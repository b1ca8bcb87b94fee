"""Runs ./verify, `openssl verify` and, where it is installed, `certtool` on what they judge differently. Each case is a row of the
table of docs/VERIFY.md, under the same title, and the output of ./verify names the row's cause."""
import os
import re
import shutil
import subprocess
from typing import NamedTuple

from program import repo
from trials import refusals
from trials.chains import AUTHORITY, NO_AUTHORITY, NO_SIGNER, OF_AUTHORITY, OF_LEAF, OF_ROOT, OWN_ID, SIGNER, Chain

PAGE, HEAD = "docs/VERIFY.md", re.compile(r"(?m)^    case +openssl +certtool +verify +names$")
# The standard whose sections the last column has.
RULES = "RFC 5280, "
STAMP = "1780272000"
LONG = {"begin": "20200101000000Z", "end": "20490101000000Z"}
PAST = {"begin": "20200101000000Z", "end": "20251231235959Z"}
ANSWERS = {True: "path", False: "none"}
VERDICTS = {"valid path at ": "path", "path refused at ": "refused", "no valid path at ": "none"}
CERTTOOL = shutil.which("certtool")


class Case(NamedTuple):
    """What is tried: certificates, the target first, anchors, lists; further words of ./verify, of openssl, and whether certtool gets the
    lists."""
    certificates: list
    anchors: list
    lists: list = ()
    words: tuple = ()
    openssl: tuple = ()
    certtool_has_lists: bool = False


class Row(NamedTuple):
    """A row of the table: the answers of the others and of ./verify, and what that names as the cause, mostly a rule."""
    openssl: str
    certtool: str
    verify: str
    named: str


def table():
    """The rows of the page's table, by their titles."""
    lines = HEAD.split(repo.read(PAGE))[1].split("\n")[1:]
    rows = [re.split(" {2,}", line.strip()) for line in lines[:lines.index("")]]
    return {title: Row(*others, f"{RULES}{named}" if named[0].isdigit() else named) for title, *others, named in rows}


def of_refusal(title, openssl=(), certtool_has_lists=False):
    """A case of tools/trials/refusals.py."""
    def made(shop, root):
        # (rows are made side by side, and two rows may be of one case)
        own = f"{title} differs{' with lists' if certtool_has_lists else ''}"
        case = refusals.CASES[title](refusals.Maker(shop, own, root))
        lists = [item for item in case.bundle if not item.subject]
        return Case([item for item in case.bundle if item.subject], case.anchors, lists, case.words, openssl, certtool_has_lists)
    return made


def dead_end(shop, root):
    """An issuer has two certificates of one key: the first leads nowhere."""
    made = Chain(shop, "dead-end")
    other = made.certificate("/CN=Other", "rsa", extensions=OF_ROOT, **LONG)
    between = [made.certificate("/CN=Between", "p256", value, (AUTHORITY, SIGNER, OWN_ID), **LONG) for value in (other, root)]
    leaf = made.certificate("/CN=leaf", "p521", between[0], (NO_AUTHORITY, NO_SIGNER, OWN_ID), **LONG)
    return Case([leaf, *between], [root])


def expired_anchor(shop, _):
    made = Chain(shop, "expired-anchor")
    root = made.certificate("/CN=Old root", "rsa", extensions=OF_ROOT, **PAST)
    return Case([made.certificate("/CN=leaf", "p521", root, OF_LEAF, **LONG)], [root])


def middle_anchor(shop, root):
    made = Chain(shop, "middle-anchor")
    between = made.certificate("/CN=Between", "p256", root, OF_AUTHORITY, **LONG)
    return Case([made.certificate("/CN=leaf", "p521", between, OF_LEAF, **LONG)], [between])


def anchor_of_leaf(shop, _):
    made = Chain(shop, "anchor-of-leaf")
    root = made.certificate("/CN=No authority", "rsa", extensions=(NO_AUTHORITY, NO_SIGNER, OWN_ID), **LONG)
    return Case([made.certificate("/CN=leaf", "p521", root, OF_LEAF, **LONG)], [root])


WITH_LISTS = ("-crl_check",)
CASES = {
    "critical extended key usage": of_refusal("critical extended key usage"),
    "critical extended key usage of a time stamp": of_refusal("time stamping"),
    "name constraints": of_refusal("name constraints"),
    "critical name constraints": of_refusal("critical name constraints"),
    "critical policies": of_refusal("policies"),
    "policy constraints": of_refusal("policy constraints"),
    "signed by SHA-1": of_refusal("weak signature"),
    "issuer's name in another string type": of_refusal("name in another string type"),
    "revoked": of_refusal("revoked"),
    "revoked, lists given": of_refusal("revoked", WITH_LISTS, True),
    "no list, --demand-lists": of_refusal("list demanded"),
    "revoking list past its update": of_refusal("list past its next update"),
    "revoking list past its update, lists given": of_refusal("list past its next update", WITH_LISTS, True),
    "revoking list of users alone, lists given": of_refusal("list with a critical extension", WITH_LISTS, True),
    "issuer whose first certificate is a dead end": dead_end,
    "anchor that has expired": expired_anchor,
    "anchor that isn't self-signed": middle_anchor,
    "anchor that is no CA": anchor_of_leaf,
}


def joined(v, items, file):
    """A file of several items' files."""
    return v.shop.keep(file, b"".join(v.octets(item.file) for item in items))


def openssl(v, case, name):
    """What `openssl verify` says."""
    roots, between = joined(v, case.anchors, f"{name}.roots"), joined(v, case.certificates[1:], f"{name}.between")
    words = ["openssl", "verify", "-attime", STAMP, "-no-CAstore", "-no-CApath", "-CAfile", roots, *case.openssl]
    words += ["-untrusted", between] if case.certificates[1:] else []
    words += ["-CRLfile", joined(v, case.lists, f"{name}.lists")] if case.lists else []
    ran = subprocess.run([*words, case.certificates[0].file], cwd=v.shop.room, stdin=subprocess.DEVNULL, capture_output=True)
    return ANSWERS[ran.returncode == 0]


def certtool(v, case, name):
    """What `certtool --verify` says, now."""
    words = ["certtool", "--verify", "--load-ca-certificate", joined(v, case.anchors, f"{name}.roots")]
    words += ["--load-crl", joined(v, case.lists, f"{name}.lists")] if case.certtool_has_lists else []
    chain = b"".join(v.octets(certificate.file) for certificate in case.certificates)
    return ANSWERS[subprocess.run(words, cwd=v.shop.room, input=chain, capture_output=True).returncode == 0]


def trials(v, title, row, root):
    """One row: each verifier says what the page says, and ./verify names the cause."""
    case, name = CASES[title](v.shop, root), re.sub(r"\W", "-", title)
    yield f"{title}: openssl", openssl(v, case, f"{name}-openssl"), row.openssl
    if CERTTOOL:
        yield f"{title}: certtool", certtool(v, case, f"{name}-certtool"), row.certtool
    anchors = [word for anchor in case.anchors for word in ("--anchors", anchor.file)]
    files = [certificate.file for certificate in [*case.certificates, *case.lists]]
    status, text, _ = v.run(*files, *anchors, "--at", refusals.AT, *case.words)
    answer = next(word for words, word in VERDICTS.items() if text.startswith(words))
    yield f"{title}: ./verify", (answer, status == 0, row.named in text), (row.verify, row.verify == "path", True)


def every_reason(v, root):
    """OpenSSL reports errors of the one chain that it builds, ./verify what stands in the way of each."""
    made = Chain(v.shop, "every-reason")
    expired = made.certificate("/CN=Between", "p256", root, (AUTHORITY, SIGNER, OWN_ID), **PAST)
    no_authority = made.certificate("/CN=Between", "p256", root, (NO_AUTHORITY, SIGNER, OWN_ID), **LONG)
    leaf = made.certificate("/CN=leaf", "p521", expired, (NO_AUTHORITY, NO_SIGNER, OWN_ID), **LONG)
    files = [leaf.file, expired.file, no_authority.file]
    _, found, _ = v.json(*files, "--anchors", root.file, "--at", refusals.AT)
    yield "every reason", [reason["reason"] for reason in found[0]["reasons"]], ["expired 2025-12-31T23:59:59", "no authority"]
    joined(v, [expired, no_authority], "every.between")
    words = ["openssl", "verify", "-attime", STAMP, "-CAfile", root.file, "-untrusted", "every.between", leaf.file]
    said = subprocess.run(words, cwd=v.shop.room, stdin=subprocess.DEVNULL, capture_output=True).stderr.decode()
    yield "every reason: openssl", ("certificate has expired" in said, "invalid CA certificate" in said).count(True), 1


def jobs(v, root):
    """The trials of all rows, to be run side by side."""
    rows = table()
    yield lambda: [("the rows of the page", [*rows], [*CASES])]
    yield from (lambda entry=row: [*trials(v, entry, rows[entry], root)] for row in rows if row in CASES)
    yield lambda: [*every_reason(v, root)]
