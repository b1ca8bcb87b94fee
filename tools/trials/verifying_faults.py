"""Runs ./verify on damaged, hostile and wrong input: no damaged certificate or list is passed over in silence, each fault is one line,
and nothing is left behind."""
import json
import os
import re
import signal
import subprocess
import sys
import tempfile

from program import repo
from trials import refusals
from trials.chains import AUTHORITY, ISSUER_ID, OF_AUTHORITY, OF_LEAF, SIGNER, Chain
from trials.count import INTERRUPTIBLE
from trials.refusals import AT
from trials.verifying_large import pem

LONG = {"begin": "20200101000000Z", "end": "20490101000000Z"}
# A month 13 in the place of one of the dates that chains.py and this page give.
NO_MONTH = ((b"250101000000Z", b"251301000000Z"), (b"260101000000Z", b"261301000000Z"))
# What changes the direction of text, controls a terminal, or is HTML or DOT.
NAMES = ("/CN=\u202egnp.exe\u2066", "/CN=a\u200bb\u0085", "/CN=<img src=x onerror=alert(1)>&amp;", '/CN="]; x [label="\\\\', "/CN=\u2028line")
MORE_THAN_A_PIPE = 200_000
FORBIDDEN = ("\u202e", "\u2066", "\u200b", "\u0085", "\u2028", "<img")


def wrong_month(octets):
    """An item that is neither certificate nor list in its one spelling."""
    for old, new in NO_MONTH:
        octets = octets.replace(old, new, 1)
    return octets


def damaged(text):
    """A PEM block that isn't base64."""
    return text.replace(b"-----\nM", b"-----\n!", 1)


def case_of(v, title, root, **further):
    """An issuer, a leaf, and a list that revokes it."""
    return refusals.Maker(v.shop, title, root).of_list(**further)


def targets(v, root):
    """A damaged certificate in the place of the target isn't passed over."""
    leaf, issuer, listed = case_of(v, "faulty target", root).bundle
    anchors = ["--anchors", root.file, "--at", AT]
    v.shop.keep("no-base64.pem", damaged(v.octets(leaf.file)) + v.octets(issuer.file))
    v.shop.keep("no-month.pem", pem(wrong_month(leaf.octets)) + v.octets(issuer.file))
    v.shop.keep("behind-list.pem", v.octets(listed.file) + damaged(v.octets(leaf.file)) + v.octets(issuer.file))
    v.shop.keep("behind.pem", v.octets(leaf.file) + damaged(v.octets(issuer.file)))
    told = "no-base64.pem line 1 CERTIFICATE: not base64"
    remedy = "it would be the target: mend it, or name another one with --target"
    yield "a damaged target", v.run("no-base64.pem", *anchors), (4, "", [f"verify: {told}; {remedy}"])
    at = 1 + v.octets(listed.file).count(b"\n")
    told_behind = f"behind-list.pem line {at} CERTIFICATE: not base64"
    yield "a damaged target behind a list", v.run("behind-list.pem", *anchors), (4, "", [f"verify: {told_behind}; {remedy}"])
    status, text, _ = v.run("no-base64.pem", *anchors, "--all")
    yield "a damaged target among all", (status, f"\nno target: {told}\n" in text), (3, True)
    yield "a damaged target, another one named", v.run("no-base64.pem", *anchors, "--target", issuer.file, "--quiet"), (0, "", [])
    status, text, told = v.run("no-month.pem", *anchors)
    yield "an other target", (status, text.startswith("no target: item 0 (no-month.pem): neither a certificate nor a list"), told), (3, True, [])
    yield "an other target among all", v.run("no-month.pem", *anchors, "--all", "--quiet"), (3, "", [])
    status, text, told = v.run("behind.pem", issuer.file, *anchors)
    at = 1 + v.octets(leaf.file).count(b"\n")
    yield "a damaged block behind", (status, f"behind.pem line {at} CERTIFICATE: not base64; left out" in text, told), (0, True, [])
    yield "above the limit", v.run(leaf.file, issuer.file, *anchors, "--limit", "9")[0], 4


def lists(v, root):
    """A list that can't be read, or isn't used, and may revoke, is in the first line."""
    for title, change, said in (("no base64", damaged, "a list can't be read: faulty-list.pem line 1 X509 CRL: not base64"),
                                ("no month", lambda entry: entry, "a list can't be read: item 2 (faulty-list.pem): neither a certificate")):
        case = case_of(v, f"list with {title}", root)
        leaf, issuer, item = case.bundle
        held = v.octets(item.file) if title == "no base64" else pem(wrong_month(item.octets)).replace(b"CERTIFICATE", b"X509 CRL")
        v.shop.keep("faulty-list.pem", v.octets(issuer.file) + change(held) if title == "no month" else change(held) + v.octets(issuer.file))
        files = [leaf.file, issuer.file, "faulty-list.pem", "--anchors", root.file, "--at", AT]
        status, found, told = v.json(*files)
        yield f"a list with {title}", (status, f", since whether a certificate of the path is revoked isn't known, as {said}" in found[0]["headline"],
                                       len(found[0]["doubts"]), told), (1, True, 1, [])
        yield f"a list with {title}, ignored", v.run(*files, "--ignore-unused-lists", "--quiet"), (0, "", [])
    case = case_of(v, "weak list", root, digest="sha1")
    text = v.run(*[entry.file for entry in case.bundle], "--anchors", root.file, "--at", AT)[1]
    yield "a weak list", "since item 0 CN=leaf is revoked by list 2 (weak-list-3.pem), which isn't used: its signature is weak: sha1" in text, True
    made = Chain(v.shop, "spelled list")
    other = made.certificate("/CN=Intermediate", "p256", root, OF_AUTHORITY, mask="pkix", **LONG)
    leaf, issuer, _ = case_of(v, "spelled leaf", root).bundle
    text = v.run(leaf.file, issuer.file, made.list(other, [2]).file, "--anchors", root.file, "--at", AT)[1]
    told = "since whether item 0 CN=leaf is revoked isn't known from list 2"
    how = "reads like the certificate's issuer, but its CN is a PrintableString in the list and a UTF8String in the certificate"
    yield "a list whose issuer is spelled otherwise", (told in text, how in text), (True, True)


def signed_data(v, root):
    """A list of PKCS #7 that can't be read is in the first line, and a certificate is a warning."""
    leaf, issuer, item = case_of(v, "signed data", root).bundle
    v.shop.openssl("crl2pkcs7", "-in", item.file, "-certfile", issuer.file, "-outform", "DER", "-out", "seven.p7c")
    whole, words = v.octets("seven.p7c"), [leaf.file, "seven.p7c", issuer.file, "--anchors", root.file, "--at", AT]
    # (what is signed is a SET, so that neither has its shape)
    no_list, no_certificate = (whole.replace(one.octets, one.octets[:4] + b"\x31" + one.octets[5:]) for one in (item, issuer))
    said = "of the SignedData: neither certificate nor revocation list"
    v.shop.keep("seven.p7c", no_list)
    status, found, errors = v.json(*words)
    known = f"since whether a certificate of the path is revoked isn't known, as a list can't be read: seven.p7c octet 0: revocation list 0 {said}"
    yield "a list of SignedData that can't be read", (status, known in found[0]["headline"], len(found[0]["doubts"]), errors), (1, True, 1, [])
    v.shop.keep("seven.p7c", no_certificate)
    status, found, errors = v.json(*words, "--ignore-unused-lists")
    lines = [one for one in found[0]["warnings"] if one == f"seven.p7c octet 0: certificate 0 {said}; left out"]
    yield "a certificate of SignedData that can't be read", (status, len(lines), found[0]["doubts"], errors), (1, 1, [], [])
    remedy = "it would be the target: mend it, or name another one with --target"
    yield "a target of SignedData that can't be read", v.run("seven.p7c", issuer.file, *words[3:]), (
        3, "", ["verify: seven.p7c: it holds revocation lists and no certificate, so no target"])
    v.shop.keep("seven.p7c", no_certificate + leaf.octets)
    yield "a target after SignedData that can't be read", v.run("seven.p7c", issuer.file, *words[3:]), (
        4, "", [f"verify: seven.p7c octet 0: certificate 0 {said}; {remedy}"])


def names(v, root):
    """Hostile names are text, in all forms."""
    made = Chain(v.shop, "hostile")
    for number, subject in enumerate(NAMES):
        issuer = made.certificate(subject, "p256", root, (AUTHORITY, SIGNER, ISSUER_ID), **LONG)
        leaf = made.certificate(subject, "p521", issuer, OF_LEAF, **LONG)
        words = [leaf.file, issuer.file, "--anchors", root.file]
        outputs = [v.run(*words, *form)[1] for form in ((), ("--json",), ("--dot",), ("--html", "-"))]
        seen = [entry for entry in FORBIDDEN for text in (outputs[0], *outputs[2:]) if entry in text and (entry != "<img" or text is outputs[3])]
        status = json.loads(outputs[1])["status"]
        yield f"hostile name {number}", (status, seen, outputs[1].isascii()), (0, [], True)


FORGED = "valid path at 2026-06-01T00:00:00Z: CN=a to CN=b"
FORGERIES = (f"/CN=x\n{FORGED}", f"/CN=x\r\n\x1b[2K{FORGED}", f"/CN={FORGED}", f"/CN=x\u2028{FORGED}", f"/CN=x\x0b{FORGED}\x85",
             "/CN=www.example.org, O=Example, C=CZ")
# Ends of lines by any reckoning (those of str.splitlines).
LINE_ENDS = re.compile("[\n\r\x0b\x0c\x1c-\x1e\x85\u2028\u2029]")


def forgeries(v, root):
    """No subject forges a line or a verdict: each line of the output is one of ours, and the first one begins with the true verdict."""
    made = Chain(v.shop, "forged")
    for number, subject in enumerate(FORGERIES):
        issuer = made.certificate("/CN=Between", "p256", root, OF_AUTHORITY, **LONG)
        leaf = made.certificate(subject, "p521", issuer, OF_LEAF, **LONG)
        v.shop.keep(f"forged {number}\n{FORGED}.pem", v.octets(leaf.file))
        for words, verdict in (([leaf.file], "no valid path at "), ([leaf.file, issuer.file], "valid path at "),
                               ([f"forged {number}\n{FORGED}.pem"], "no valid path at ")):
            outputs = [v.run(*words, "--anchors", root.file, "--at", AT, *form)[1] for form in ((), ("--json",), ("--dot",), ("--html", "-"))]
            lines = LINE_ENDS.split(outputs[0])
            yield f"forged subject {number}: {words}: the first line", lines[0].startswith(f"{verdict}2026-06-01T00:00:00Z: CN="), True
            yield f"forged subject {number}: {words}: a forged line", [line for line in lines[1:] if line.startswith("valid path at ")], []
            yield f"forged subject {number}: {words}: forms", [bool(LINE_ENDS.search(output.replace("\n", ""))) for output in outputs], [False] * 4
            yield f"forged subject {number}: {words}: --json", (outputs[1].count("\n"), json.loads(outputs[1])["headline"]), (1, lines[0])
    yield "the commas of a value", "CN=www.example.org\\, O=Example\\, C=CZ" in outputs[0], True


def containers(v, root):
    """Lists in PKCS #7, PKCS #7 among other blocks, files and anchors twice, rubbish behind items."""
    leaf, issuer, item = case_of(v, "containers", root).bundle
    v.shop.openssl("crl2pkcs7", "-in", item.file, "-certfile", issuer.file, "-out", "issuer.p7b")
    seven = v.octets("issuer.p7b")
    v.shop.keep("mixed.pem", v.octets(leaf.file) + seven.replace(b"PKCS7", b"CMS") + v.octets(root.file))
    v.shop.keep("cut.p7b", seven.partition(b"-----END")[0])
    v.shop.keep("rubbish.der", leaf.octets + b"rubbish")
    anchors = ["--anchors", root.file, "--at", AT]
    for words in ([leaf.file, "issuer.p7b"], ["mixed.pem"]):
        _, found, told = v.json(*words, *anchors)
        yield f"a list in PKCS #7, {words[-1]}", ([one["reason"] for one in found[0]["reasons"]], told), (["revoked by list 2"], [])
    v.shop.keep("anchors-with-list.pem", v.octets(root.file) + v.octets(item.file))
    _, found, _ = v.json(leaf.file, issuer.file, "--anchors", "anchors-with-list.pem", "--at", AT)
    yield "a list among anchors", [one["reason"] for one in found[0]["reasons"]], ["revoked by list 2"]
    _, found, _ = v.json(leaf.file, issuer.file, leaf.file, issuer.file, *anchors, *anchors[:2])
    yield "files twice", ([one["place"] for one in found[0]["path"]], found[0]["anchors"]), (["item 0", "item 1"], f"1 certificate of {root.file}")
    _, found, _ = v.json(root.file, *anchors)
    yield "the anchor itself", ([one["place"] for one in found[0]["path"]], found[0]["status"]), (["item 0"], 0)
    _, found, _ = v.json("rubbish.der", issuer.file, *anchors)
    yield "rubbish behind", (found[0]["status"], ["7 octets to the file's end" in one for one in found[0]["warnings"]]), (0, [True])
    yield "a PKCS #7 file that is cut", v.run("cut.p7b", *anchors), (4, "", ["verify: cut.p7b line 1 PKCS7: its END is missing; mend the file, or leave it out"])


def words_of(v, root):
    """Faults are one line that names what is wrong."""
    leaf, issuer, item = case_of(v, "wrong words", root).bundle
    v.shop.keep("nothing", b"")
    v.shop.keep("notes", b"Remember the milk.\n")
    os.makedirs(os.path.join(v.shop.room, "a folder"), exist_ok=True)
    anchors = ["--anchors", root.file]
    key = v.shop.key("p256")
    for words, status, said in (
            ([leaf.file, "--anchor", root.file], 2, "there is no option --anchor, the most similar one is --anchors"),
            ([leaf.file, *anchors, "--at", "2026-02-30"], 2, "--at 2026-02-30: no moment; write now"),
            ([leaf.file, *anchors, "--html", leaf.file], 2, f"--html {leaf.file}: this file is read"),
            (["nothing", *anchors], 4, "nothing: the file is empty"), ([leaf.file, "notes", *anchors], 4, "notes: the file is neither PEM nor DER"),
            (["a folder", *anchors], 4, "cannot read a folder: it is a folder"), (["", *anchors], 4, "cannot read '': no such file"),
            ([leaf.file, "--anchors", "notes"], 4, "notes: the file is neither PEM nor DER"),
            ([leaf.file, "--anchors", item.file], 4, f"{item.file}: holds no certificate, so no anchor"),
            ([leaf.file, "--anchors", "a folder"], 4, "a folder: its files hold no certificate"),
            (["/dev/zero", *anchors], 4, "/dev/zero: it has more than 268435456 octets"),
            ([key, *anchors], 3, f"{key}: it holds PRIVATE KEY and no certificate, so no target"),
            ([item.file, *anchors], 3, f"{item.file}: it holds revocation lists and no certificate, so no target"),
            ([leaf.file, *anchors, "--target", "abcd"], 4, "--target abcd: no such file, and neither a position")):
        found, text, told = v.run(*words)
        yield f"words {' '.join(words)[:60]}", (found, text, len(told), said in "".join(told)), (status, "", 1, True)
    for word, said in (("2", f"no target: item 2 ({item.file}): a revocation list\n"), ("3", "no target: item 3: there is none; the files hold 3 items\n")):
        status, text, _ = v.run(leaf.file, issuer.file, item.file, *anchors, "--target", word)
        yield f"the target {word}", (status, text.startswith(said)), (3, True)


def remains(v, root):
    """Nothing is left in the caller's folder or in that of temporary files; an interrupt ends a run."""
    leaf, issuer, item = case_of(v, "remains", root, next_update=refusals.PAST_UPDATE).bundle
    command = [sys.executable, os.path.join(repo.TOP, "verify")]
    with tempfile.TemporaryDirectory() as folder, tempfile.TemporaryDirectory() as own:
        files = [os.path.join(v.shop.room, one.file) for one in (leaf, issuer, item)]
        words = [*files, "--anchors", os.path.join(v.shop.room, root.file), "--at", AT]
        environment = {**os.environ, "TMPDIR": folder}
        status = subprocess.run([*command, *words], cwd=own, env=environment, stdout=subprocess.DEVNULL).returncode
        yield "what remains", (status, os.listdir(folder), os.listdir(own)), (1, [], [])
        with subprocess.Popen([*INTERRUPTIBLE, *command, "-", *words], cwd=own, env=environment, stdin=subprocess.PIPE, stderr=subprocess.PIPE) as child:
            # (more than a pipe holds, so that the run reads once this is written)
            child.stdin.write(b"\n" * MORE_THAN_A_PIPE)
            child.send_signal(signal.SIGINT)
            said = child.communicate()[1]
        yield "an interrupt", (child.returncode, said, os.listdir(folder)), (-signal.SIGINT, b"", [])


def jobs(v, root):
    """All of these, to be run side by side."""
    return [lambda crl=value: [*crl(v, root)] for value in (targets, lists, signed_data, names, forgeries, containers, words_of, remains)]
