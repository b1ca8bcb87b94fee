#!/usr/bin/env python3
"""Runs ./verify on a file of many certificates, as PEM and as DER, for one target and for all, and prints time and memory of each
run: `python3 tools/trials/verifying_large.py 100000`. tools/trials/verifying.py does so with fewer, and looks at the progress on a terminal."""
import base64
import ctypes
import json
import os
import pty
import re
import subprocess
import sys
import tempfile
import time
from ctypes import byref, c_char_p, c_int, c_size_t, c_void_p

sys.dont_write_bytecode = True
sys.path.insert(0, os.path.dirname(os.path.dirname(os.path.abspath(__file__))))
from pki import package
from program import repo
from trials.chains import AUTHORITY, OWN_ID, SIGNER, Chain
from trials.elements import parts_of
from trials.vouching_pki import Workshop
from certpath import libcrypto

FEW, AT = 6_000, "2026-06-01"
# One of so many has another one's signature; the list revokes the first of these serial numbers, and as many further ones.
WRONG_EACH, FIRST, REVOKED = 500, 0x1122334400000000, 3
COMMANDS = {
    "PEM, one target": ("all.pem",), "DER, one target": ("all.der",),
    "PEM, --all --json": ("all.pem", "--all", "--json"), "DER, --all": ("all.der", "--all"),
}
# In the gate these are run, and another one on a terminal.
SHORT = ("DER, one target", "PEM, --all --json")
ED25519, SIGNATURE = 1087, 64
FUNCTIONS = {
    "EVP_PKEY_new_raw_private_key": (c_void_p, [c_int, c_void_p, c_char_p, c_size_t]),
    "EVP_MD_CTX_new": (c_void_p, []),
    "EVP_MD_CTX_free": (None, [c_void_p]),
    "EVP_DigestSignInit": (c_int, [c_void_p, c_void_p, c_void_p, c_void_p, c_void_p]),
    "EVP_DigestSign": (c_int, [c_void_p, c_void_p, c_void_p, c_char_p, c_size_t]),
}
CLEAR = "\r\x1b[K"
PROGRESS = re.compile(r"\r\x1b\[Kverifying signatures: \d+ of (\d+), \d+ s")


class Signer:
    """Signs by an Ed25519 key, in OpenSSL's library: one signature by its command takes a hundred times as long."""

    def __init__(self, secret):
        self.library = libcrypto.loaded()
        for function, (answer, takes) in FUNCTIONS.items():
            called = getattr(self.library, function)
            called.restype, called.argtypes = answer, takes
        self.key = self.library.EVP_PKEY_new_raw_private_key(ED25519, None, secret, len(secret))

    def sign(self, octets):
        context, made, length = self.library.EVP_MD_CTX_new(), ctypes.create_string_buffer(SIGNATURE), c_size_t(SIGNATURE)
        self.library.EVP_DigestSignInit(context, None, None, None, self.key)
        is_signed = self.library.EVP_DigestSign(context, made, byref(length), octets, len(octets))
        self.library.EVP_MD_CTX_free(context)
        if is_signed != 1:
            raise RuntimeError("OpenSSL doesn't sign")
        return made.raw


def pem(octets):
    text = base64.b64encode(octets)
    rows = b"\n".join(text[at:at + 64] for at in range(0, len(text), 64))
    return b"-----BEGIN CERTIFICATE-----\n" + rows + b"\n-----END CERTIFICATE-----\n"


def certificates(template, signer, count):
    """Certificates that differ in their serial numbers, each signed; of some the signature is the one of the certificate before."""
    octets = template.octets
    signed = parts_of(parts_of(octets)[0].content)[0].octets
    begin, serial = octets.index(signed), signed.index(FIRST.to_bytes(8, "big"))
    head, tail = octets[:begin], octets[begin + len(signed):-SIGNATURE]
    before = None
    for number in range(count):
        own = signed[:serial] + (FIRST + number).to_bytes(8, "big") + signed[serial + 8:]
        made = signer.sign(own)
        yield head + own + tail + (before if is_wrong(number) else made)
        before = made


def is_wrong(number):
    return number % WRONG_EACH == WRONG_EACH - 1


def made(shop, count):
    """Makes the files: a root, many certificates, and the root's list."""
    chain = Chain(shop, "large")
    dates = {"begin": "20200101000000Z", "end": "20490101000000Z", "digest": None}
    root = chain.certificate("/CN=Root", "ed25519", extensions=(AUTHORITY, SIGNER, OWN_ID), **dates)
    listed = chain.list(root, range(FIRST, FIRST + REVOKED), digest=None)
    chain.serial = FIRST - 1
    template = chain.certificate("/CN=leaf", "p256", root, **dates)
    secret = shop.openssl("pkey", "-in", shop.key("ed25519"), "-outform", "DER")[-32:]
    found = [*certificates(template, Signer(secret), count)]
    shop.keep("all.der", b"".join(found))
    shop.keep("all.pem", b"".join(map(pem, found)))
    return ["--anchors", root.file, "--lists", listed.file, "--at", AT]


def run(shop, words):
    """A run's status, output, seconds, and megabytes of memory."""
    with tempfile.TemporaryFile(dir=shop.room) as out:
        begun = time.monotonic()
        child = subprocess.Popen([sys.executable, os.path.join(repo.TOP, "verify"), *words], cwd=shop.room, stdout=out, stderr=subprocess.STDOUT)
        _, status, used = os.wait4(child.pid, 0)
        child.returncode = os.waitstatus_to_exitcode(status)
        out.seek(0)
        return child.returncode, out.read().decode(), time.monotonic() - begun, used.ru_utime + used.ru_stime, used.ru_maxrss >> 10


def outcome(number):
    """What is wanted of a certificate: no path where another one's signature stands in it, or the list revokes it."""
    return "none" if is_wrong(number) or number < REVOKED else "path"


def trials(shop, words, count, titles=SHORT, is_told=False):
    """The runs and what is wanted of them."""
    for title in titles:
        status, text, seconds, processor, memory = run(shop, [*COMMANDS[title], *words, *(["--target", str(count - 2)] if "one" in title else [])])
        if is_told:
            print(f"{count} certificates, {title}: {seconds:.1f} s, {processor:.1f} s of one processor, {memory} MB", flush=True)
        if title.endswith("--json"):
            rows = [*map(json.loads, text.splitlines())]
            yield f"{title}: status", status, 1
            yield title, [entry["outcome"] for entry in rows], [*map(outcome, range(count))]
            asked = {value["reason"] for row in rows for value in row["reasons"] or []}
            yield f"{title}: reasons", asked, {"no voucher", f"revoked by list {count}"}
        elif "--all" in title:
            lines = text.split("\n")
            yield title, (status, sum(line.startswith("valid path at ") for line in lines)), (1, sum(outcome(number) == "path" for number in range(count)))
        else:
            yield title, (status, text.split("\n")[0]), (0, f"valid path at {AT}T00:00:00Z: CN=leaf to CN=Root")


def progress(shop, words, count):
    """A terminal sees how far a run is that takes longer than a second, and nothing of it at the end; no other place sees it."""
    ours, theirs = pty.openpty()
    command = [sys.executable, os.path.join(repo.TOP, "verify"), "all.der", "--all", "--quiet", *words]
    with subprocess.Popen(command, cwd=shop.room, stdin=subprocess.DEVNULL, stdout=subprocess.PIPE, stderr=theirs) as child:
        os.close(theirs)
        seen = b""
        try:
            while part := os.read(ours, 65_536):
                seen += part
        except OSError:
            # (the other side is closed)
            pass
        printed = child.stdout.read()
    os.close(ours)
    text = seen.decode()
    yield "progress on a terminal", ({*PROGRESS.findall(text)}, text.endswith(CLEAR), printed), ({str(count + 1)}, True, b"")
    yield "no progress elsewhere", run(shop, [*command[2:]])[:2], (1, "")


def main(words):
    count = int(words[0]) if words else FEW
    with tempfile.TemporaryDirectory(prefix="verifying-large-") as room:
        shop = Workshop(room)
        missed = [trial for trial in trials(shop, made(shop, count), count, COMMANDS, True) if trial[1] != trial[2]]
    for title, is_so, should_be in missed:
        print(f"{title}: {is_so!r:.1200}, wanted is {should_be!r:.1200}")
    return 1 if missed else 0


if __name__ == "__main__":
    sys.exit(main(sys.argv[1:]))
