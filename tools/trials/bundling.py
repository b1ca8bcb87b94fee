"""What `certpath bundle` makes of files that are written out here or are in samples/: the octets, what
is said of what is left out, and the status; and of files that are made to be slow, or to leak."""
import base64
import os
import re
import subprocess
import sys
import tempfile
import threading

from program import repo
from trials.count import Trial, size
from trials.running import spent

CERTIFICATE = "CERTIFICATE"
NO_LINE = "that is no line of its own (are newlines missing?)"
BOUNDARY = f"a BEGIN or an END {NO_LINE}"
NO_ITEM = "neither certificate nor revocation list"
SECONDS = 600
# The seconds of ./verify count for all of the process in which its modules run.
MANY_SECONDS = 1 << 30
# A file of 10^6 lines takes so long at most, on a machine that does other things too.
SECONDS_OF_LINES = 20
# What a run takes beside the file and what it writes: of the longest block three octets for four and
# at most so many, so many for each row, and so many for the program itself.
KEPT, ROW, ITSELF = (1 << 24) + 128, 180, 6_000_000
# Runs a program, whose output goes to a file, and prints its peak memory in KiB. (A process of its
# own: what a large one that starts the program has would count.)
PEAK = """import resource, subprocess, sys
ran = subprocess.run(sys.argv[2:], stdout=open(sys.argv[1], "wb"), stderr=subprocess.DEVNULL)
print(resource.getrusage(resource.RUSAGE_CHILDREN).ru_maxrss)
sys.exit(ran.returncode)"""


def sample(name):
    with open(os.path.join(repo.TOP, "samples", f"{name}.der"), "rb") as file:
        return file.read()


def pem(octets, label=CERTIFICATE, end=b"\n"):
    """A PEM block, with lines that end so."""
    digits = base64.b64encode(octets)
    lines = [b"-----BEGIN %s-----" % label.encode(), *(digits[at:at + 64] for at in range(0, len(digits), 64)), b"-----END %s-----" % label.encode()]
    return b"".join(row + end for row in lines)


LEAF, INTERMEDIATE, ROOT, LIST = map(sample, ("leaf", "intermediate", "root", "list"))
# So many lines a block of the leaf has.
LINES = pem(LEAF).count(b"\n")
# A request for a certificate (RFC 2986): signed as one, and none.
REQUEST = bytes.fromhex("3010 3009 020100 3000 3000 a000 3000 030100")
# A private key (RFC 5208), whose octets may never come out.
KEY = bytes.fromhex("3010 020100 3005 06032b6570 0404 deadbeef")
# The leaf with a length of one octet more than need be.
LONG = LEAF[:1] + b"\x83\x00" + LEAF[2:]
BROKEN = [pem(KEY, "PRIVATE KEY"), pem(KEY), pem(REQUEST, "CERTIFICATE REQUEST"), pem(REQUEST), pem(LONG), pem(LEAF[:-1]), pem(b""),
          pem(LEAF).replace(b"MII", b"M*I", 1), pem(LEAF).replace(b"-----\n", b"-----\nProc-Type: 4,ENCRYPTED\n\n", 1),
          pem(LEAF).replace(b"END C", b"END X509 C"), pem(LEAF).split(b"-----END")[0], pem(ROOT + b"\0")]
# The line at which each of them begins, and the one after the last.
AT = [1]
for block in BROKEN:
    AT.append(AT[-1] + block.count(b"\n") + (not block.endswith(b"\n")))


def element(first, content):
    """An element in DER."""
    size = len(content)
    digits = size.to_bytes((size.bit_length() + 7) // 8, "big")
    return bytes([first]) + (bytes([size]) if size < 128 else bytes([128 + len(digits)]) + digits) + content


def signed_data(certificates, lists):
    """A ContentInfo with SignedData that has these sets, and no signers (RFC 5652, 5.1)."""
    inner = b"\x02\x01\x01\x31\x00" + element(0x30, bytes.fromhex("06092a864886f70d010701"))
    sets = element(0xA0, b"".join(certificates)) + element(0xA1, b"".join(lists))
    return element(0x30, bytes.fromhex("06092a864886f70d010702") + element(0xA0, element(0x30, inner + sets + b"\x31\x00")))


SEVEN = signed_data([LEAF, REQUEST, ROOT], [LIST])
SUMMARY = "bundle: {} ({}, {}), {} left out"


def summary(certificates, lists, left_out):
    """The last line."""
    def counted(number, word):
        return f"{number} {word}" if number == 1 else f"{number} {word}s"
    return SUMMARY.format(counted(certificates + lists, "item"), counted(certificates, "certificate"), counted(lists, "list"), left_out)


def left(place, why):
    return f"{place}: {why}; left out"


# Each case: files by their names, the words, the octets wanted, the lines on standard error, the status.
CASES = (
    ({}, ["leaf", "intermediate", "root", "list"], sample("bundle"), [summary(3, 1, 0)], 0),
    ({"two.pem": pem(LEAF) + b"subject=someone\n" + pem(LIST, "X509 CRL"), "junk": b"junk\n"}, ["two.pem", "root", "junk"], LEAF + LIST + ROOT,
     [left("junk", "the file is neither PEM nor DER"), summary(2, 1, 1)], 1),
    ({"mark": b"\xef\xbb\xbf" + pem(LEAF, end=b"\r\n") + pem(ROOT, "X509 CERTIFICATE", b"\r").rstrip(),
      "trusted": pem(LEAF + b"\x30\x02\x0c\x00", "TRUSTED CERTIFICATE"), "old": pem(ROOT, "X.509 CERTIFICATE")}, ["mark", "trusted", "old"],
     LEAF + ROOT + LEAF + ROOT, [summary(4, 0, 0)], 0),
    ({"broken": b"".join(BROKEN[:10]) + BROKEN[10] + BROKEN[11]}, ["broken"], ROOT,
     [left(f"broken line {AT[0]} (PRIVATE KEY)", "the block holds neither certificate nor revocation list"),
      left(f"broken line {AT[1]} (CERTIFICATE)", NO_ITEM),
      left(f"broken line {AT[2]} (CERTIFICATE REQUEST)", "the block holds neither certificate nor revocation list"),
      left(f"broken line {AT[3]} (CERTIFICATE)", NO_ITEM),
      left(f"broken line {AT[4]} (CERTIFICATE)", "its length is not in the shortest form (BER)"),
      left(f"broken line {AT[5]} (CERTIFICATE)", "1 octet of it missing"),
      left(f"broken line {AT[6]} (CERTIFICATE)", "there is nothing in it"),
      left(f"broken line {AT[7]} (CERTIFICATE)", "not base64"),
      left(f"broken line {AT[8]} (CERTIFICATE)", "header lines within"),
      left(f"broken line {AT[9]} (CERTIFICATE)", "its END is missing"),
      left(f"broken line {AT[10] - 1}", "an END that ends no block"),
      left(f"broken line {AT[10]} (CERTIFICATE)", "its END is missing"),
      left(f"broken line {AT[11]} (CERTIFICATE)", "1 octet after the item"), summary(1, 0, 13)], 1),
    ({"lines": b"# -----BEGIN CERTIFICATE-----\n-----END CERTIFICATE-----\n" + LIST + b"\n" + pem(LEAF)}, ["lines"], LEAF,
     [left("lines line 1", BOUNDARY), left("lines line 2", "an END that ends no block"),
      left("lines line 3", "octets around the blocks that are no text"), summary(1, 0, 3)], 1),
    ({"flat": pem(LEAF).replace(b"\n", b" ") + b"\n" + pem(KEY, "PRIVATE KEY", b"")}, ["flat", "leaf"], LEAF,
     [left("flat line 1", BOUNDARY), left("flat line 2", BOUNDARY), summary(1, 0, 2)], 1),
    ({"labels": b"".join([pem(LEAF, "A" * 64), pem(LEAF, "A" * 65), pem(LEAF, "A--B"), pem(LEAF, " A"), pem(LEAF, "A B-C"), pem(LEAF, ""), pem(ROOT)])},
     ["labels"], ROOT,
     [left("labels line 1", "the label isn't known"),
      *(left(f"labels line {line}", BOUNDARY) for at in (1, 2, 3) for line in (at * LINES + 1, (at + 1) * LINES)),
      left(f"labels line {4 * LINES + 1}", "the label isn't known"), left(f"labels line {5 * LINES + 1}", "the label isn't known"), summary(1, 0, 9)], 1),
    ({"ends": pem(LEAF).replace(b"END CERTIFICATE", b"END %s" % (b"A" * 64)) + b"-----END " + b"A" * 64 + b"-----\n" + pem(ROOT).replace(b"-----END", b"----END")},
     ["ends", "leaf"], LEAF,
     [left("ends line 1 (CERTIFICATE)", "its END is missing"), left(f"ends line {LINES}", "an END that ends no block"),
      left(f"ends line {LINES + 1}", "an END that ends no block"), left(f"ends line {LINES + 2} (CERTIFICATE)", "its END is missing"), summary(1, 0, 4)], 1),
    ({"random.der": bytes.fromhex("3084 c1dead00 0102"), "odd.pem": b"-----BEGINCERTIFICATE-----\n"}, ["random.der", "odd.pem"], b"",
     [left("random.der octet 0", "its length is above 16777216, 8 octets to the end"), left("odd.pem line 1", BOUNDARY), summary(0, 0, 2)], 1),
    ({"some": REQUEST + LEAF + LONG + LIST + b"\x30\x80\0\0", "tail": ROOT + b"\n", "cut": LEAF[:-1], "none": b""},
     ["some", "tail", "cut", "none"], LEAF + LIST + ROOT,
     [left("some octet 0", NO_ITEM), left("some octet 902", "its length is not in the shortest form (BER)"),
      left("some octet 2220", "its length is indefinite (BER) or cut, 4 octets to the end"), left("tail octet 813", f"{NO_ITEM}, 1 octet to the end"),
      left("cut octet 0", "1 octet of it missing, 883 octets to the end"), left("none", "the file is empty"), summary(2, 1, 6)], 1),
    ({"seven.p7b": SEVEN, "seven.pem": pem(SEVEN, "PKCS7"), "cms.pem": pem(signed_data([LEAF], []), "CMS"), "bare.pem": pem(b"\x30\x00", "PKCS7"),
      "two.der": ROOT + SEVEN}, ["seven.p7b", "seven.pem", "cms.pem", "bare.pem", "two.der"],
     LEAF + ROOT + LIST + LEAF + ROOT + LIST + LEAF + ROOT + LEAF + ROOT + LIST,
     [left("seven.p7b octet 0 certificate 1", NO_ITEM), left("seven.pem line 1 (PKCS7) certificate 1", NO_ITEM),
      left("bare.pem line 1 (PKCS7)", "no SignedData in DER"), left("two.der octet 813 certificate 1", NO_ITEM), summary(8, 3, 4)], 1),
    ({"wide": pem(LEAF).decode().encode("utf-16"), "low": pem(LEAF).decode().encode("utf-16-le"), "high": pem(LEAF).decode().encode("utf-16-be")},
     ["wide", "low", "high"], b"", [*(left(entry, "the file is a text in UTF-16") for entry in ("wide", "low", "high")), summary(0, 0, 3)], 1),
    ({"zeros": b"\0" * 100 + b"\n" + pem(LEAF), "within": pem(LEAF).replace(b"MII", b"M\0I", 1) + pem(ROOT)}, ["zeros", "within"], LEAF + ROOT,
     [left("zeros line 1", "octets around the blocks that are no text"), left("within line 1 (CERTIFICATE)", "not base64"), summary(2, 0, 2)], 1),
    ({"escape\x1b[2J\n\u202e\u00e4": b"junk\n"}, ["escape\x1b[2J\n\u202e\u00e4", "leaf"], LEAF,
     [left("escape\\u{1b}[2J\\u{a}\\u{202e}\u00e4", "the file is neither PEM nor DER"), summary(1, 0, 1)], 1),
    ({}, ["leaf", "missing"], b"", ["cannot read missing"], 4),
    ({}, ["leaf", ""], b"", ["cannot read "], 4),
    ({}, ["leaf", "."], b"", ["cannot read ."], 4),
)


def as_bundled(left):
    """What ./verify leaves out, as `certpath bundle` says it: a label in brackets, and of SignedData a
    place."""
    where, why = left.where, left.why
    if left.label:
        where = f"{where.removesuffix(left.label)}({left.label})"
    member, of, rest = why.partition(" of the SignedData: ")
    if of:
        where, why = f"{where} {member.replace('revocation list', 'list')}", rest
    return f"{where}: {re.sub('the (file|set).s end', 'the end', why)}; left out"


def kept(room, files):
    """Keeps files in a folder, the samples beside them."""
    for name, held in {"leaf": LEAF, "intermediate": INTERMEDIATE, "root": ROOT, "list": LIST, **files}.items():
        with open(os.path.join(room, name), "wb") as file:
            file.write(held)


class Bundling(Trial):
    def ran(self, words, room, octets=b"", output=subprocess.PIPE):
        """A run's output, the lines that it said, and its status."""
        text = subprocess.run([self.program(), "bundle", *words], cwd=room, input=octets, stdout=output, stderr=subprocess.PIPE, timeout=SECONDS)
        return text.stdout, text.stderr.decode().splitlines(), text.returncode

    def test_cases(self):
        for files, words, octets, lines, status in CASES:
            with tempfile.TemporaryDirectory(prefix="bundling-") as room:
                kept(room, files)
                self.same(f"bundle {words}", self.ran(words, room), (octets, lines, status))

    def test_words(self):
        with tempfile.TemporaryDirectory(prefix="bundling-") as room:
            kept(room, {})
            self.same("standard input", self.ran(["leaf", "-"], room, pem(ROOT)), (LEAF + ROOT, [summary(2, 0, 0)], 0))
            self.same("standard input that is left out", self.ran(["-"], room, b"junk"), (b"", [left("-", "the file is neither PEM nor DER"), summary(0, 0, 1)], 1))
            for words in ([], ["--no-option"]):
                octets, lines, status = self.ran(words, room)
                self.same(f"bundle {words}", (octets, lines[0][:6], status), (b"", "error:", 2))
            with open("/dev/full", "wb") as full:
                self.same("a full disk", self.ran(["leaf"], room, output=full), (None, ["cannot write"], 7))
            many = [name for number in range(1500) for name in ("leaf", "list")]
            self.same("3000 files", self.ran(many, room), ((LEAF + LIST) * 1500, [summary(1500, 1500, 0)], 0))

    def test_as_by_verify(self):
        """./verify takes the same items by the library, and says the same of what is left out."""
        from trials import pem_peers
        from verify import files, waiting
        waiting.BUDGET.given = MANY_SECONDS
        odd = [value for held, *_ in CASES for value in held.values()]
        with tempfile.TemporaryDirectory(prefix="bundling-") as room:
            for octets in (*odd, *pem_peers.FILES.values()):
                kept(room, {"file": octets})
                bundle, said, status = self.ran(["file"], room)
                found = files.read("file", octets)
                its = b"".join(item.octets for item in found.items), [*map(as_bundled, found.left_out)]
                self.same(f"{octets[:80]}", its, (bundle, said[:-1]))
                lists = sum(item.is_list for item in found.items)
                last = summary(len(found.items) - lists, lists, len(found.left_out))
                self.same(f"lists of {octets[:80]}", (last, bool(found.left_out)), (said[-1], status == 1))

    def test_large(self):
        """Files of strangers: what is said of them, and that it takes seconds of a processor."""
        lines, width = size(1_000_000, 50_000), size(64 << 20, 4 << 20)
        begin, end = b"-----BEGIN CERTIFICATE-----\n", b"-----END CERTIFICATE-----\n"
        no_end = left("file line {} (CERTIFICATE)", "its END is missing")
        with tempfile.TemporaryDirectory(prefix="bundling-") as room:
            for title, octets, count, first in (
                    ("lines with a BEGIN", begin * lines, lines, no_end.format(1)), ("lines with an END", end * lines, lines + 1, left("file line 1", "")),
                    ("one line", b"A" * width, 1, left("file", "the file is neither PEM nor DER")),
                    ("one line in a block", begin + b"A" * width + b"\n" + end, 1, left("file line 1 (CERTIFICATE)", NO_ITEM)),
                    ("hyphens", begin + b"-" * width + b"\n", 1, no_end.format(1)),
                    ("a label", b"-----BEGIN " + b"A" * lines + b"-----\n" + pem(LEAF), 1, left("file line 1", BOUNDARY)),
                    ("no END at the end", pem(LEAF) + begin + b"MIIB" * lines, 1, no_end.format(LINES + 1)),
                    ("NULs", b"\0" * width + b"\n" + pem(LEAF), 1, left("file line 1", "octets around the blocks that are no text"))):
                kept(room, {"file": octets})
                begun = spent()
                _, said, status = self.ran(["file"], room)
                took = spent() - begun
                self.row(took < SECONDS_OF_LINES, f"{title}: {took:.1f} s of a processor")
                if title == "lines with an END":
                    count, first = 1, left("file", "the file is neither PEM nor DER")
                self.same(title, (status, len(said) - 1, said[0]), (1, count, first))

    def beside(self, room, octets):
        """What a run on a file takes in memory beside it and what is written, and its status."""
        kept(room, {"file": octets})
        words = [sys.executable, "-ISc", PEAK, "out", self.program(), "bundle", "file"]
        ran = subprocess.run(words, cwd=room, stdin=subprocess.DEVNULL, stdout=subprocess.PIPE,
                             timeout=SECONDS)
        written = os.path.getsize(os.path.join(room, "out"))
        return int(ran.stdout) * 1024 - len(octets) - written, ran.returncode

    def test_memory(self):
        """Beside a file of 100 MB and what is written a run takes a third of the file at most."""
        width = size(100_000_000, 8_000_000)
        long, two, line = element(0x30, bytes(width * 3 // 4 - 5)), LEAF + ROOT, b"a line\n"
        blocks, items, lines = (width // len(value) for value in (pem(LEAF), two, line))
        files = (("a block that is no item", pem(long), len(long), 1, 1),
                 ("octets after an item", pem(LEAF + long), len(long), 2, 1),
                 ("no base64", pem(long)[:-40] + b"=" + pem(long)[-40:], len(long), 1, 1),
                 ("blocks", pem(LEAF) * blocks, len(LEAF), blocks, 0),
                 ("text", line * lines + pem(LEAF), len(LEAF), 1, 0),
                 ("DER", two * items, 0, 2 * items, 0))
        with tempfile.TemporaryDirectory(prefix="bundling-") as room:
            for title, octets, longest, rows, status in files:
                taken, ended = self.beside(room, octets)
                most = min(longest, KEPT) + rows * ROW + ITSELF
                self.row(taken <= most, f"{title}: {taken} beside, {most} are the most")
                is_small = width < 100_000_000
                self.row(is_small or taken * 3 <= len(octets), f"{title}: {taken} of {len(octets)}")
                self.same(f"{title}, the status", ended, status)

    def test_growing(self):
        """A file that changes while it is read: what was read is taken, and the run ends."""
        with tempfile.TemporaryDirectory(prefix="bundling-") as room:
            kept(room, {"growing": pem(LEAF) * 20_000})
            is_over = threading.Event()

            def grow():
                with open(os.path.join(room, "growing"), "r+b") as file:
                    while not is_over.is_set():
                        file.seek(0)
                        file.write(pem(ROOT))
                        file.flush()
                        file.truncate(len(pem(LEAF)) * 10_000)
            changing = threading.Thread(target=grow)
            changing.start()
            octets, said, status = self.ran(["growing"], room)
            is_over.set()
            changing.join()
            self.row(status in (0, 1) and said[-1].startswith("bundle: ") and len(octets) > 0, f"a file that changes: {status}, {said[-1:]}")
