"""Runs the built program `certpath` on a table of command lines, and says of each whether its status and what it wrote are as wanted.

What leads from the words to the files isn't seen by a contract of a library, so it is run: the limit, each status, each message, and what is written where.
"""
import fcntl
import os
import subprocess
import sys
import tempfile

from program import repo
from trials import paths, pieces
from trials.count import Trial, size

SECONDS = 600
BUNDLE = os.path.join(repo.TOP, "samples", "bundle.der")
LINES = repo.read("samples/bundle.frame").encode()
LARGEST = 16_777_216
# More items than one read holds.
MANY = 20_000
# An input that gives octets at each of so many reads is too long. A writer of an octet for each, into a pipe whose reads each give
# what one write put there; and how many octets of memory hold what the writer is ahead.
READS, AHEAD, SET_PIPE_SIZE = 16_777_216, 1 << 20, 1031
WRITER = f"import os\nfor _ in range({READS}): os.write(1, b'\\n')"
# An element of 3 content octets, and the same behind it, cut in its content.
THREE, CUT = bytes.fromhex("3003020105"), bytes.fromhex("30030201")
# Certificates of version 1, and of version 3 with an empty basicConstraints.
FIRST = bytes.fromhex("30433038020101300406022a033000301e170d3235303130313030303030305a170d3236303130313030303030305a30003009"
                      "300406022a03030100300406022a03030100")
THIRD = bytes.fromhex("3057304ca003020102020101300406022a033000301e170d3235303130313030303030305a170d3236303130313030303030305a"
                      "30003009300406022a03030100a30d300b30090603551d1304023000300406022a03030100")
# Streams, the limit that each is framed under, what is printed, a blank between lines, and the status.
STREAMS = [
    ("", LARGEST, "end_clean", 0),
    ("3000", LARGEST, "0_0_2 end_clean", 0),
    ("30003000", LARGEST, "0_0_2 1_2_2 end_clean", 0),
    ("30003100", LARGEST, "0_0_2 end_fault_2", 1),
    ("30030201", LARGEST, "end_cut_0", 1),
    ("308100", LARGEST, "end_fault_0", 1),
    ("30800000", LARGEST, "end_fault_0", 1),
    ("30", 0, "end_cut_0", 1),
    ("3000", 0, "0_0_2 end_clean", 0),
    ("3001", 0, "end_fault_0", 1),
    ("3081", 200, "end_cut_0", 1),
    ("3081c8", 200, "end_cut_0", 1),
    ("3081c9", 200, "end_fault_0", 1),
    ("3082", 200, "end_fault_0", 1),
    ("3085", 0xFFFFFFFF, "end_fault_0", 1),
    ("3084ffffffff", 0xFFFFFFFF, "end_cut_0", 1),
    (FIRST.hex(), 67, "0_0_69 end_clean", 0),
    (FIRST.hex(), 66, "end_fault_0", 1),
    ((FIRST + THIRD).hex(), LARGEST, "0_0_69 1_69_89 end_clean", 0),
]
# Items that are other, and what `frame --why` prints of each after `other K`: they are rows of crates/rows_faults/stdin.
OTHERS = [
    # an empty sequence
    ("3000", "at 2: tbsCertificate: expected a SEQUENCE; found no element"),
    # a sequence of a number
    ("3003020105", "at 2: tbsCertificate: expected a SEQUENCE; found universal primitive 2 of 1"),
    # a negative serial number
    ("30433038020180300406022a033000301e170d3235303130313030303030305a170d3236303130313030303030305a30003009300406022a03030100300406022a03030100",
     "at 4: tbsCertificate.serialNumber: expected an INTEGER that isn't negative; found universal primitive 2 of 1"),
    # a padded serial number
    ("304430390202007f300406022a033000301e170d3235303130313030303030305a170d3236303130313030303030305a30003009300406022a03030100300406022a03030100",
     "at 4: item: expected an INTEGER in the fewest octets, one or more; found universal primitive 2 of 2"),
    # attributes of a set in descending order
    ("3059304e020101300406022a033000301e170d3235303130313030303030305a170d3236303130313030303030305a30163114300806035504030c0162300806035504030c0161"
     "3009300406022a03030100300406022a03030100",
     "at 61: tbsCertificate.subject.AttributeTypeAndValue: expected attributes in ascending order of their octets; found universal constructed 16 of 8"),
    # a next update in 2049 as GeneralizedTime
    ("3049303e300406022a033000170d3235303130313030303030305a180f32303439303130313030303030305a30143012020101170d3235303130313030303030305a"
     "300406022a03030100",
     "at 27: tbsCertList.nextUpdate: expected a UTCTime to 2049, a GeneralizedTime from 2050 on; found universal primitive 24 of 15"),
]


class Some:
    """Text that begins so and isn't only that: the words of `clap`."""

    def __init__(self, front):
        self.front = front

    def __eq__(self, text):
        return text.startswith(self.front) and len(text) > len(self.front) and text.endswith(b"\n")

    def __repr__(self):
        return f"{self.front!r} and more"


def table(room):
    """Rows of words, standard input, and what is wanted: status, standard output, standard error."""
    def made(name, octets):
        with open(os.path.join(room, name), "wb") as file:
            file.write(octets)
        return name

    return [*frame_table(room, made), *fault_table(made), *paths.table(made)]


def frame_table(room, made):
    """Rows of `frame`, and of words that no command takes."""
    samples = [os.path.join(repo.TOP, "samples", f"{it}.der") for it in ("leaf", "intermediate", "root", "list")]
    bundled = subprocess.run([os.path.join(repo.TOP, "bundle"), *samples], stdout=subprocess.PIPE, stderr=subprocess.DEVNULL, timeout=SECONDS).stdout
    longest = bytes([0x30, 0x84]) + LARGEST.to_bytes(4, "big") + bytes(LARGEST)
    above = bytes([0x30, 0x84]) + (LARGEST + 1).to_bytes(4, "big") + bytes(LARGEST + 1)
    empty, three, cut, fault = made("empty", b""), made("three", THREE), made("cut", THREE + CUT), made("fault", THREE + b"\x00\x00")
    pem = made("three.pem", b"-----BEGIN CERTIFICATE-----\nMAMCAQU=\n-----END CERTIFICATE-----\n")
    os.mkdir(os.path.join(room, "folder"))
    streams = [
        (["frame", f"--limit={limit:020}", made(f"stream{k}", bytes.fromhex(octets))], b"", status, lines.replace(" ", "\n").replace("_", " ").encode() + b"\n", b"")
        for k, (octets, limit, lines, status) in enumerate(STREAMS)
    ]
    return [
        *streams,
        (["frame", BUNDLE], b"", 0, LINES, b""),
        (["frame", "--limit", "433", three], b"", 0, b"0 0 5\nend clean\n", b""),
        (["frame", three, "--limit=3"], b"", 0, b"0 0 5\nend clean\n", b""),
        (["frame", three, "--limit", "2"], b"", 1, b"end fault 0\n", b""),
        (["frame", three, "--limit", "0003"], b"", 0, b"0 0 5\nend clean\n", b""),
        (["frame", three, "--limit", "4294967295"], b"", 0, b"0 0 5\nend clean\n", b""),
        (["frame", made("longest", longest)], b"", 0, b"0 0 %d\nend clean\n" % len(longest), b""),
        (["frame", made("above", above)], b"", 1, b"end fault 0\n", b""),
        (["frame", empty], b"", 0, b"end clean\n", b""),
        (["frame", made("many", THREE * MANY)], b"", 0, b"".join(b"%d %d 5\n" % (k, 5 * k) for k in range(MANY)) + b"end clean\n", b""),
        (["frame", cut], b"", 1, b"0 0 5\nend cut 5\n", b""),
        (["frame", fault], b"", 1, b"0 0 5\nend fault 5\n", b""),
        (["frame", pem], b"", 1, b"end fault 0\n", b""),
        (["frame", "/dev/stdin"], bundled, 0, LINES, b""),
        (["frame", "/dev/stdin"], THREE + THREE, 0, b"0 0 5\n1 5 5\nend clean\n", b""),
        (["frame", "none.der"], b"", 4, b"", b"cannot read none.der\n"),
        (["frame", "folder"], b"", 4, b"", b"cannot read folder\n"),
        (["frame", ""], b"", 4, b"", b"cannot read \n"),
        (["frame", three, "--limit", "4294967296"], b"", 2, b"", b"bad number\n"),
        (["frame", three, "--limit", "3x"], b"", 2, b"", b"bad number\n"),
        *((["frame", three, "--limit", it], b"", 2, b"", b"bad number\n") for it in ("", "10000000000", "5_0", " 3", "\u0663")),
        *((["frame", three, f"--limit={it}"], b"", 2, b"", b"bad number\n") for it in ("", "-1")),
        (["frame", "none.der", "--limit", "+3"], b"", 2, b"", b"bad number\n"),
        ([], b"", 2, b"", Some(b"")),
        (["frame"], b"", 2, b"", Some(b"error: ")),
        (["frame", three, three], b"", 2, b"", Some(b"error: ")),
        (["frames", three], b"", 2, b"", Some(b"error: ")),
        (["frame", three, "--limits", "3"], b"", 2, b"", Some(b"error: ")),
        (["frame", three, "--limit", "3", "--limit", "3"], b"", 2, b"", Some(b"error: ")),
        (["frame", three, "--limit"], b"", 2, b"", Some(b"error: ")),
        (["frame", three, "--limit", "-0"], b"", 2, b"", Some(b"error: ")),
        (["frame", b"\xff"], b"", 2, b"", b"error: a word is not UTF-8\n"),
        (["path", three, three, three], b"", 2, b"", Some(b"error: ")),
        (["path", three, three, three, "--target", "x", "--at", "2026-01-01T00:00:00"], b"", 2, b"", b"bad number\n"),
        (["path", three, three, three, "--target", "0", "--at", "2026-02-29T00:00:00"], b"", 2, b"", b"bad moment\n"),
        (["--help"], b"", 2, b"", Some(b"Reads certificates")),
        (["frame", "--help"], b"", 2, b"", Some(b"Prints where the items of a file lie")),
    ]


def fault_table(made):
    """Rows of `frame --why`: of items that are other alone, and between a certificate and one of version 3; of other streams, and of
    words that it doesn't take."""
    items = [FIRST, *(bytes.fromhex(octets) for octets, _ in OTHERS), THIRD]
    lines, offset = [], 0
    for k, item in enumerate(items):
        lines.append(f"{k} {offset} {len(item)}\n")
        lines += [f"other {k} {OTHERS[k - 1][1]}\n"] if 0 < k <= len(OTHERS) else []
        offset += len(item)
    alone = [(["frame", "--why", made(f"other{k}", bytes.fromhex(octets))], b"", 0, f"0 0 {len(octets) // 2}\nother 0 {said}\nend clean\n".encode(), b"")
             for k, (octets, said) in enumerate(OTHERS)]
    one = f"0 0 5\nother 0 {OTHERS[1][1]}\n".encode()
    three, cut = made("why_three", THREE), made("why_cut", THREE + CUT)
    return [
        *alone,
        (["frame", made("mixed", b"".join(items)), "--why"], b"", 0, "".join([*lines, "end clean\n"]).encode(), b""),
        (["frame", "--why", "/dev/stdin"], b"".join(items), 0, "".join([*lines, "end clean\n"]).encode(), b""),
        (["frame", "--why", BUNDLE], b"", 0, LINES, b""),
        (["frame", "--why", made("why_empty", b"")], b"", 0, b"end clean\n", b""),
        (["frame", "--why", cut], b"", 1, one + b"end cut 5\n", b""),
        (["frame", "--why", three, "--limit", "2"], b"", 1, b"end fault 0\n", b""),
        (["frame", "--why", "none.der"], b"", 4, b"", b"cannot read none.der\n"),
        (["frame", "--why", three, "--limit", "x"], b"", 2, b"", b"bad number\n"),
        (["frame", "--why=yes", three], b"", 2, b"", Some(b"error: ")),
        (["path", three, three, three, "--target", "0", "--at", "2026-01-01T00:00:00", "--why"], b"", 2, b"", Some(b"error: ")),
    ]


def octet_by_octet(rows, room):
    """The worked cases of `path`, with a bundle that comes octet by octet."""
    for words, _, *wanted in rows:
        if words[:1] == ["path"] and words[1].startswith(paths.CASE_BUNDLE):
            with open(os.path.join(room, words[1]), "rb") as file:
                octets = file.read()
            yield ["path", "/dev/stdin", *words[2:]], [octets[it:it + 1] for it in range(len(octets))], *wanted


def ran(program, words, room, octets, output):
    """A run's status, what it wrote to standard output where that is piped, and to standard error."""
    it = subprocess.run([program, *words], cwd=room, input=octets, stdout=output, stderr=subprocess.PIPE, timeout=SECONDS)
    return it.returncode, it.stdout, it.stderr


def begun_on_octets(program, words, room):
    """A run that begins, whose standard input gives an octet at each of so many reads."""
    source, sink = os.pipe2(os.O_CLOEXEC | os.O_DIRECT)
    fcntl.fcntl(sink, SET_PIPE_SIZE, AHEAD)
    run = subprocess.Popen([program, *words], cwd=room, stdin=source, stdout=subprocess.PIPE, stderr=subprocess.PIPE)
    os.close(source)
    writer = subprocess.Popen([sys.executable, "-ISc", WRITER], stdin=subprocess.DEVNULL, stdout=sink, stderr=subprocess.DEVNULL)
    os.close(sink)
    return run, writer


class Commands(Trial):
    def test_command_lines(self):
        program = self.program()

        def count(words, got, wanted):
            self.row(got == wanted, f"certpath {words}: status, output and error are {got}, wanted are {wanted}")

        with tempfile.TemporaryDirectory(prefix="commands-") as room:
            rows = table(room)
            for words, octets, *wanted in rows:
                count(words, ran(program, words, room, octets, subprocess.PIPE), tuple(wanted))
            for words, octets, *wanted in octet_by_octet(rows, room):
                count([*words, "octet by octet"], pieces.ran([program, *words], octets, SECONDS, cwd=room), tuple(wanted))
            # a device that takes no octet
            with open("/dev/full", "wb") as full:
                count(["frame", "three", ">/dev/full"], ran(program, ["frame", "three"], room, b"", full), (7, None, b"cannot write\n"))
                count([*paths.FULL, ">/dev/full"], ran(program, paths.FULL, room, b"", full), (7, None, b"cannot write\n"))

    def test_too_many_reads(self):
        """Anchors, vouchers and evidence from a pipe that gives an octet at each of 16,777,216 reads are too long."""
        program, stdin = self.program(), "/dev/stdin"
        with tempfile.TemporaryDirectory(prefix="reads-") as room:
            for name, octets in (("one", FIRST), ("lines", b"")):
                with open(os.path.join(room, name), "wb") as file:
                    file.write(octets)
            vouchers, anchors = paths.asked("one", "one", stdin), paths.asked("one", stdin, "lines")
            evidence = ["recheck", "one", "one", "lines", stdin, "--at", "2025-06-01T00:00:00"]
            titles = size({"vouchers": vouchers, "anchors": anchors, "evidence": evidence}, {"vouchers": vouchers})
            begun = {title: begun_on_octets(program, words, room) for title, words in titles.items()}
            for title, (run, writer) in begun.items():
                output, error = run.communicate(timeout=SECONDS)
                self.same(f"{title} too long", (run.returncode, output, error), (4, b"", b"cannot read /dev/stdin\n"))
                writer.wait(timeout=SECONDS)
