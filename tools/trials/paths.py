"""Command lines of `certpath path`, `why`, `paths` and `questions` on worked cases: the cases stand in crates/rows_check/stdin, what is
printed of them in a file of tools/ for each command."""
import hashlib
import os

from program import repo

CASES = "crates/rows_check/stdin"
# What is printed, by the command.
PRINTED = {"path": "tools/trials/paths.txt", "why": "tools/trials/why.txt", "paths": "tools/trials/all_paths.txt", "questions": "tools/trials/questions.txt"}
# How the files of bundles are named that `path` is asked about.
CASE_BUNDLE = "path_bundle"
# Copies of one certificate, each of which an anchor vouches for; the last is asked for.
EQUALS = 300
# An item that is other, and how many anchors have a line of their own in what `why` prints.
EMPTY, MOST_LINES = bytes.fromhex("3000"), 20
# What is printed of one certificate that is its own anchor, where a key vouches for it and where none does.
FOUND = b"0 cert\nend clean\nanchors 1 of 1, clean\npath 0 anchor 0\ncheck yes\n"
ABSENT = b"0 cert\nend clean\nanchors 1 of 1, clean\nnone\ncheck yes\n"


class Case:
    """Items and anchors by name, who vouches for what, the moment, and whether lists are demanded."""

    def __init__(self):
        self.items, self.anchors, self.vouching, self.moment, self.demand = [], [], [], "", False

    def take(self, word, rest):
        """Takes a line of the case; questions are passed over."""
        if word in ("items", "anchors"):
            getattr(self, word).extend(rest)
        elif word == "vouch":
            self.vouching += [(rest[0], item) for item in rest[1:]]
        elif word == "at":
            self.moment = "{:04d}-{:02d}-{:02d}T{:02d}:{:02d}:{:02d}".format(*map(int, rest))
        elif word == "demand":
            self.demand = True


def worked():
    """The octets by name, and the cases by title."""
    octets, cases, title, case = {}, {}, "", Case()
    for line in repo.read(CASES).splitlines():
        word, *rest = line.split(" ")
        if word == "octets":
            octets[rest[0]] = bytes.fromhex(rest[1])
        elif word == "#":
            title = " ".join(rest)
        elif word == "case":
            case = cases[title] = Case()
        else:
            case.take(word, rest)
    return octets, cases


def printed(command):
    """Of each title: the words `target` and `behind`, the lines that the command prints, and the status."""
    found = {}
    for line in repo.read(PRINTED[command]).splitlines():
        word, _, rest = line.partition(" ")
        if word == "case":
            row = found[rest] = {"target": "0", "behind": "", "text": "", "status": ""}
        elif word == ">":
            row["text"] += rest + "\n"
        elif word in ("target", "behind", "status"):
            row[word] = rest
    return found


def digest(octets):
    return hashlib.sha256(octets).hexdigest()


def vouchers(pairs):
    """A line for each key and item, as a voucher file has them."""
    return "".join(f"{digest(key)} {digest(item)}\n" for key, item in pairs).encode()


def words_of(command, files, row, case):
    """The words that ask a command about a case."""
    if command == "questions":
        return [command, *files[:2]]
    target = [] if command == "paths" else ["--target", row["target"]]
    return [command, *files, *target, "--at", case.moment] + ["--demand-lists"] * case.demand


def case_rows(made, command, octets, cases):
    """Rows of a command on the worked cases that its file names."""
    rows = []
    for number, (title, row) in enumerate(printed(command).items()):
        case = cases[title]
        bundle = made(f"{command}_bundle{number}", b"".join(octets[entry] for entry in case.items) + bytes.fromhex(row["behind"]))
        anchors = made(f"{command}_anchors{number}", b"".join(octets[anchor] for anchor in case.anchors))
        lines = made(f"{command}_vouchers{number}", vouchers((octets[key], octets[item]) for key, item in case.vouching))
        rows.append((words_of(command, (bundle, anchors, lines), row, case), b"", int(row["status"]), row["text"].encode(), b""))
    return rows


def table(made):
    """Rows of words, standard input, status, standard output, standard error; `made` makes a file of a name and octets."""
    octets, cases = worked()
    rows = [row for command in PRINTED for row in case_rows(made, command, octets, cases)] + evidence_rows(made, octets, cases)
    one, key = octets["A"], octets["K"]
    many = made("many_equals", one * EQUALS)
    words = ["path", many, made("equal", one), made("equal_vouchers", vouchers([(key, one)])), "--target", str(EQUALS - 1), "--at", "2025-06-01T00:00:00"]
    lines = [f"{k} cert\n" for k in range(EQUALS)] + ["end clean\n", "anchors 1 of 1, clean\n", f"path {EQUALS - 1} anchor 0\n", "check yes\n"]
    rows.append((words, b"", 0, "".join(lines).encode(), b""))
    rows += other_rows(made, one)
    return rows + voucher_rows(made, one, key) + file_rows(made, one, key) + word_rows(made, one) + command_rows(made, one, key) + demand_rows(made, one, key)


def other_rows(made, one):
    """Rows of `why` on anchors that are other: each has a line up to the twentieth, and what follows is counted. A certificate
    among them has none."""
    line = "at 2: tbsCertificate: expected a SEQUENCE; found no element"
    rows, none, item = [], made("no_voucher", b""), made("why_item", one)
    for count, last in ((1, ""), (20, ""), (21, "other anchors and 1 more\n"), (24, "other anchors and 4 more\n")):
        anchors = made(f"other_anchors{count}", EMPTY + one + EMPTY * (count - 1))
        own = "".join(f"other anchor {0 if k == 0 else k + 1} {line}\n" for k in range(min(count, MOST_LINES)))
        found = "at 0 (empty)\nat 0 to 0 not linked: no voucher\nat 0 to anchor 1 not linked: no voucher\n"
        words = ["why", item, anchors, none, "--target", "0", "--at", "2025-06-01T00:00:00"]
        rows.append((words, b"", 1, f"none\ncheck yes\n{own}{last}{found}".encode(), b""))
    return rows


def command_rows(made, one, key):
    """Rows of the other commands: files that can't be opened or read, a bad line of the vouchers, and wrong words."""
    item, bad, at = made("one", one), made("bad_lines", b"-"), ["--at", "2025-06-01T00:00:00"]
    three = [("missing.der", item, bad), (item, ".", bad), (item, item, "missing.txt")]
    told = [b"cannot read missing.der\n", b"cannot read .\n", b"cannot read missing.txt\n"]
    rows = []
    for command, target in (("why", ["--target", "0"]), ("paths", [])):
        rows += [([command, *files, *target, *at], b"", 4, b"", said) for files, said in zip(three, told)]
        rows += [([command, item, item, bad, *target, *at], b"", 5, b"", b"vouchers line 1\n"),
                 ([command, item, item, bad, *target, "--at", "2025-06-31T00:00:00"], b"", 2, b"", b"bad moment\n"),
                 ([command, item, item, bad, *target, *at, "--limit", "x"], b"", 2, b"", b"bad number\n")]
    rows.append((["why", item, item, bad, "--target", "x", *at], b"", 2, b"", b"bad number\n"))
    rows += recheck_rows(made, item, vouchers([(key, one)]), at)
    rows += [(["questions", "missing.der", item], b"", 4, b"", b"cannot read missing.der\n"),
             (["questions", item, "."], b"", 4, b"", b"cannot read .\n"),
             (["questions", item, item, "--limit", ""], b"", 2, b"", b"bad number\n"),
             (["questions", item, item, "--limit", "66"], b"", 0, b"", b"")]
    return rows


def evidence_rows(made, octets, cases):
    """Rows of `paths --evidence` whose evidence is written out, so that no row of its table is there that need not be."""
    rows = []
    for number, (title, (verdicts, table_rows)) in enumerate(EVIDENCE.items()):
        case = cases[title]
        files = [made(f"evidence{number}_{name}", b"".join(octets[item] for item in of_case)) for name, of_case in (("bundle", case.items), ("anchors", case.anchors))]
        files.append(made(f"evidence{number}_vouchers", vouchers((octets[key], octets[item]) for key, item in case.vouching)))
        lines = "".join(f"{verdict}\n" for verdict in ["certpath evidence 1", *verdicts, *table_rows])
        report = "".join(f"{k} {verdict}\n" for k, verdict in enumerate(verdicts)) + "end clean\nanchors 1 of 1, clean\ncheck yes\n"
        rows.append((["paths", *files, "--at", case.moment, "--evidence", "/dev/stdout"], b"", 0, (lines + report).encode(), b""))
    return rows


def recheck_rows(made, item, pair, at):
    """Rows of `paths --evidence` and of `recheck`, on one certificate that is its own anchor; all files are opened before one is read."""
    lines, text = made("its_vouchers", pair), "certpath evidence 1\npath 0 anchor 0\nrow\n0 any\nrow\n"
    good, none, bad = made("evidence", text.encode()), made("other_evidence", text.replace("path 0 anchor 0", "none").encode()), made("bad_evidence", b"certpath evidence 2\n")
    rows = [(["paths", item, item, lines, *at, "--evidence", "found"], b"", 0, b"0 path 0 anchor 0\nend clean\nanchors 1 of 1, clean\ncheck yes\n", b""),
            (["recheck", item, item, lines, "found", *at], b"", 0, b"check yes\n", b""),
            (["recheck", item, item, lines, good, *at], b"", 0, b"check yes\n", b""),
            (["recheck", item, item, lines, none, *at], b"", 1, b"check no\n", b""),
            (["recheck", item, item, lines, "/dev/stdin", *at], text.encode(), 0, b"check yes\n", b""),
            (["recheck", item, item, lines, bad, *at], b"", 8, b"", b"evidence line 1\n"),
            (["recheck", item, item, lines, good, "--at", "2025-06-31T00:00:00"], b"", 2, b"", b"bad moment\n"),
            (["recheck", item, item, lines, good, *at, "--limit", "x"], b"", 2, b"", b"bad number\n")]
    files = [("missing.der", item, bad, good), (item, ".", bad, good), (item, item, "missing.txt", good), (item, item, lines, "missing"), (item, item, lines, "."), (".", item, bad, "missing")]
    told = ["missing.der", ".", "missing.txt", "missing", ".", "missing"]
    return rows + [(["recheck", *four, *at], b"", 4, b"", f"cannot read {word}\n".encode()) for four, word in zip(files, told)]


def demand_rows(made, one, key):
    """Rows of what may be demanded, on one certificate that is its own anchor, has no extKeyUsage and no subjectAltName: so it is for each
    purpose, and serves no host; of the evidence for a purpose; and of words that are no host and no purpose."""
    item, lines, at = made("one", one), made("its_vouchers", vouchers([(key, one)])), ["--at", "2025-06-01T00:00:00"]
    front, path, check = b"0 cert\nend clean\nanchors 1 of 1, clean\n", b"path 0 anchor 0\n", b"check yes\n"
    question = asked(item, item, lines)
    shown = {"serverAuth": "serverAuth", "SERVERauth": "serverAuth", "sslserver": "serverAuth", "server": "serverAuth", "1.3.6.1.5.5.7.3.1": "serverAuth",
             "client": "clientAuth", "codesign": "codeSigning", "smimesign": "emailProtection", "smimeencrypt": "emailProtection", "timestampsign": "timeStamping",
             "ocspsigning": "OCSPSigning", "1.3.6.1.5.5.7.3.9": "OCSPSigning", "1.3.6.1.5.5.7.3.5": "1.3.6.1.5.5.7.3.5", "2.5.29.37.0": "2.5.29.37.0",
             "2.999.18446744073709551615": "2.999.18446744073709551615"}
    rows = [([*question, "--purpose", word], b"", 0, front + f"purpose {text}\n".encode() + path + check, b"") for word, text in shown.items()]
    for host in ("www.example.test", "WWW.example.test.", "1.2.3.4", "[::1]"):
        rows.append(([*question, f"--host={host}"], b"", 1, front + f"host {host}\n".encode() + b"none\n" + check, b""))
    rows.append(([*question, "--host", "a.test", "--purpose", "client"], b"", 1, front + b"purpose clientAuth\nhost a.test\nnone\n" + check, b""))
    reasons = ["why", *question[1:]]
    linked = b"at 0 to 0 linked\nat 0 to anchor 0 linked\n"
    unserved = b"purpose clientAuth\nhost a.test\nnone\n" + check + b"at 0 (empty)\nat 0 doesn't serve a.test: it names no host\n"
    rows += [([*reasons, "--purpose", "server"], b"", 0, b"purpose serverAuth\n" + path + check + b"at 0 (empty)\n" + linked, b""),
             ([*reasons, "--host", "a.test", "--purpose", "client"], b"", 1, unserved + linked, b"")]
    for host, why in BAD_HOSTS.items():
        rows += [([*words, f"--host={host}"], b"", 2, b"", f"bad host: {why}\n".encode()) for words in (question, reasons)]
    for purpose, why in BAD_PURPOSES.items():
        for words in (question, reasons, ["paths", item, item, lines, *at], ["recheck", item, item, lines, item, *at]):
            rows.append(([*words, f"--purpose={purpose}"], b"", 2, b"", f"bad purpose: {why}\n".encode()))
    rows += [(asked(item, item, lines, "0", "x") + ["--host", "*"], b"", 2, b"", b"bad moment\n"),
             ([*question, "--host", "*", "--purpose", "x"], b"", 2, b"", b"bad host: it has a wildcard\n"),
             (asked("missing.der", item, lines) + ["--purpose", "x"], b"", 2, b"", f"bad purpose: {UNKNOWN}\n".encode())]
    return rows + purposed_rows(made, item, lines, at)


def purposed_rows(made, item, lines, at):
    """Rows of `paths` and `recheck` for a purpose."""
    paths, recheck = ["paths", item, item, lines, *at], ["recheck", item, item, lines]
    found = b"0 path 0 anchor 0\nend clean\nanchors 1 of 1, clean\npurpose serverAuth\ncheck yes\n"
    text = "certpath evidence 1\npath 0 anchor 0\nrow\n0 any\nrow\n"
    plain, server, none = made("plain_evidence", text.encode()), made("server_evidence", f"purpose serverAuth\n{text}".encode()), made("none_evidence", f"purpose serverAuth\n{text.replace('path 0 anchor 0', 'none')}".encode())
    bad = made("bad_server_evidence", f"purpose serverAuth\n{text[:-1]}".encode())
    yes, other = (0, b"check yes\n", b""), (1, b"", b"the evidence is for another purpose\n")
    said = [("found_for", ["--purpose", "serverAuth"], yes), (server, ["--purpose", "sslserver"], yes), (server, ["--purpose", "1.3.6.1.5.5.7.3.1"], yes),
            (none, ["--purpose", "server"], (1, b"check no\n", b"")), (server, ["--purpose", "client"], other), (server, [], other), (plain, ["--purpose", "server"], other),
            (plain, [], yes), (bad, ["--purpose", "server"], (8, b"", b"evidence line 6\n"))]
    rows = [([*paths, "--purpose", "sslserver"], b"", 0, found, b""), ([*paths, "--purpose", "server", "--evidence", "found_for"], b"", 0, found, b"")]
    return rows + [([*recheck, evidence, *at, *words], b"", status, out, error) for evidence, words, (status, out, error) in said]


# Worked cases, with the verdicts and the rows of their evidence.
EVIDENCE = {"an anchor vouches for itself, at the last moment": (["path 0 anchor 0"], ["row"]),
            "a path of two: the target is not counted": (["path 0 1 anchor 0", "path 1 anchor 0"], ["row", "1 upto 0", "row"])}
# Texts that are no host and no purpose, and why.
BAD_HOSTS = {"": "it is empty", ".": "it is empty", "https://a.test": "it is a URL or has a path", "a@a.test": "it is an e-mail address", "*.a.test": "it has a wildcard",
             "::1%1": "it has a zone", "a.test:443": "it has a port", "::g": "it is no IPv6 address",
             "ä.test": "it has a character outside ASCII; such a label is written xn--..", "a b.test": "it has a character that no name has",
             ".".join(["a" * 49] * 5) + ".abcd": "it has more than 253 octets", "a..test": "it has an empty label", f"{'a' * 64}.test": "it has a label of more than 63 octets",
             "-a.test": "it has a label with a hyphen at an end", "1.2.3": "its last label is a number, and it is no IPv4 address"}
UNKNOWN = "it is neither a known name nor an object identifier"
BAD_PURPOSES = {"": UNKNOWN, "web": UNKNOWN, "ocsphelper": UNKNOWN, "1": UNKNOWN, "3.1": UNKNOWN, "1.40": UNKNOWN, "1.3.06": UNKNOWN, "1..3": UNKNOWN, "1.3.": UNKNOWN, "+1.3": UNKNOWN,
                "1.3.18446744073709551616": UNKNOWN, "anyExtendedKeyUsage": "anyExtendedKeyUsage is no purpose of its own",
                "1.3" + ".6" * 128: "its identifier has more than 128 octets"}


def asked(bundle, anchors, lines, target="0", moment="2025-06-01T00:00:00"):
    """The words that ask for the path of an item."""
    return ["path", bundle, anchors, lines, "--target", target, "--at", moment]


# Words that succeed in the folder where the table's files are, to be run with a device as standard output that takes no octet.
FULL = asked("one", "one", "lines")


def voucher_rows(made, one, key):
    """Rows of voucher files, on one certificate that is its own anchor: what counts as a line, and which line is the first bad one."""
    good = vouchers([(key, one)])
    pair = good.rstrip(b"\n")
    first, second = pair.split(b" ")
    item = made("one", one)
    found = {
        "lf": good, "no_lf": pair, "cr_lf": pair + b"\r\n", "upper": pair.upper() + b"\n", "mixed": first + b" " + second.upper() + b"\n",
        "empty_lines": b"\n\r\n" + good + b"\n", "twice": good + good, "behind_others": vouchers([(one, key)]) + pair,
    }
    absent = {"no_lines": b"", "one_empty_line": b"\n", "exchanged": second + b" " + first + b"\n"}
    bad = {
        "digits_63": (good + first[:63] + b" " + second + b"\n", 2), "digits_63_alone": (good + first[:63], 2),
        "digits_65": (good + pair + b"0", 2), "no_digit": (pair[:-1] + b"g\n", 1), "two_spaces": (first + b"  " + second + b"\n", 1),
        "tab": (first + b"\t" + second + b"\n", 1), "no_space": (first + second, 1), "space_before": (b" " + good, 1), "space_behind": (good + pair + b" \n", 2),
        "one_digest": (first + b"\n", 1), "cr_at_the_end": (pair + b"\r", 1), "two_cr": (pair + b"\r\r\n", 1), "cr_between": (pair + b"\r" + good, 1),
        "behind_empty_lines": (b"\n\n\r\n" + good + b"-\n" + first, 5), "space_alone": (good + b" ", 2),
    }
    rows = [(asked(item, item, made(f"vouchers_{name}", text)), b"", 0, FOUND, b"") for name, text in found.items()]
    rows += [(asked(item, item, made(f"vouchers_{name}", text)), b"", 1, ABSENT, b"") for name, text in absent.items()]
    return rows + [(asked(item, item, made(f"vouchers_{name}", text)), b"", 5, b"", b"vouchers line %d\n" % number) for name, (text, number) in bad.items()]


def file_rows(made, one, key):
    """Rows of files that can't be opened, or not be read, in each place: all are opened before one is read, and then they are read in order."""
    item, lines, bad = made("one", one), made("lines", vouchers([(key, one)])), made("bad_lines", b"-")
    good = (item, item, lines)
    # What can't be opened, and folders, which can't be read.
    unopened, folders = ("missing.der", "no_folder/missing.der", "n" * 300), (".", "./", "././")
    rows = [((*good[:at], word, *good[at + 1:]), word) for at in range(3) for word in (*unopened, folders[0])]
    rows += [(("missing_1", "missing_2", "missing_3"), "missing_1"), ((item, "missing_2", "missing_3"), "missing_2"), ((".", "./", "missing_3"), "missing_3"),
             ((".", "missing_2", bad), "missing_2"), (folders, "."), ((item, "./", "././"), "./"), ((item, ".", bad), "."), ((item, item, ""), "")]
    rows = [(asked(*files), b"", 4, b"", f"cannot read {word}\n".encode()) for files, word in rows]
    # A bundle that ends with a fault is read, and so the vouchers behind it.
    fault = made("one_and_a_fault", one + b"1")
    return rows + [(asked(fault, item, bad), b"", 5, b"", b"vouchers line 1\n"), (asked("/dev/stdin", item, lines), one, 0, FOUND, b"")]


def word_rows(made, one):
    """Rows of two bad words: a number is told before a moment, and words before files."""
    item, moment = made("one", one), "2025-06-01T00:00:00"
    number, date = b"bad number\n", b"bad moment\n"
    rows = [(asked(item, item, item, "x", "x"), number), (asked(item, item, item, "0", "x") + ["--limit", "x"], number),
            (asked(item, item, item, "x") + ["--limit", "x"], number), (asked("missing.der", item, item, "x"), number),
            (asked("missing.der", item, item, "0", "2025-06-01"), date), (asked(item, item, item, "4294967296", moment), number),
            (asked(item, item, item, "0", "2025-02-30T00:00:00"), date), (asked(item, item, item, "0", f"{moment}Z"), date)]
    return [(words, b"", 2, b"", said) for words, said in rows]
