"""Trials of evidence: what `certpath paths --evidence` writes, `certpath recheck` accepts; and nothing else.

True evidence: of each worked case, of bundles by chance, and of one bundle of 10,000 items; `paths` reads items by types, `recheck`
by trees. Forged evidence, which is read and refused: a verdict changed, left out, added or exchanged with another one, an entry of a
row lowered or left out. No such text is of a true inventory, since a bundle has one, and rows may not be lower than its own. Then
texts that no inventory has, with the number of the first bad line; and files that can't be read or written.
"""
import os
import random
import subprocess
import tempfile

from dev import items
from trials import paths
from trials.count import Trial

SECONDS = 600
FORGED, MANY = 1_000, 10_000
MOMENT = "2025-06-01T00:00:00"
YES, NO = (0, b"check yes\n", b""), (1, b"check no\n", b"")
HEADER = "certpath evidence 1\n"
# Bundles by chance: their names, of which the last two are those of anchors, the items of each, and the tenths that are vouched for.
NAMES, ITEMS, VOUCHED, BUNDLES = 9, 40, 9, 8


def name(text):
    """The spelling of a name of one common name."""
    return f'30(31(30(06(550403)0c("{text}"))))'


def key(number):
    """The spelling of a key element, and its octets."""
    spelled = f"30(30(06(2a03))03(00{number:08x}))"
    return spelled, items.octets(spelled)


def certificate(subject, issuer, number, serial, limit=None):
    """An authority by the texts of its names, the number of its key, its serial number and its path length."""
    spelled = "" if limit is None else f"02({limit:02x})"
    extensions = f"a3(30(30(06(551d13)0101ff04(30(0101ff{spelled})))))"
    parts = {"version": "a0(02(02))", "serial": f"02({serial:08x})" if serial >> 24 else f"02(01{serial:06x})", "issuer": name(issuer),
             "subject": name(subject), "key": key(number)[0], "extensions": extensions}
    return items.item(" ".join(["certificate", *(f"{part}={text}" for part, text in parts.items())]))


class Files:
    """The files of a bundle in a folder, and the words that name them."""

    def __init__(self, room, title, bundle, anchors, vouching, words=("--at", MOMENT)):
        self.room, self.title, self.items, self.words = room, title, bundle, list(words)
        texts = {"bundle": b"".join(bundle), "anchors": b"".join(anchors), "vouchers": paths.vouchers(vouching)}
        self.files = [self.keep(item, text) for item, text in texts.items()]

    def keep(self, name, octets):
        """Writes a file; gives its name."""
        name = f"{self.title}_{name}"
        with open(os.path.join(self.room, name), "wb") as file:
            file.write(octets)
        return name

    def paths(self, *words):
        return ["paths", *self.files, *words, *self.words]

    def recheck(self, text, name="forged"):
        return ["recheck", *self.files, self.keep(name, text.encode()), *self.words]


def by_chance(room, title, numbers):
    """A bundle in which names certify each other, some with path lengths, beside what is no certificate."""
    bundle, vouching = [], []
    for place in range(ITEMS):
        if numbers.randrange(10) == 0:
            bundle.append(items.item("list") if numbers.randrange(2) else bytes.fromhex("3000"))
            continue
        subject, issuer = numbers.randrange(NAMES), numbers.randrange(NAMES)
        made = certificate(f"n{subject}", f"n{issuer}", subject, place + 1, numbers.choice([None, None, 0, 1, 2]))
        bundle.append(made)
        if numbers.randrange(10) < VOUCHED:
            vouching.append((key(issuer)[1], made))
    anchors = [certificate(f"n{value}", f"n{value}", value, 1) for value in (NAMES - 1, NAMES - 2)]
    return Files(room, title, bundle, anchors, vouching)


def of_many(room):
    """A bundle of 10,000 items: leaves of 100 authorities, which certify each other in a row of ten."""
    tops = [certificate(f"a{number}", f"a{number + 1}" if number % 10 < 9 else "root", number, number + 1) for number in range(100)]
    leaves = [certificate(f"l{number}", f"a{number % 100}", 1_000 + number, number + 1) for number in range(MANY - len(tops))]
    pairs = [(key(entry + 1 if entry % 10 < 9 else 999)[1], made) for entry, made in enumerate(tops)] + [(key(entry % 100)[1], made) for entry, made in enumerate(leaves)]
    return Files(room, "many", leaves + tops, [certificate("root", "root", 999, 1)], pairs)


def of_cases(room):
    """The worked cases of crates/rows_check/stdin, as files."""
    octets, cases = paths.worked()
    for number, case in enumerate(cases.values()):
        vouching = [(octets[one], octets[other]) for one, other in case.vouching]
        yield Files(room, f"case{number}", [octets[item] for item in case.items], [octets[anchor] for anchor in case.anchors], vouching,
                    ["--at", case.moment] + ["--demand-lists"] * case.demand)


# ---- forging

def parts(text):
    """The lines of verdicts, and those of rows."""
    lines = text.splitlines()[1:]
    first = lines.index("row") if "row" in lines else len(lines)
    return lines[:first], lines[first:]


def joined(verdicts, rows):
    return HEADER + "".join(f"{verdict}\n" for verdict in [*verdicts, *rows])


def other_verdict(numbers, verdict, count):
    """A line that says something else of an item."""
    positions = [int(word) for word in verdict.split()[1:-2]] if verdict.startswith("path") else [0]
    anchor = int(verdict.split()[-1]) if verdict.startswith("path") else 0
    at = numbers.randrange(len(positions))
    changed = [*positions[:at], (positions[at] + numbers.randrange(1, count)) % count, *positions[at + 1:]]
    choices = ["none", "no certificate", path_line(positions, anchor), path_line(positions, anchor + 1), path_line(changed, anchor),
               path_line([*positions, numbers.randrange(count)], anchor), path_line(positions[:-1], anchor)]
    return numbers.choice([choice for choice in choices if choice != verdict])


def path_line(positions, anchor):
    return "path " + "".join(f"{position} " for position in positions) + f"anchor {anchor}"


def lower(numbers, line):
    """A change to less than it was, and none where it goes to nothing."""
    place, word, *limit = line.split()
    choices = [None, f"{place} no"] if word != "no" else []
    if word == "any":
        choices.append(f"{place} upto {numbers.randrange(4)}")
    if limit and limit[0] != "0":
        choices.append(f"{place} upto {int(limit[0]) - 1}")
    return numbers.choice(choices)


def forged(numbers, text):
    """A text that is read, and is of no true inventory with rows of the least height."""
    verdicts, rows = parts(text)
    count, at = len(verdicts), numbers.randrange(len(verdicts))
    kind = numbers.randrange(5)
    raised = [entry for entry, line in enumerate(rows) if line != "row" and not line.endswith(" no")]
    if kind == 0:
        return joined(verdicts[:at] + verdicts[at + 1:], rows)
    if kind == 1:
        return joined(verdicts[:at] + [other_verdict(numbers, verdicts[at], count)] + verdicts[at:], rows)
    if kind == 2:
        other = numbers.choice([entry for entry, line in enumerate(verdicts) if line != verdicts[at]])
        verdicts[at], verdicts[other] = verdicts[other], verdicts[at]
        return joined(verdicts, rows)
    if kind == 3 and raised:
        place = numbers.choice(raised)
        line = lower(numbers, rows[place])
        return joined(verdicts, rows[:place] + ([line] if line else []) + rows[place + 1:])
    return joined(verdicts[:at] + [other_verdict(numbers, verdicts[at], count)] + verdicts[at + 1:], rows)


def unread(text):
    """Texts that no inventory has, each with the number of its first bad line."""
    verdicts, rows = parts(text)
    last = text.count("\n")
    begin = len(verdicts) + 2
    texts = {"": 1, HEADER[:-1]: 1, HEADER[:-1] + " \n": 1, HEADER.replace("1", "2"): 1, "\n" + text: 1, text[len(HEADER):]: 1, text.replace("\n", "\r\n", 1): 1,
             text[:-1]: last, text + "\n": last + 1, text + "x": last + 1, text + "none\n": last + 1, text + "0 up\n": last + 1, text + "0 upto 4294967296\n": last + 1}
    for bad in ("path", "path ", "path 0", "path 0 anchor", "path 0 anchor ", "path 00 anchor 0", "path 0  anchor 0", "path 0 anchor 01", "path 0 anchor 0 ",
                "path 18446744073709551616 anchor 0", "path -1 anchor 0", "path +1 anchor 0", "none ", "None", "", " none", "no  certificate", "0 any", "\u0660 any"):
        texts[joined([bad, *verdicts[1:]], rows)] = 2
    for bad in ("rows", "row ", "none", "path 0 anchor 0", "0  any", "0 any ", "00 any", "0 upto 01", "0 upto", "0 upto -1", "0", "x any", "18446744073709551616 any"):
        texts[joined(verdicts, ["row", bad, *rows])] = begin + 1
    return texts


# ---- trials

class Count:
    """Runs the program in a folder; each run is a row of a trial."""

    def __init__(self, trial, program, room):
        self.trial, self.program, self.room = trial, program, room

    def ran(self, words):
        text = subprocess.run([self.program, *words], cwd=self.room, stdin=subprocess.DEVNULL, capture_output=True, timeout=SECONDS)
        return text.returncode, text.stdout, text.stderr

    def wants(self, words, *wanted):
        """Runs the words; one of these ends is wanted."""
        self.holds(self.ran(words) in wanted, words, wanted)

    def holds(self, yes, *told):
        self.trial.row(yes, " ".join(map(str, told)))


def true_one(count, files):
    """Writes the evidence of a bundle and has it accepted; gives its text."""
    alone = count.ran(files.paths())
    beside = count.ran(files.paths("--evidence", f"{files.title}_evidence"))
    count.holds(alone == beside and alone[0] in (0, 1), files.title, alone, beside)
    with open(os.path.join(count.room, f"{files.title}_evidence"), encoding="ascii", newline="") as file:
        text = file.read()
    count.wants(files.recheck(text, "true"), YES)
    return text


def trial_of_forged(count, numbers, bundles):
    """1,000 different texts that are read and refused, and those of other bundles."""
    seen = set()
    while len(seen) < FORGED:
        files, text = numbers.choice(bundles)
        made = forged(numbers, text)
        if (files.title, made) not in seen:
            seen.add((files.title, made))
            count.wants(files.recheck(made), NO)
    for (files, _), (_, text) in zip(bundles, bundles[1:] + bundles[:1]):
        count.wants(files.recheck(text), NO)


def trial_of_cuts(count, files, text):
    """A text that is cut within a line has a bad one; one cut behind a line is refused, if it lacks a verdict or a change."""
    numbers, at = random.Random(3), 0
    for number, line in enumerate(text.splitlines(keepends=True), 1):
        within, at = at + numbers.randrange(1, len(line)), at + len(line)
        count.wants(files.recheck(text[:within]), (8, b"", b"evidence line %d\n" % number))
        lacks = any(row != "row" for row in text[at:].splitlines())
        count.wants(files.recheck(text[:at]), NO, *([] if lacks else [YES]))


def trial_of_files(count, files, text):
    """Files that can't be read, created or written; and what stands in the evidence where it is bad."""
    words = files.recheck(text)
    for word in ("missing", "", "."):
        count.wants([entry if entry != words[4] else word for entry in words], (4, b"", f"cannot read {word}\n".encode()))
        count.wants(files.paths("--evidence", word if word != "missing" else "missing/file"), (4, b"", f"cannot create {'missing/file' if word == 'missing' else word}\n".encode()))
    count.wants(files.paths("--evidence", "/dev/full"), (7, b"", b"cannot write /dev/full\n"))
    kept = os.path.join(count.room, files.keep("kept", b"as it was"))
    bundle, anchors, _ = files.files
    count.wants(["paths", bundle, anchors, files.keep("bad", b"-"), "--evidence", os.path.basename(kept), *files.words], (5, b"", b"vouchers line 1\n"))
    with open(kept, "rb") as file:
        count.holds(file.read() == b"as it was", "evidence is written where vouchers are bad")
    count.wants([*words[:3], files.keep("bad", b"-"), *words[4:]], (5, b"", b"vouchers line 1\n"))
    count.wants([*words[:-1], "2025-06-31T00:00:00"], (2, b"", b"bad moment\n"))


class Evidence(Trial):
    def test_evidence(self):
        numbers = random.Random(1)
        with tempfile.TemporaryDirectory(prefix="evidence-") as room:
            count = Count(self, self.program(), room)
            for files in of_cases(room):
                true_one(count, files)
            bundles = [(index, true_one(count, index)) for index in (by_chance(room, f"chance{number}", numbers) for number in range(BUNDLES))]
            true_one(count, of_many(room))
            trial_of_forged(count, numbers, bundles)
            files, text = bundles[0]
            trial_of_cuts(count, files, text)
            for bad, number in unread(text).items():
                count.wants(files.recheck(bad), (8, b"", b"evidence line %d\n" % number))
            trial_of_files(count, files, text)
