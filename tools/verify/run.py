"""The run of ./verify, from the words to the status."""
import os
from itertools import islice

from pki import reading
from pki.reporting import counted
from pki.writing import put
from program import programs, repo, streams
from verify import (answers, asking, core, demands, faults, files, graph, machine, page, people, roles, signing, spelling, stores, waiting,
                    words)
from verify.core import Kind
from verify.faults import Fault
from verify.report import Report, answers_of

OTHER = "neither a certificate nor a list in its one spelling"
CAUSES = f"the causes stand in {os.path.join(repo.TOP, 'docs', 'OTHER.md')}"
# So many targets without a path are asked about, why; fewer if the items have so many octets that it would take minutes, or if what is
# said has so many lines.
MOST_WHYS, MOST_WHY_OCTETS, MOST_WHY_LINES = 100, 200_000_000, 100_000
# If there are no more pairs of an item and a key than these, none is left out for one target's sake.
FEW_PAIRS = 200
# So many targets of the JSON are written at once.
TOGETHER = 1_000
# So many lines are said of what was left out.
MOST_LEFT_OUT = 100


class Inputs:
    """The caller's files: items each once, targets, anchors, and what was left out."""

    def __init__(self, asked):
        self.asked = asked
        self.first = files.contents_of(asked.files[0])
        further, lists = ([files.contents_of(entry) for entry in of] for of in (asked.files[1:], asked.lists))
        self.named = files.contents_of(asked.target) if self.is_file(asked.target) else None
        self.of_files = [self.first, *further]
        parts = [*self.of_files, *lists, *([self.named] if self.named else [])]
        self.counts = [*map(roles.count, asked.files, self.of_files)]
        self.further = [*map(roles.count, asked.lists, lists), *([roles.count(asked.target, self.named)] if self.named else [])]
        found = stores.anchors_of(asked.anchors)
        # (revocation lists in files of anchors are lists like others)
        items = [item for part in parts for item in part.items] + [item for item in found.items if item.is_list]
        self.bundle = core.Side(files.once(items), False, asked.limit)
        self.anchors = core.Side([item for item in found.items if not item.is_list], True, asked.limit)
        self.sources, self.store = found.sources, found.store
        self.left_out, self.left_out_of_anchors = [entry for part in parts for entry in part.left_out], found.left_out
        if not self.anchors.of_kind[Kind.CERTIFICATE]:
            within = f" within --limit {asked.limit}" if self.anchors.too_large else ""
            raise Fault(faults.UNREAD, f"{', '.join(self.sources)}: holds no certificate{within}, so no anchor; name a file with --anchors FILE")
        self.targets = [*self.all_targets()]
        self.demands = demands.Demands(asked.host, asked.purpose)
        waiting.LINE.begin("looking for the keys of issuers")
        self.holders = signing.Holders(self.bundle, self.anchors)

    @staticmethod
    def is_file(word):
        """Whether the word of --target is a file: it is neither a position nor a fingerprint."""
        if word is None or is_position(word) or is_fingerprint(word) and not os.path.exists(word):
            return False
        if not os.path.exists(word):
            raise Fault(faults.UNREAD, f"--target {reading.shortened(word)}: no such file, and neither a position nor a SHA-256 fingerprint of 64 hex digits")
        return True

    def all_targets(self):
        """The targets: positions of certificates, and texts on what is there instead."""
        word = self.asked.target
        if word is not None and self.named is None:
            return [self.position_of(word)]
        part, name = (self.named, word) if self.named else (self.first, self.asked.files[0])
        parts = self.of_files if self.asked.is_all else [part]
        lost = [entry for one in parts for entry in one.left_out if entry.is_certificate()]
        positions = {self.bundle.items.octets(index): index for index in range(len(self.bundle.items))}
        found = dict.fromkeys(self.target(positions[item.octets]) if item.octets in positions else f"{item.file}: an item above the limit"
                              for one in parts for item in one.items if not item.is_list)
        if not found:
            raise Fault(faults.NO_TARGET, f"{name}: it holds {self.what_is_there(part)}no certificate, so no target")
        if self.asked.is_all:
            return [*found, *(f"{entry.where}: {entry.why}" for entry in lost)]
        at = next(number for number, item in enumerate(part.items) if not item.is_list)
        first = next((entry for entry in lost if entry.before <= at), None)
        if first:
            raise Fault(faults.UNREAD, f"{first.where}: {first.why}; it would be the target: mend it, or name another one with --target")
        return [*found][:1]

    @staticmethod
    def what_is_there(part):
        """What a file without a certificate holds."""
        if part.items:
            return "revocation lists and "
        labels = dict.fromkeys(entry.label for entry in part.left_out if entry.label)
        return f"{', '.join(labels)} and " if labels else ""

    def target(self, position):
        """A target by its position; a text if that is none."""
        if position >= len(self.bundle.items):
            return f"item {position}: there is none; the files hold {counted(len(self.bundle.items), 'item')}"
        kind = self.bundle.items[position].kind
        if kind is Kind.CERTIFICATE:
            return position
        what = "a revocation list" if kind is Kind.LIST else f"{OTHER} ({CAUSES})"
        return f"item {position} ({self.bundle.file(position)}): {what}"

    def position_of(self, word):
        """The target that a number or a fingerprint means."""
        if is_position(word):
            return self.target(int(word))
        digits = word.replace(":", "").lower()
        for number in range(len(self.bundle.items)):
            if core.fingerprint(self.bundle.items.octets(number)) == digits:
                return self.target(number)
        raise Fault(faults.NO_TARGET, f"--target {word}: no certificate has this fingerprint")

    def unread_lists(self):
        """What is said of revocation lists that can't be read, so that nobody knows whom they revoke."""
        for value in [*self.left_out, *self.left_out_of_anchors]:
            if value.is_list():
                yield f"{value.where}: {value.why}"
        for position in self.bundle.of_kind[Kind.OTHER]:
            if self.bundle.given[position].is_list:
                yield f"item {position} ({self.bundle.file(position)}): {OTHER}"
        for value in self.bundle.too_large:
            if value.is_list:
                yield f"{value.file}: a list above the limit"

    def notes(self):
        """Warnings of the files: what was left out, and items that are neither certificate nor list."""
        lines = [*map(str, self.left_out), *self.bundle.left_out(), *map(str, self.left_out_of_anchors), *self.anchors.left_out()]
        yield from lines[:MOST_LEFT_OUT]
        if len(lines) > MOST_LEFT_OUT:
            yield f"{len(lines) - MOST_LEFT_OUT} more were left out"
        for side, name in ((self.bundle, "item"), (self.anchors, "anchor")):
            for entry in side.of_kind[Kind.OTHER][:MOST_LEFT_OUT]:
                digest = core.fingerprint(side.items.octets(entry))
                yield f"{name} {entry} ({side.file(entry)}, SHA-256 {digest}){called(side.items.octets(entry))}: {OTHER}, so not used; {CAUSES}"

    def roles(self):
        """What was taken as a target, and what as a helper."""
        if self.asked.is_all:
            return roles.of_all(self.counts, self.further)
        word, file = self.asked.target, self.asked.files[0]
        if word is None or self.named:
            file = word or file
            return roles.of_one(self.counts, self.further, f"the first certificate of {streams.shown(file)}", file, bool(word))
        place = next((target for target in self.targets if not isinstance(target, str)), None)
        file = None if place is None else self.bundle.given[place].file
        what = f"--target {word}" if place is None else f"item {place} ({self.bundle.file(place)}), by --target"
        return roles.of_one(self.counts, self.further, what, file, True)

    def anchors_line(self):
        """How many anchors there are, and from where."""
        count = len(self.anchors.of_kind[Kind.CERTIFICATE])
        store = f" ({self.store})" if self.store else ""
        return f"{counted(count, 'certificate')} of {', '.join(self.sources)}{store}"


def called(octets):
    """By which name OpenSSL calls a certificate that is other, since the proved reader shows no field of it."""
    reader = spelling.reader()
    subject = reader.subject(octets) if reader else None
    return f", to OpenSSL {subject}" if subject else ""


def is_position(word):
    return word.isascii() and word.isdigit() and len(word) <= 10


def is_fingerprint(word):
    digits = word.replace(":", "")
    return len(digits) == 64 and all(digit in "0123456789abcdefABCDEF" for digit in digits)


def asked_of_openssl(inputs, workspace):
    """The items that OpenSSL is asked about. Of many only those that one target leads to by names matter, as `certpath why` says without any
    voucher, and lists."""
    signed = inputs.holders.signed
    if len(inputs.targets) > 1 or inputs.holders.pairs(signed) <= FEW_PAIRS:
        return signed
    workspace.vouch(core.certpath.Vouchers())
    reached = Report(workspace.why(inputs.targets[0])).nodes
    return [entry for entry in signed if entry in reached or inputs.bundle.items[entry].kind is Kind.LIST]


def of_host(known, inputs, workspace):
    """The reports of all targets with the host that is asked for, by those without it: a target that doesn't serve it has no path, and
    one that does has the same, unless a critical subjectAltName is in its way, which is processed for a host (RFC 5280, 6.1.5, f)."""
    for target in [entry for entry in inputs.targets if entry in known]:
        if not inputs.demands.is_served(inputs.bundle.items[target]):
            known[target] = known[target].without_path()
        elif inputs.demands.host is not None and not known[target].path:
            known[target] = Report(workspace.path(target))
    return known


def all_answers(inputs, judge, workspace):
    """The answer for each target, in their order. For several `certpath paths` says which of them have a path, and lists that aren't
    used are the same for all; why there is none is asked of the first ones alone."""
    certificates = [entry for entry in inputs.targets if not isinstance(entry, str)]
    lines = workspace.paths() if len(certificates) > 1 else None
    known, asked = of_host(answers_of(lines), inputs, workspace) if lines else {}, 0
    unused = Report(workspace.why(certificates[0])).unused if lines else None
    most = max(1, min(MOST_WHYS, MOST_WHY_OCTETS // max(len(inputs.bundle.items.data), 1)))
    for target in waiting.counted("answering", inputs.targets, len(inputs.targets)):
        report = known.get(target)
        if isinstance(target, str):
            yield answers.no_target(target)
        elif report is None or not report.path and asked < most and workspace.lines < MOST_WHY_LINES:
            asked += 1
            yield judge.answer(target)
        else:
            report.unused = unused
            yield judge.answer(target, report)


def answered(asked):
    """Answers the words, and gives the status."""
    waiting.BUDGET.given = asked.seconds
    core.need()
    demands.need(asked.host, asked.purpose)
    inputs = Inputs(asked)
    if inputs.targets == [target for target in inputs.targets if isinstance(target, str)]:
        return written(asked, inputs, map(answers.no_target, inputs.targets))
    workspace = asking.Workspace(inputs.bundle, inputs.anchors, asked)
    found = signing.signatures(inputs.holders, asked_of_openssl(inputs, workspace), asked.takes_weak)
    workspace.vouch(found.vouchers)
    return written(asked, inputs, all_answers(inputs, answers.Judge(inputs, workspace, found), workspace))


class CountedAnswers:
    """Answers on their way, and the worst status among those that went by."""

    def __init__(self, found):
        self.found, self.status = found, faults.PATH

    def __iter__(self):
        for entry in self.found:
            self.status = max(self.status, machine.status_of(entry))
            yield entry


def written(asked, inputs, found):
    """Writes the answers in the form that is asked for; gives the status."""
    beside = people.Beside([*map(streams.shown, inputs.notes())], streams.shown(inputs.anchors_line()), inputs.roles())
    counted = CountedAnswers(found)
    if asked.page is not None:
        counted.found = [*counted.found]
        keep(asked.page, page.text(counted.found, asked.moment, beside))
    forms = {
        None: lambda: people.text(counted, asked.moment, beside, people.with_colour(), len(inputs.targets) == 1),
        "json": lambda: machine.texts(counted, asked.moment, beside),
        "dot": lambda: (graph.text(count, asked.moment) for count in counted),
        "quiet": lambda: ("" for _ in counted),
    }
    parts = iter(forms["quiet" if asked.page == "-" else asked.form]())
    while together := [*islice(parts, TOGETHER)]:
        text = "".join(together)
        waiting.LINE.clear()
        if text and not streams.wrote(text.encode(errors="backslashreplace")):
            return faults.UNWRITTEN
    return counted.status


def keep(file, text):
    """Writes the page."""
    octets = text.encode(errors="backslashreplace")
    waiting.LINE.clear()
    if file == "-":
        if not streams.wrote(octets):
            raise Fault(faults.UNWRITTEN, "standard output fails")
        return
    try:
        put(file, octets)
    except (OSError, ValueError) as error:
        raise Fault(faults.UNWRITTEN, f"{file}: cannot write it ({getattr(error, 'strerror', error)})") from error


def main(arguments):
    # (a signal ends the run at once, also within a call of a library; its programs end with it)
    programs.end_by_interrupt()
    try:
        return core.run_of(lambda: answered(words.read(arguments)))
    except Fault as fault:
        waiting.LINE.clear()
        streams.report(f"verify: {fault}")
        if words.asks_for_json(arguments) and fault.status != faults.UNWRITTEN:
            streams.wrote(machine.fault(fault.status, streams.shown(str(fault))).encode())
        return fault.status
