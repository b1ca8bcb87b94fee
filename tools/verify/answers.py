"""The answer on a target: the path or what prevents one, and what one should know beside it."""
from functools import cached_property, lru_cache
from heapq import merge
from itertools import islice
from typing import NamedTuple, Optional

from verify import reasons, spelling
from verify.core import Kind, Shown, certpath, fingerprint, name_of, shortened
from verify.demands import HOSTS, PURPOSES, Demands
from verify.report import REVOKED, Link, Report

NOT_JUDGED = (HOSTS, PURPOSES, "name constraints", "policies", "OCSP", "delta, indirect and partitioned lists")
# So often `certpath why` is asked again, at most, about lists that aren't used. Of several targets each has so many of these lists, more
# than that, so that one of them speaks against a path if any does.
MOST_ASKED, MOST_LISTS = 32, 40
YES, NO, UNKNOWN = "yes", "no", "unknown"
# Outcomes beside those of `certpath why`.
NO_TARGET, PATH_REFUSED = "no target", "refused"
# What prevents a path if no certificate has the issuer's name, or only the certificate itself.
MISSING, ITS_OWN = "no issuer here", "issued by itself"
# So many certificates are shown whose names read like an issuer's, and of so many names the letters are kept.
MOST_ALIKE, MOST_LETTERS = 3, 4096
TYPES = {*spelling.TYPES.values()}
# What is against a list no more at another moment and with a voucher.
NO_VOUCHER = "no voucher"
MENDED = (NO_VOUCHER, "past next update", "not current before", "by another key")
# What is against a list that no key of its issuer's name vouches for.
NO_KEY, TAKES_WEAK = "no voucher by a key of its issuer", "--weak accepts it"
# What is against a list that is used, but not for a certificate which another key of the issuer signed.
OTHER_KEY = "by another key of its issuer"
# What keeps a list from a certificate whose issuer's name reads like that of the list.
OTHER_SPELLING = "issuer spelled otherwise"


class Obstacle(NamedTuple):
    """What prevents a path: of which certificate, towards which other one if it is of a link, the words of `why`, the sentence."""
    of: Shown
    to: Shown
    words: str
    sentence: reasons.Sentence


class Unused(NamedTuple):
    """A list that isn't used: its position, file and issuer; the words of `why` and their sentences; whether it would revoke a certificate
    of the path, and which. It concerns a certificate if its issuer's name is that of the certificate's issuer, or reads like it."""
    position: int
    file: str
    issuer: str
    words: list
    sentences: list
    revokes: str
    of: Shown


class Edge(NamedTuple):
    """A link of the graph, and in few words what is against it."""
    of: Shown
    to: Shown
    notes: list


class Answer(NamedTuple):
    """The answer for one target, or, if that is no certificate, what is there instead.

    `unused` are the lists that aren't used and concern a certificate of the path, or the target; `idle` all that aren't used, which several
    targets share.
    A path is refused if a list that isn't used may revoke one of its certificates, unless such lists are ignored. A target that has
    no path may be an anchor itself. `store` has the words for the system's store, if its anchors are asked; `demands` are the purpose
    and the host that are asked for.
    """
    target: Shown
    instead: str
    outcome: str
    is_checked: bool
    path: list
    anchor: Shown
    obstacles: list
    edges: list
    unused: list
    idle: dict
    unread: list
    warnings: list
    is_asked_why: bool
    is_refused: bool
    as_anchor: Shown
    store: Optional[str] = None
    demands: Optional[Demands] = None

    @property
    def asked(self):
        """The host and the purpose that are asked for, as the first line has them."""
        return self.demands.asked() if self.demands else ""

    @property
    def not_judged(self):
        """What the answer says nothing of."""
        return self.demands.not_judged(NOT_JUDGED) if self.demands else NOT_JUDGED

    def false_comfort(self):
        """The lists that aren't used and would revoke a certificate of the path, or may."""
        return [crl for crl in self.unused if crl.revokes != NO] if self.path else []

    def is_accepted(self):
        """Whether there is a path that isn't refused."""
        return bool(self.path) and not self.is_refused

    def against(self):
        """The places of certificates that something speaks against, and not against a link alone: they aren't usable, have no issuer, or are
        revoked, or may be."""
        if self.path:
            return {crl.of.place for crl in self.false_comfort()}
        return {obstacle.of.place for obstacle in self.obstacles if obstacle.to is None or REVOKED.fullmatch(obstacle.words)}


def no_target(instead):
    """The answer if the target is no certificate."""
    return Answer(None, instead, NO_TARGET, True, [], None, [], [], [], {}, [], [], True, False, None)


@lru_cache(maxsize=MOST_LETTERS)
def letters(name):
    """What is alike of names that read alike, though their octets may differ (RFC 5280, 7.1)."""
    return (*name_of(name).casefold().split(),)


def braced(text):
    """A text that `format` leaves as it is."""
    return text.replace("{", "{{").replace("}", "}}")


class Judge:
    """Makes answers of reports. `unread` are lines on lists that can't be read."""

    def __init__(self, inputs, workspace, signatures):
        self.bundle, self.anchors, self.workspace, self.signatures = inputs.bundle, inputs.anchors, workspace, signatures
        self.unread, self.is_single, self.asked = [*inputs.unread_lists()], len(inputs.targets) == 1, 0
        self.ignores_unused, self.store, self.demands = inputs.asked.ignores_unused, inputs.store, inputs.demands
        self.pairs, self.holders = {*signatures.vouchers.text().splitlines()}, inputs.holders
        # the lists of each issuer, and of those that aren't used the ones whose issuers' names read alike
        self.lists, self.reported, self.idle, self.concerning, self.other_keys = {}, None, {}, {}, {}
        for position in self.bundle.of_kind[Kind.LIST]:
            self.lists.setdefault(self.bundle.items[position].issuer, []).append(position)

    def answer(self, target, report=None):
        """The answer for the certificate at a position; the report is asked for if none is given."""
        is_asked = report is None
        report = report or Report(self.workspace.why(target))
        shown = self.bundle.certificate(target)
        path = [self.bundle.certificate(step) for step in report.path or []]
        anchor = self.anchors.certificate(report.anchor) if report.path else None
        self.take_unused(report.unused)
        unused = [*self.unused(report, path or [shown], bool(path))]
        against, edges = [*self.obstacles(report)], [*self.edges(report)]
        weak = [*self.weak(report), *self.weak_target(target), *self.further(path or [shown])]
        is_refused = bool(path) and not self.ignores_unused and (bool(self.unread) or any(crl.revokes != NO for crl in unused))
        return Answer(shown, None, PATH_REFUSED if is_refused else report.outcome, report.is_checked, path, anchor, against, edges, unused,
                      self.idle, self.unread, weak, is_asked or bool(path), is_refused, None if path else self.as_anchor(target),
                      self.store, self.demands)

    @cached_property
    def named_anchors(self):
        """The anchors' positions by their names and keys, which are all that counts of an anchor."""
        items = ((anchor, self.anchors.items[anchor]) for anchor in reversed(self.anchors.of_kind[Kind.CERTIFICATE]))
        return {(item.subject, item.public_key_bytes): position for position, item in items}

    def as_anchor(self, target):
        """The anchor that a certificate is itself, by its name and key; none if it is none."""
        item = self.bundle.items[target]
        position = self.named_anchors.get((item.subject, item.public_key_bytes))
        return None if position is None else self.anchors.certificate(position)

    @cached_property
    def names(self):
        """What reads names as OpenSSL does, none if that isn't there."""
        return spelling.reader()

    @cached_property
    def by_letters(self):
        """The certificates of both sides by the letters of their subjects, the first few of each."""
        found = {}
        for side in (self.bundle, self.anchors):
            for position in side.of_kind[Kind.CERTIFICATE]:
                places = found.setdefault(letters(side.items[position].subject), [])
                if len(places) < MOST_ALIKE:
                    places.append((side, position))
        return found

    def like_issuer(self, position):
        """What is said of certificates whose names read like that of an issuer, of which there is no certificate."""
        issuer, said = self.bundle.items[position].issuer, []
        for side, other in self.by_letters.get(letters(issuer), ()):
            certificate = side.certificate(other)
            how = self.how(issuer, side.items[other].subject)
            said.append(f"; {certificate.place} has one that reads alike, {how.format('here', 'there')} ({certificate.file})")
        return "".join(said)

    def how(self, one, other):
        """In what two names differ that read alike, for two places to be filled in."""
        found = self.names.difference(one, other) if self.names else None
        if found is None:
            return "in other octets {0} than {1}"
        of = " a" if found.one in TYPES and found.other in TYPES else ""
        return f"but its {found.attribute} is{of} {braced(found.one)} {{0}} and{of} {braced(found.other)} {{1}}"

    def steps(self, report):
        """The path's steps: the position of each certificate, and its issuer's certificate."""
        path = report.path or []
        keys = [self.bundle.items[step] for step in path[1:]] + ([self.anchors.items[report.anchor]] if path else [])
        return zip(path, keys)

    def of_other_keys(self, report):
        """The lists of the path's issuers that another key of the name vouches for than the one that signed the certificate: they are
        used, and not for it."""
        found = set()
        for position, holder in self.steps(report):
            issuer, key = self.bundle.items[position].issuer, holder.public_key_bytes
            if (issuer, key) not in self.other_keys:
                lists = (crl for crl in self.lists.get(issuer, ()) if crl not in report.unused)
                self.other_keys[issuer, key] = [crl for crl in lists if not self.is_vouched(holder, self.bundle.items[crl])]
            found.update(self.other_keys[issuer, key])
        return sorted(found)

    def is_vouched(self, holder, item):
        return f"{fingerprint(holder.public_key_bytes)} {fingerprint(item.public_bytes())}" in self.pairs

    def end(self, link):
        """The certificate that a link leads to."""
        return (self.anchors if link.is_anchor else self.bundle).certificate(link.to)

    def edges(self, report):
        for node in report.nodes.values():
            for link, words in node.links.items():
                notes = [self.of_link(node.position, link, word).note or word for word in words]
                yield Edge(self.bundle.certificate(node.position), self.end(link), notes)

    def obstacles(self, report):
        """All that `why` reports against the certificates and links that the target leads to."""
        for node in report.nodes.values():
            here = self.bundle.certificate(node.position)
            for words in node.against():
                yield Obstacle(here, None, words, reasons.sentence(words))
            for link, whys in node.links.items():
                for words in whys:
                    yield Obstacle(here, self.end(link), words, self.of_link(node.position, link, words))
            if node.most is not None and report.is_too_long():
                words = f"leads to an anchor with at most {node.most} below"
                yield Obstacle(here, None, words, reasons.sentence(words))
            if node.is_missing:
                found = reasons.sentence(MISSING)
                text = f"{found.text}, {shortened(here.issuer)}{self.like_issuer(node.position)}"
                yield Obstacle(here, None, MISSING, found._replace(text=text))
            elif [*node.links] == [Link(node.position, False)]:
                yield Obstacle(here, None, ITS_OWN, reasons.sentence(ITS_OWN))

    def key(self, link):
        """The key of the certificate that a link leads to."""
        return (self.anchors if link.is_anchor else self.bundle).items[link.to].public_key_bytes

    def of_link(self, position, link, words):
        """A reason against a link; if the signature isn't verified, OpenSSL's own words are beside it, and beside a list its file."""
        found, by_list = reasons.sentence(words), REVOKED.fullmatch(words)
        if by_list:
            return found._replace(text=f"{found.text} ({self.bundle.file(int(by_list[1]))})")
        if words != NO_VOUCHER:
            return found
        key = self.key(link)
        weak = self.signatures.weak.get(position, {}).get(key)
        if weak:
            return found._replace(text=f"its signature is verified, but weak: {weak}", advice=TAKES_WEAK, note=f"weak signature: {weak}")
        refused = self.signatures.why_refused(position, key)
        return found._replace(text=f"{found.text} ({refused})") if refused else found

    def weak(self, report):
        """A warning for each certificate of the path whose signature is weak, and for a target whose own key is."""
        for position, holder in self.steps(report):
            weak = self.signatures.weak.get(position, {}).get(holder.public_key_bytes)
            if weak:
                item = self.bundle.certificate(position)
                yield f"{item.place} {item.subject}: its signature is weak: {weak}"

    def weak_target(self, target):
        """A warning if the target's own key is weak, which is no matter of any signature of the path."""
        weak, shown = self.signatures.weak_key(self.bundle.items[target]), self.bundle.certificate(target)
        if weak:
            yield f"{shown.place} {shown.subject}: its own key is weak: {weak}; a target isn't refused for that"

    def unused(self, report, certificates, is_path):
        """The lists that aren't used and concern one of these certificates, in the order of their positions: the path's, or if there is none
        the target. Of several targets each has the first ones alone."""
        by_letters, other = {}, self.of_other_keys(report)
        for one in certificates:
            by_letters.setdefault(letters(self.bundle.items[one.position].issuer), []).append(one)
        for position in islice(merge(*(self.concerning.get(name, ()) for name in by_letters), other), None if self.is_single else MOST_LISTS):
            item = self.bundle.items[position]
            concerned, said = by_letters[letters(item.issuer)], report.unused.get(position, [OTHER_KEY])
            issued = [one for one in concerned if self.bundle.items[one.position].issuer == item.issuer]
            revokes, of = self.revokes(position, item, said, issued or concerned, bool(issued) and (is_path or self.is_single))
            said = said if issued else [*said, OTHER_SPELLING]
            yield self.shown(position, said, concerned)._replace(revokes=revokes, of=of)

    def further(self, certificates):
        """A warning of lists that concern a target and aren't shown with it."""
        names = {letters(self.bundle.items[one.position].issuer) for one in certificates}
        count = 0 if self.is_single else sum(len(self.concerning.get(name, ())) for name in names) - MOST_LISTS
        return [f"{count} further lists that aren't used concern {certificates[0].place}; --target {certificates[0].position} shows them"] if count > 0 else []

    def shown(self, position, words, concerned=()):
        """A list that isn't used."""
        sentences = [self.of_list(position, one, concerned) for one in words]
        return Unused(position, self.bundle.file(position), shortened(name_of(self.bundle.items[position].issuer)), words, sentences, NO, None)

    def take_unused(self, words):
        """Takes the lists that a report says aren't used. They are the same for all targets, so this is done once."""
        if words is self.reported or words == self.reported:
            return
        self.reported, self.idle, self.concerning = words, {position: self.shown(position, words[position]) for position in sorted(words)}, {}
        for position in self.idle:
            self.concerning.setdefault(letters(self.bundle.items[position].issuer), []).append(position)

    def of_list(self, position, words, concerned):
        """A reason why a list isn't used for the certificates that it concerns."""
        found, weak = reasons.sentence(words), self.signatures.weak_by_any(position)
        if words == OTHER_SPELLING:
            how = self.how(self.bundle.items[position].issuer, self.bundle.items[concerned[0].position].issuer)
            return found._replace(text=f"{found.text}, {how.format('in the list', 'in the certificate')}")
        if words == NO_KEY and weak:
            return found._replace(text=f"its signature is weak: {weak}", advice=TAKES_WEAK)
        return found

    def revokes(self, position, crl, words, concerned, is_asked):
        """Whether a list that isn't used would revoke one of the certificates that it concerns, and which: `certpath why` is asked again, at a
        moment of the list and with vouchers for it alone, since of several used lists that revoke it names the first. Nobody knows where a
        critical extension says how the list is to be read."""
        self.asked += len(concerned) if is_asked else 0
        if not is_asked or self.asked > MOST_ASKED or any(not one.startswith(MENDED) for one in words):
            return UNKNOWN, concerned[0]
        vouchers = certpath.Vouchers()
        for holder in self.holders.certificates(crl.issuer):
            vouchers.add(holder.public_key_bytes, crl.public_bytes())
        self.workspace.vouch(vouchers)
        try:
            for one in concerned:
                again = Report(self.workspace.why(one.position, moment=crl.last_update_utc))
                found = again.nodes[one.position].links.values()
                if any((its := REVOKED.fullmatch(why)) and int(its[1]) == position for whys in found for why in whys):
                    return YES, one
        finally:
            self.workspace.vouch(self.signatures.vouchers)
        return NO, None
