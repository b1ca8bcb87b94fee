"""A model of the reports of `certpath why`, written apart from the proved code, from docs/RULES.md
and docs/REASONS.md: it knows what each item was made of, and reads no octets of one.

A path is looked for among all lists of certificates that repeat none, and so is how far each one
leads to an anchor: there is no table.
"""
import ipaddress
from datetime import datetime
from itertools import groupby
from typing import NamedTuple, Optional

from trials import hosts_model
from trials.hosts_model import MALFORMED

SUBJECT_KEY, KEY_USAGE, ALT_NAME = "2.5.29.14", "2.5.29.15", "2.5.29.17"
CONSTRAINTS, NAME_CONSTRAINTS, AUTHORITY_KEY = "2.5.29.19", "2.5.29.30", "2.5.29.35"
POLICY_CONSTRAINTS, EXTENDED_USAGE = "2.5.29.36", "2.5.29.37"
KEY_CERT_SIGN = 5
# How far an issuer leads: to no anchor, or with any number of certificates below it.
NOWHERE, ANY = -1, float("inf")
# Types of attributes by their abbreviations (RFC 4514, 3), and the tags of values that are text.
ABBREVIATIONS = {"2.5.4.3": "CN", "2.5.4.6": "C", "2.5.4.7": "L", "2.5.4.8": "ST", "2.5.4.10": "O",
                 "2.5.4.11": "OU", "0.9.2342.19200300.100.1.25": "DC",
                 "1.2.840.113549.1.9.1": "Email"}
TEXTS, WIDE_TEXT = {7, 12, 18, 19, 20, 21, 22, 25, 26, 27}, 30
PURPOSES = {"1.3.6.1.5.5.7.3.1": "serverAuth", "1.3.6.1.5.5.7.3.2": "clientAuth",
            "1.3.6.1.5.5.7.3.3": "codeSigning", "1.3.6.1.5.5.7.3.4": "emailProtection",
            "1.3.6.1.5.5.7.3.8": "timeStamping", "1.3.6.1.5.5.7.3.9": "OCSPSigning"}
# Reasons against a link, in their order.
LINK_REASONS = "no voucher", "key identifiers differ", "revoked by list", "no list used"
# How many names a list of names has at most, and octets of each.
MOST_NAMES, MOST_OCTETS = 20, 253
PATH, NONE, NO_TARGET = 0, 1, 3


class Name(NamedTuple):
    """Sets of attributes, each a type, a tag number and content; and all octets, which are shown if
    there is no text."""
    sets: tuple
    octets: bytes


class Constraints(NamedTuple):
    """A value of basicConstraints."""
    authority: bool
    length: Optional[int]


class Extension(NamedTuple):
    """An extension, with what its value says, as `Constraints`, the bits of keyUsage, or a key
    identifier: `MALFORMED` if it isn't well written, and None if it says nothing that is read.
    `octets` are those of the value."""
    identifier: str
    critical: bool
    value: object
    octets: bytes


class Certificate(NamedTuple):
    """What a certificate was made of."""
    serial: int
    issuer: Name
    subject: Name
    key: bytes
    first: datetime
    last: datetime
    extensions: tuple
    version: int


class Entry(NamedTuple):
    """An entry of a list."""
    serial: int
    extensions: tuple


class RevocationList(NamedTuple):
    """What a revocation list was made of."""
    issuer: Name
    this_update: datetime
    next_update: Optional[datetime]
    entries: tuple
    extensions: tuple
    has_version: bool


class Other(NamedTuple):
    """An item that is neither, and its first fault in the words of `why`."""
    octets: bytes
    fault: str


class Question(NamedTuple):
    """What `certpath why` is asked; vouchers are pairs of a key and an item."""
    items: tuple
    anchors: tuple
    vouchers: frozenset
    target: int
    moment: datetime
    demand_lists: bool
    purpose: Optional[str] = None
    host: Optional[str] = None


class Line(NamedTuple):
    """A line, and which kind of line it is: its words without what differs."""
    kind: str
    text: str


# Each kind of line.
KINDS = (
    "purpose", "host", "path of 1", "path of 2", "path of 3 or more", "none", "no target",
    "check yes", "at", "not valid before", "expired", "repeats", "critical and not judged",
    "basicConstraints not well written", "keyUsage not well written", "it is for",
    "its extKeyUsage isn't well written", "it has more than one extKeyUsage", "it names",
    "it names no host", "its subjectAltName isn't well written",
    "it has more than one subjectAltName", "no authority", "keyUsage without keyCertSign",
    "nameConstraints", "policyConstraints",
    *(f"{to}: {words}" for to in ("to a certificate", "to an anchor")
      for words in ("linked", "no voucher", "revoked by list", "no list used")),
    "to a certificate: key identifiers differ", "no issuer here", "leads to an anchor", "list",
    "no voucher by a key of its issuer", "no next update", "not current before",
    "past next update", "critical extension of a list", "has a critical extension", "other",
    "other anchor")
# Cases of lists that revoke a certificate. No kind of line shows them.
CASES = ("several lists revoke for one key", "the first list for one issuer is a further one for "
         "another", "other first lists for anchors", "a list before the first one isn't used")


def shown_moment(moment):
    return moment.isoformat(timespec="seconds")


def escaped(octets, others=b"\\"):
    """Octets as printable ASCII; these others are escaped too."""
    return "".join(chr(octet) if 32 <= octet < 127 and octet not in others else f"\\{octet:02X}"
                   for octet in octets)


def value_text(tag, content):
    """The text of an attribute's value; an error if it has none."""
    if tag in TEXTS:
        return content.decode("utf-8")
    return content.decode("utf-16-be") if tag == WIDE_TEXT else content.hex().upper()


def shown_name(name):
    """A name as text, or its octets if a value has none."""
    try:
        sets = [" + ".join(f"{ABBREVIATIONS.get(kind, f'OID({kind})')}={value_text(tag, content)}"
                           for kind, tag, content in group) for group in name.sets]
    except UnicodeDecodeError:
        return "#" + name.octets.hex().upper()
    return escaped(", ".join(sets).encode()) or "(empty)"


def listed(texts):
    """Names in a list, each of them octets."""
    shown = [escaped(text[:MOST_OCTETS], b"\\,") + "..." * (len(text) > MOST_OCTETS) for text in texts]
    more = f" and {len(shown) - MOST_NAMES} more" * (len(shown) > MOST_NAMES)
    return ", ".join(shown[:MOST_NAMES]) + more


def ranges(positions):
    """Positions, of which those that follow each other are shown as the first and the last."""
    apart = groupby(enumerate(sorted(positions)), lambda entry: entry[1] - entry[0])
    runs = [[position for _, position in run] for _, run in apart]
    return listed(("-".join(map(str, run[::len(run) - 1] if run[1:] else run))).encode()
                  for run in runs)


def place_of(reason):
    """Where a reason against a link comes: of lists the first one first."""
    words, _, last = reason.text.rpartition(" ")
    return LINK_REASONS.index(reason.kind), int(last) if words == reason.kind else 0


def host_text(kind, content):
    """A dNSName or an iPAddress as octets of text."""
    if kind == "dns":
        return content
    if len(content) not in (4, 16):
        return b"#" + content.hex().upper().encode()
    address = ipaddress.ip_address(content)
    mapped = getattr(address, "ipv4_mapped", None)
    return (f"::ffff:{mapped}" if mapped else str(address)).encode()


def values(extensions, identifier):
    """What the extensions of an identifier say."""
    return [extension.value for extension in extensions if extension.identifier == identifier]


def key_identifier(certificate, identifier):
    """The key identifier that the first extension of an identifier says; None if there is none."""
    found = values(certificate.extensions, identifier)
    return None if not found or found[0] == MALFORMED else found[0]


def is_authority(extension):
    value = extension.value
    return extension.identifier == CONSTRAINTS and value != MALFORMED and value.authority


def is_signer(extension):
    value = extension.value
    return extension.identifier == KEY_USAGE and value != MALFORMED and KEY_CERT_SIGN in value


def unissued(certificate):
    """Why a certificate may not issue others: kinds and words."""
    found = []
    if not any(map(is_authority, certificate.extensions)):
        found.append(Line("no authority", "no authority"))
    for identifier, words in ((KEY_USAGE, "keyUsage without keyCertSign"),
                              (NAME_CONSTRAINTS, "nameConstraints"),
                              (POLICY_CONSTRAINTS, "policyConstraints")):
        for k, extension in enumerate(certificate.extensions):
            if extension.identifier == identifier and not is_signer(extension):
                found.append(Line(words, f"extension {k} {words}"))
    return found


def words_of_uses(certificate):
    """What a certificate with an extKeyUsage is for."""
    found = values(certificate.extensions, EXTENDED_USAGE)
    if len(found) > 1:
        return Line("it has more than one extKeyUsage", "it has more than one extKeyUsage")
    if found[0] == MALFORMED:
        return Line("its extKeyUsage isn't well written", "its extKeyUsage isn't well written")
    texts = [PURPOSES.get(entry, entry).encode() for entry in found[0]]
    return Line("it is for", f"it is for {listed(texts)}")


def words_of_hosts(certificate):
    """Which hosts a certificate names."""
    found = values(certificate.extensions, ALT_NAME)
    if len(found) > 1:
        return Line("it has more than one subjectAltName", "it has more than one subjectAltName")
    if MALFORMED in found:
        return Line("its subjectAltName isn't well written",
                    "its subjectAltName isn't well written")
    texts = [host_text(*entry) for one in found for entry in one if entry[0] in ("dns", "ip")]
    if not texts:
        return Line("it names no host", "it names no host")
    return Line("it names", f"it names {listed(texts)}")


class Model:
    """What is so of the items of a question."""

    def __init__(self, asked):
        self.asked = asked
        self.certificates, self.roots = (
            {k: item for k, item in enumerate(items) if isinstance(item, Certificate)}
            for items in (asked.items, asked.anchors))
        self.lists = {k: item for k, item in enumerate(asked.items) if isinstance(item, RevocationList)}
        self.target = self.certificates.get(asked.target)
        self.others, self.other_anchors = (
            {k: it for k, it in enumerate(items) if isinstance(it, Other)}
            for items in (asked.items, asked.anchors))
        self.reached = self.all_reached()
        self.fit = [v for v, certificate in self.certificates.items()
                    if not self.unusable(certificate) and not unissued(certificate)]
        self.links = {v: [w for w, other in self.certificates.items()
                          if self.is_linked(certificate, other, False)]
                      for v, certificate in self.certificates.items()}
        self.anchored = {v: [a for a, other in self.roots.items()
                             if self.is_linked(certificate, other, True)]
                         for v, certificate in self.certificates.items()}

    def all_reached(self):
        """The positions of the target and of what is reached from it by the names of issuers."""
        found, new = set(), {self.asked.target} & {*self.certificates}
        while new:
            found |= new
            issuers = {self.certificates[v].issuer for v in new}
            new = {w for w, certificate in self.certificates.items() if certificate.subject in issuers} - found
        return found

    def is_processed(self, certificate, extension):
        """Whether a critical extension is one that is judged."""
        if extension.identifier == EXTENDED_USAGE:
            return self.asked.purpose is not None
        if extension.identifier == ALT_NAME:
            return self.asked.host is not None and certificate == self.target
        return extension.identifier in (CONSTRAINTS, KEY_USAGE)

    def unusable(self, certificate):
        """Why a certificate is not usable."""
        found, extensions = [], certificate.extensions
        if self.asked.moment < certificate.first:
            found.append(Line("not valid before",
                              f"not valid before {shown_moment(certificate.first)}"))
        if certificate.last < self.asked.moment:
            found.append(Line("expired", f"expired {shown_moment(certificate.last)}"))
        identifiers = [extension.identifier for extension in extensions]
        for k, entry in enumerate(identifiers):
            if entry in identifiers[:k]:
                found.append(Line("repeats", f"extension {k} repeats {entry}"))
        for k, entry in enumerate(extensions):
            if entry.critical and not self.is_processed(certificate, entry):
                words = "critical and not judged"
                found.append(Line(words, f"extension {k} {words} {entry.identifier}"))
        for identifier, title in ((CONSTRAINTS, "basicConstraints"), (KEY_USAGE, "keyUsage")):
            for k, entry in enumerate(extensions):
                if entry.identifier == identifier and entry.value == MALFORMED:
                    words = f"{title} not well written"
                    found.append(Line(words, f"extension {k} {words}"))
        return found

    def unmet(self, certificate):
        """Lines of demands that a certificate doesn't meet, without its position."""
        found, purpose, host = [], self.asked.purpose, self.asked.host
        if purpose and not hosts_model.allows(values(certificate.extensions, EXTENDED_USAGE),
                                              purpose):
            kind, words = words_of_uses(certificate)
            found.append(Line(kind, f"isn't for {PURPOSES.get(purpose, purpose)}: {words}"))
        if host and certificate == self.target and not hosts_model.serves(
                values(certificate.extensions, ALT_NAME), hosts_model.host_of(host)):
            kind, words = words_of_hosts(certificate)
            found.append(Line(kind, f"doesn't serve {host}: {words}"))
        return found

    def unused(self, one, keys):
        """Why a list isn't used under any of some keys of its issuer's name."""
        found, moment = [], self.asked.moment
        if not any((key, one) in self.asked.vouchers for key in keys):
            words = "no voucher by a key of its issuer"
            found.append(Line(words, words))
        if one.next_update is None:
            found.append(Line("no next update", "no next update"))
        if moment < one.this_update:
            found.append(Line("not current before",
                              f"not current before {shown_moment(one.this_update)}"))
        if one.next_update is not None and one.next_update < moment:
            found.append(Line("past next update",
                              f"past next update {shown_moment(one.next_update)}"))
        for k, entry in enumerate(one.extensions):
            if entry.critical:
                found.append(Line("critical extension of a list",
                                  f"extension {k} critical {entry.identifier}"))
        for k, entry in enumerate(one.entries):
            if any(extension.critical for extension in entry.extensions):
                found.append(Line("has a critical extension",
                                  f"entry {k} has a critical extension"))
        return found

    def used_lists(self, name, key):
        """The positions of the lists that are used under a name and key."""
        return [p for p, crl in self.lists.items() if crl.issuer == name
                and not self.unused(crl, [key])]

    def has_serial(self, p, certificate):
        """Whether an entry of a list has a certificate's serial number."""
        return certificate.serial in [entry.serial for entry in self.lists[p].entries]

    def revoking(self, certificate, issuer):
        """The positions of the lists that revoke a certificate under an issuer's name and key."""
        used = self.used_lists(issuer.subject, issuer.key)
        return [p for p in used if self.has_serial(p, certificate)]

    def unlinked(self, certificate, issuer, is_anchor):
        """Why a certificate isn't linked to one of its issuer's name. Of the lists that revoke it
        the first one says so."""
        found = []
        if (issuer.key, certificate) not in self.asked.vouchers:
            found.append(Line("no voucher", "no voucher"))
        named = key_identifier(certificate, AUTHORITY_KEY)
        own = key_identifier(issuer, SUBJECT_KEY)
        if not is_anchor and named is not None and own is not None and named != own:
            found.append(Line("key identifiers differ", "key identifiers differ"))
        revoking = self.revoking(certificate, issuer)
        if revoking:
            found.append(Line("revoked by list", f"revoked by list {min(revoking)}"))
        if self.asked.demand_lists and not self.used_lists(issuer.subject, issuer.key):
            found.append(Line("no list used", "no list used"))
        return found

    def is_linked(self, certificate, issuer, is_anchor):
        """Whether a certificate that meets the demands is linked to another one or to an anchor."""
        return (certificate.issuer == issuer.subject and not self.unmet(certificate)
                and not self.unlinked(certificate, issuer, is_anchor))

    def counts(self, v):
        """Whether path lengths count a certificate."""
        return self.certificates[v].subject != self.certificates[v].issuer

    def limit(self, v):
        """The path length of a fit issuer."""
        length = next(extension for extension in self.certificates[v].extensions if is_authority(extension)).value.length
        return ANY if length is None else length

    def longer(self, path):
        """The paths with one issuer more, if its path length allows that."""
        below = sum(map(self.counts, path[1:]))
        return [(*path, w) for w in self.links[path[-1]]
                if w in self.fit and w not in path and below <= self.limit(w)]

    def first_path(self):
        """The first path and its anchor; None if there is none."""
        paths = [] if self.unusable(self.target) else [(self.asked.target,)]
        while paths:
            for path in paths:
                if self.anchored[path[-1]]:
                    return path, self.anchored[path[-1]][0]
            paths = [longer for entry in paths for longer in self.longer(entry)]
        return None

    def reach(self, v):
        """The most certificates that may be below one that leads to an anchor."""
        return self.reach_of((v,)) if v in self.fit else NOWHERE

    def reach_of(self, chain):
        """Likewise, by way of a chain of issuers alone."""
        room = min(self.limit(v) - sum(map(self.counts, chain[:k])) for k, v in enumerate(chain))
        if room < 0:
            return NOWHERE
        further = [self.reach_of((*chain, w)) for w in self.links[chain[-1]]
                   if w in self.fit and w not in chain]
        return max([NOWHERE, *further, *[room] * bool(self.anchored[chain[-1]])])

    def bounds(self):
        """The positions of issuers from which a path length holds another certificate back."""
        further = sorted(self.reached - {self.asked.target})
        reach = {v: self.reach(v) for v in further}
        back = [w for w in further if reach[w] == NOWHERE and self.counts(w)]
        return [v for v in further if reach[v] == 0 and any(v in self.links[w] for w in back)]

    def revocations(self, certificate, holders):
        """Of each certificate or anchor of the issuer's name the lists that revoke, if any do."""
        each = [self.revoking(certificate, holder) for holder in holders.values()
                if holder.subject == certificate.issuer]
        return [*filter(None, each)]

    def cases(self):
        """Which of `CASES` occur, for each certificate that is reached."""
        for certificate in map(self.certificates.get, self.reached):
            issuers, anchors = (self.revocations(certificate, holders)
                                for holders in (self.certificates, self.roots))
            first, first_of_anchors = ({*map(min, each)} for each in (issuers, anchors))
            unused = [p for p, one in self.lists.items() if one.issuer == certificate.issuer
                      and self.has_serial(p, certificate) and not any(p in it for it in issuers)]
            yield from (case for case, occurs in zip(CASES, (
                any(len(each) > 1 for each in issuers + anchors),
                any(p in each and p != min(each) for p in first for each in issuers),
                first and first_of_anchors and first != first_of_anchors,
                unused and first and min(unused) < min(first))) if occurs)

    def answer(self):
        """The line of the answer, and the status."""
        if self.target is None:
            return Line("no target", "no target"), NO_TARGET
        found = self.first_path()
        if found is None:
            return Line("none", "none"), NONE
        path, anchor = found
        kind = f"path of {len(path)}" if len(path) < 3 else "path of 3 or more"
        return Line(kind, f"path {' '.join(map(str, path))} anchor {anchor}"), PATH

    def link_lines(self, v, to, holders):
        """The lines of the links to certificates or anchors, these by their positions: which hold,
        and for each reason which don't."""
        certificate, is_anchor = self.certificates[v], to.startswith("anchor")
        kind = "to an anchor" if is_anchor else "to a certificate"
        reasons = {w: self.unlinked(certificate, holder, is_anchor) for w, holder in holders.items()
                   if holder.subject == certificate.issuer}
        linked = Line("linked", "linked")
        each = [linked, *sorted({entry for found in reasons.values() for entry in found}, key=place_of)]
        lines = []
        for reason in each:
            to_whom = [w for w, found in reasons.items() if reason in (found or [linked])]
            words = reason.text if reason is linked else f"not linked: {reason.text}"
            lines += [Line(f"{kind}: {reason.kind}",
                           f"at {v} to {to}{ranges(to_whom)} {words}")] * bool(to_whom)
        return lines

    def certificate_lines(self, v):
        """All lines of a certificate that is reached."""
        certificate, front = self.certificates[v], f"at {v}"
        found = [Line("at", f"{front} {shown_name(certificate.subject)}")]
        found += [reason._replace(text=f"{front} not usable: {reason.text}")
                  for reason in self.unusable(certificate)]
        found += [reason._replace(text=f"{front} {reason.text}") for reason in self.unmet(certificate)]
        if v != self.asked.target:
            found += [reason._replace(text=f"{front} no issuer: {reason.text}")
                      for reason in unissued(certificate)]
        links = self.link_lines(v, "", self.certificates)
        links += self.link_lines(v, "anchor ", self.roots)
        found += links
        if not links:
            name = shown_name(certificate.issuer)
            found.append(Line("no issuer here", f"{front} no issuer here: {name}"))
        return found

    def list_lines(self, p):
        """All lines of a list."""
        one = self.lists[p]
        keys = [holder.key for holders in (self.certificates, self.roots) for holder in holders.values()
                if holder.subject == one.issuer]
        reasons = self.unused(one, keys)
        own = [Line("list", f"list {p} {shown_name(one.issuer)}")] * bool(reasons)
        return own + [reason._replace(text=f"list {p} not used: {reason.text}") for reason in reasons]

    def fault_lines(self):
        """Why the target is other, if it is, and why anchors are: there are never more than 20."""
        own = self.others.get(self.asked.target)
        found = [Line("other", f"other {self.asked.target} {own.fault}")] if own else []
        return found + [Line("other anchor", f"other anchor {a} {it.fault}")
                        for a, it in self.other_anchors.items()]

    def report(self):
        """All lines, and the status."""
        asked, found = self.asked, []
        if asked.purpose:
            found.append(Line("purpose", f"purpose {PURPOSES.get(asked.purpose, asked.purpose)}"))
        if asked.host:
            found.append(Line("host", f"host {asked.host}"))
        answer, status = self.answer()
        found += [answer, Line("check yes", "check yes"), *self.fault_lines()]
        for v in [asked.target] * (self.target is not None) + sorted(self.reached - {asked.target}):
            found += self.certificate_lines(v)
        if status == NONE:
            found += [Line("leads to an anchor",
                           f"at {v} leads to an anchor with at most {self.reach(v)} below")
                      for v in self.bounds()]
        for p in self.lists:
            found += self.list_lines(p)
        return found, status
