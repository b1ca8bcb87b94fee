"""Makes random bundles for the trial of `certpath why`, as the model of reasons has them, and their
octets. Signatures are empty: it is vouched for items without them.
"""
import random
from datetime import datetime, timedelta

from trials import reasons_model as model
from trials.hosts_model import ANY, MALFORMED
from trials.paths import vouchers
from trials.reasons_model import (ALT_NAME, AUTHORITY_KEY, CONSTRAINTS, EXTENDED_USAGE, KEY_USAGE,
                                  NAME_CONSTRAINTS, POLICY_CONSTRAINTS, SUBJECT_KEY, Certificate,
                                  Constraints, Entry, Extension, Name, Other, Question,
                                  RevocationList)
from trials.synthetic import element, number, sequence

MOMENTS = [datetime(*each) for each in (
    (2026, 12, 1), (2024, 2, 29, 12, 30, 15), (1999, 12, 31, 23, 59, 59),
    (2049, 12, 31, 23, 59, 59), (2050, 1, 1), (1950, 1, 1), (9999, 12, 31, 23, 59, 59))]
AWAY = [timedelta(seconds=index) for index in (0, 1, 60, 86_400, 40_000_000, 800_000_000)]
EARLIEST, LATEST = datetime(1950, 1, 1), datetime(9999, 12, 31, 23, 59, 59)
# The first year whose times are written in four digits (RFC 5280, 4.1.2.5).
LONG_YEARS = 2050
ALGORITHM, SIGNATURE = sequence(bytes.fromhex("06022a03")), element(0x03, b"\0")
KEYS = [sequence(ALGORITHM, element(0x03, bytes([0, index]))) for index in range(4)]
KEY_IDENTIFIERS = dict(zip(KEYS, (b"\0\1", b"\0\2", b"", b"\1" * 20)))
SERIALS = (0, 1, 2, 3, 127, 128, 1 << 70)
TAGS = {"mail": 0x81, "dns": 0x82, "dir": 0xa4, "uri": 0x86, "ip": 0x87}
# How much of what is made has a fault, of certificates and of lists: it differs from bundle to
# bundle.
FAULTS, LIST_FAULTS = (0, 0, 0.01, 0.03, 0.03, 0.1, 0.3), (0, 0.1, 0.3)
COPIES, PAIRS_MORE = 0.1, 2
PURPOSES = ("1.3.6.1.5.5.7.3.1", "1.3.6.1.5.5.7.3.2", "1.2.3")
HOSTS = ("a.test", "b.a.test", "192.0.2.1", "2001:db8::1")
UNKNOWN = ("2.5.29.32", "2.5.29.28", "1.2.3.4", "2.999.18446744073709551615", "1.3.6.1.5.5.7.1.1")


def identifier_of(dotted):
    """An OBJECT IDENTIFIER (X.690, 8.19)."""
    first, second, *rest = map(int, dotted.split("."))
    content = b""
    for value in (40 * first + second, *rest):
        digits = [value & 127]
        while value > 127:
            value >>= 7
            digits.insert(0, 128 | value & 127)
        content += bytes(digits)
    return element(0x06, content)


def named(*sets):
    """A name of sets of attributes, each a type, an identifier octet and content."""
    made = [sorted((sequence(identifier_of(kind), element(tag, content)), (kind, tag & 31, content))
                   for kind, tag, content in group) for group in sets]
    octets = sequence(*(element(0x31, *(part for part, _ in entry)) for entry in made))
    return Name(tuple(tuple(attribute for _, attribute in entry) for entry in made), octets)


def common(text, tag=0x0c):
    return named([("2.5.4.3", tag, text.encode())])


# Names, of which those of the first line are plain; two have one text, and others none.
PLAIN_NAMES = [common(each) for each in ("a", "b", "c", "d", "Some Authority")]
NAMES = [
    *PLAIN_NAMES * 2, common("a", 0x13), named(), common(""), common("M\u00fcller"),
    common("a\nat 0 linked\\\x7f"),
    named([("2.5.4.6", 0x13, b"FR")], [("2.5.4.10", 0x0c, b"Some"), ("2.5.4.11", 0x0c, b"Unit"),
                                       ("2.5.4.3", 0x0c, b"x, y")]),
    named([("1.2.3.4", 0x0c, b"new")], [("2.999", 0x02, b"\x05"), ("2.5.4.8", 0x30, b"")]),
    named([("2.5.4.7", 0x1e, "\u0105b".encode("utf-16-be"))],
          [("0.9.2342.19200300.100.1.25", 0x16, b"test"), ("1.2.840.113549.1.9.1", 0x16, b"a@b")]),
    named([("2.5.4.3", 0x14, b"M\xfcller")]), named([("2.5.4.3", 0x1e, b"\0a\0")]),
    named([("2.5.4.6", 0x13, b"FR")], [("2.5.4.10", 0x1e, b"\xd8\0")])]


def bits(*places):
    """A keyUsage of some bits (X.690, 11.2.2)."""
    content = bytearray(max(places) // 8 + 1)
    for place in places:
        content[place // 8] |= 128 >> place % 8
    return frozenset(places), element(0x03, bytes([7 - max(places) % 8]) + bytes(content))


def malformed(*written):
    return [(MALFORMED, bytes.fromhex(entry)) for entry in written]


def constraints(authority, length):
    parts = [b"\x01\x01\xff"] * authority + [number(value) for value in (length,) if value is not None]
    return Constraints(authority, length), sequence(*parts)


def alternatives(*names):
    """A subjectAltName."""
    return names, sequence(*(element(TAGS[kind], content) for kind, content in names))


def uses(*purposes):
    """An extKeyUsage."""
    return purposes, sequence(*map(identifier_of, purposes))


# Values of basicConstraints: of authorities, of others, and some that aren't well written: a
# default, a longer length, BER's true, a longer path length, a negative one, 2^32, a part that
# lacks, nothing, another type, another order.
AUTHORITIES = [constraints(True, each) for each in (None,) * 8 + (0,) * 5 + (1, 1, 1, 2, 3, 2**32 - 1)]
LIMITED = [constraints(True, each) for each in (None, None, 0, 0, 0, 1, 1, 2)]
NO_AUTHORITIES = [constraints(False, each) for each in (None, 0, 7)]
BAD_CONSTRAINTS = malformed(
    "3003010100", "308100", "3003010101", "30070101ff02020000", "30060101ff0201ff",
    "300a0101ff02050100000000", "30030101ff00", "", "0500", "30060201000101ff")
# Values of keyUsage: with keyCertSign, without, and some that aren't well written: no bit, a
# trailing 0 bit, an unused bit that is 1, bit 9, a longer length, octets after it, nothing, another
# type, trailing 0 bits.
SIGNERS = [bits(5), bits(5, 6), bits(0, 5), bits(0, 5, 8)]
NO_SIGNERS = [bits(0), bits(4), bits(6), bits(8), bits(0, 2, 7)]
BAD_USAGES = malformed("030100", "03020180", "03020205", "0303060440", "0381020204", "0302020400",
                       "", "0500", "03020004")
# Values in which no identifier of a key is, or none that is read.
BAD_AUTHORITY_KEYS = malformed("3000", "30048102abcd", "3004a0020500", "b0048002abcd",
                               "30048002abcd0500", "3081048002abcd", "8002abcd", "",
                               "30088002abcd01020000")
BAD_SUBJECT_KEYS = malformed("8402abcd", "048102abcd", "0402abcd00", "0500", "")
USES = [uses(*index) for index in (PURPOSES[:1], PURPOSES[:1], PURPOSES[1:2], PURPOSES[:2], (ANY,),
                             PURPOSES[1:], ("1.3.6.1.5.5.7.3.4", "1.3.6.1.5.5.7.3.9"),
                             [f"1.2.{place}" for place in range(22)], [f"1.2.{place}" for place in range(20)])]
BAD_USES = malformed("3000", "", "308103060129", "30030c0161", "0500")
LONG = b"a" * 250 + b".test"
ALTERNATIVES = [alternatives(*index) for index in (
    [("dns", b"a.test")], [("dns", b"*.a.test")], [("dns", b"c.test"), ("ip", b"\xc0\0\2\1")],
    [("dns", LONG), ("dns", LONG[:253]), ("dns", b"a,b\\\n")], [("dns", LONG[:253])],
    [("mail", b"x@a.test")],
    [("uri", b"https://a.test"), ("dir", PLAIN_NAMES[0].octets)],
    [("ip", bytes.fromhex("20010db8" + "00" * 11 + "01")), ("ip", b"\x0a\0\0")],
    [("ip", bytes.fromhex("00" * 10 + "ffff01020304"))],
    [("dns", f"{place}.test".encode()) for place in range(21)])]
BAD_ALTERNATIVES = malformed("3000", "", "308103820161", "30038201e4", "0500")
NULL = b"\x05\0"
# Items that are other, each with its first fault; one with a NULL after its signature has this.
NOTHING_MORE = "item: expected nothing more; found universal primitive 5 of 0"
OTHERS = [Other(bytes.fromhex(octets), fault) for octets, fault in (
    ("3000", "at 2: tbsCertificate: expected a SEQUENCE; found no element"),
    ("3003020105", "at 2: tbsCertificate: expected a SEQUENCE; found universal primitive 2 of 1"),
    ("30073005a003020100", "at 4: tbsCertificate.version: expected the INTEGER 1 or 2 in a constructed "
                           "[0], or nothing; found context-specific constructed 0 of 3"))]


def extension_octets(made):
    return sequence(identifier_of(made.identifier), *[b"\x01\x01\xff"] * made.critical,
                    element(0x04, made.octets))


def wrapped(tag, extensions):
    """Extensions in their tag; nothing of none."""
    return [element(tag, sequence(*map(extension_octets, extensions)))] * bool(extensions)


def time_octets(moment):
    """A time (RFC 5280, 4.1.2.5)."""
    text = "%04d%02d%02d%02d%02d%02dZ" % moment.timetuple()[:6]
    is_long = moment.year >= LONG_YEARS
    return element(0x18 if is_long else 0x17, (text if is_long else text[2:]).encode())


def entry_octets(made):
    extensions = [sequence(*map(extension_octets, made.extensions))] * bool(made.extensions)
    return sequence(number(made.serial), time_octets(EARLIEST), *extensions)


def octets_of(made, *after):
    """The octets of an item; what is after its signature makes it another one."""
    if isinstance(made, Other):
        return made.octets
    if isinstance(made, Certificate):
        version = [element(0xa0, number(made.version))] * bool(made.version)
        validity = sequence(time_octets(made.first), time_octets(made.last))
        first = sequence(*version, number(made.serial), ALGORITHM, made.issuer.octets, validity,
                         made.subject.octets, made.key, *wrapped(0xa3, made.extensions))
    else:
        updates = [time_octets(value) for value in (made.this_update, made.next_update) if value]
        entries = [sequence(*map(entry_octets, made.entries))] * bool(made.entries)
        first = sequence(*[number(1)] * made.has_version, ALGORITHM, made.issuer.octets, *updates,
                         *entries, *wrapped(0xa0, made.extensions))
    return sequence(first, ALGORITHM, SIGNATURE, *after)


def files_of(asked):
    """Bundle, anchors and vouchers, as `certpath` reads them."""
    bundle, anchors = (b"".join(map(octets_of, value)) for value in (asked.items, asked.anchors))
    return bundle, anchors, vouchers(sorted((key, octets_of(entry)) for key, entry in asked.vouchers))


def words_of(asked):
    """The words after the names of the files."""
    found = ["--target", str(asked.target), "--at", model.shown_moment(asked.moment)]
    found += ["--demand-lists"] * asked.demand_lists
    found += [f"--purpose={asked.purpose}"] * bool(asked.purpose)
    return found + [f"--host={asked.host}"] * bool(asked.host)


class Chance:
    """One random question. Names have ranks: most certificates are issued by the next one. Some
    bundles are long: chains of several authorities, where path lengths matter. Some have several
    lists of one name, and issuers of that name with different keys."""

    def __init__(self, seed):
        self.random = random.Random(seed)
        self.pick = self.random.choice
        self.is_long = self.is_so(0.4)
        self.faults = self.pick(FAULTS[:-2] if self.is_long else FAULTS)
        self.list_faults = self.pick(LIST_FAULTS)
        self.moment = self.pick(MOMENTS)
        count = self.pick((4, 5) if self.is_long else (1, 2, 2, 3, 3, 3, 4, 4))
        self.names = [*dict.fromkeys(self.random.sample(NAMES, count))]
        self.keys = {name: self.pick(KEYS) for name in self.names}
        self.crowded = self.names[:2][-1] if not self.is_long and self.is_so(0.25) else None
        self.serials = SERIALS[:2] if self.crowded else self.pick((SERIALS, SERIALS[:2]))
        demanded = self.is_so(0.1 if self.is_long else 0.35)
        self.demand_lists = self.is_so(0 if self.is_long else 0.2)
        self.purpose = self.pick(PURPOSES) if demanded and self.is_so(0.8) else None
        self.host = self.pick(HOSTS) if demanded and self.is_so(0.6) else None

    def is_so(self, chance):
        return self.random.random() < chance

    def is_fault(self):
        return self.is_so(self.faults)

    def is_list_fault(self):
        return self.is_so(self.list_faults)

    def away(self, sign):
        """A time before or after the moment, as a certificate can have it."""
        away = self.pick(AWAY)
        if sign < 0:
            return self.moment - min(away, self.moment - EARLIEST)
        return self.moment + min(away, LATEST - self.moment)

    def span(self, is_wrong):
        """Two times about the moment; if that is wanted one is on the wrong side, or both are."""
        first, last = self.away(-1), self.away(1)
        if is_wrong:
            wrong = self.pick((1, 2, 3))
            first, last = (self.away(1) if wrong & 1 else first,
                           self.away(-1) if wrong & 2 else last)
        return first, last

    def made(self, identifier, value, critical=None):
        """An extension of a value and its octets."""
        return Extension(identifier, self.is_so(0.5) if critical is None else critical, *value)

    def authority_extensions(self):
        """basicConstraints and keyUsage."""
        limits = self.pick(LIMITED if self.is_long else AUTHORITIES)
        if self.is_so(max(self.faults, 0.04)):
            limits = self.pick((None, self.pick(NO_AUTHORITIES), self.pick(BAD_CONSTRAINTS)))
        usage = self.pick((None, self.pick(SIGNERS)))
        if self.is_fault():
            usage = self.pick((self.pick(NO_SIGNERS), self.pick(BAD_USAGES)))
        pairs = (CONSTRAINTS, limits), (KEY_USAGE, usage)
        return [self.made(identifier, value) for identifier, value in pairs if value]

    def key_value(self, identifier, key):
        """A value that names a key, and its octets."""
        content = KEY_IDENTIFIERS[key]
        if identifier == SUBJECT_KEY:
            return content, element(0x04, content)
        more = self.pick((b"", b"", number(5)))
        return content, sequence(element(0x80, content), more)

    def key_extensions(self, issuer, key):
        """The identifiers of the issuer's key and of its own, which may lack."""
        found = []
        for identifier, own, bad in ((AUTHORITY_KEY, self.keys[issuer], BAD_AUTHORITY_KEYS),
                                     (SUBJECT_KEY, key, BAD_SUBJECT_KEYS)):
            if self.is_so(0.4):
                value = self.key_value(identifier, self.pick(KEYS) if self.is_so(0.15) else own)
                value = self.pick(bad) if self.is_fault() else value
                found.append(self.made(identifier, value, self.is_fault()))
        return found

    def repeated(self, made):
        """An extension of the same identifier, which may say something else."""
        sound = {CONSTRAINTS: AUTHORITIES + NO_AUTHORITIES, KEY_USAGE: SIGNERS + NO_SIGNERS}
        keys = [self.key_value(made.identifier, key) for key in KEYS]
        sound.update({AUTHORITY_KEY: keys, SUBJECT_KEY: keys})
        return self.made(made.identifier, self.pick(sound.get(made.identifier, [made[2:]])))

    def demanded_extensions(self):
        """Purposes and names of hosts, so that they are often met."""
        found = []
        for identifier, asked, sound, bad in (
                (EXTENDED_USAGE, self.purpose, USES, BAD_USES),
                (ALT_NAME, self.host, ALTERNATIVES, BAD_ALTERNATIVES)):
            if self.is_so(0.5 if asked else 0.1):
                value = self.pick(bad if self.is_so(0.1) else sound)
                times = 2 if self.is_so(0.15) else 1
                found += [self.made(identifier, value, self.is_so(0.3))] * times
        return found

    def further_extensions(self):
        """Constraints that are not processed, and extensions that are not judged."""
        found, nothing = [], (None, b"\x30\0")
        for value in (NAME_CONSTRAINTS, POLICY_CONSTRAINTS):
            found += [self.made(value, nothing)] * (self.is_fault() and self.is_so(0.4))
        if self.is_so(0.2):
            found.append(self.made(self.pick(UNKNOWN), nothing, self.is_fault()))
        return found

    def extensions(self, issuer, key, is_leaf):
        found = self.key_extensions(issuer, key)
        found += self.authority_extensions() if self.is_so(0.5 if is_leaf else 0.95) else []
        found += self.demanded_extensions() + self.further_extensions()
        if found and self.is_so(max(self.faults, 0.03)):
            found += [self.repeated(self.pick(found)) for _ in range(self.pick((1, 1, 2)))]
        self.random.shuffle(found)
        return tuple(found)

    def key_of(self, name):
        is_other = self.is_so(0.6 if name == self.crowded else 0.1)
        return self.pick(KEYS) if is_other else self.keys[name]

    def certificate(self, rank, above):
        """A certificate of a name, issued by another one or by itself."""
        subject, issuer = self.names[rank], self.names[min(above, len(self.names) - 1)]
        key = self.key_of(subject)
        extensions = self.extensions(issuer, key, rank == 0)
        is_wrong = self.is_fault() or self.is_so(0.1 if rank == 0 else 0)
        return Certificate(self.pick(self.serials), issuer, subject, key, *self.span(is_wrong),
                           extensions, 2 if extensions else self.pick((0, 1, 2)))

    def further_certificate(self):
        """A certificate of any name, not always issued by the next one."""
        rank, other = (self.random.randrange(len(self.names)) for _ in "ab")
        return self.certificate(rank, self.pick((rank + 1, rank + 1, rank, other)))

    def uncritical(self):
        """Extensions of a list or an entry: critical only with a fault."""
        found = [self.made(self.pick(UNKNOWN), (None, NULL), self.is_list_fault())
                 for _ in range(self.pick((0, 0, 0, 1, 2)))]
        return tuple(found)

    def entry(self):
        return Entry(self.pick(self.serials), self.uncritical())

    def revocations(self, issuer):
        this_update, next_update = self.span(self.is_list_fault())
        entries = tuple(self.entry() for _ in range(self.pick((0, 0, 1, 1, 2, 3))))
        extensions = self.uncritical()
        has_version = any((extensions, *(entry.extensions for entry in entries))) or self.is_so(0.5)
        return RevocationList(issuer, this_update,
                              None if self.is_list_fault() else next_update, entries, extensions,
                              has_version)

    def other(self):
        """An item that is neither; some are like certificates and lists, with a NULL at the end."""
        made = self.pick((self.certificate(0, 1), self.revocations(self.names[0]), None))
        if made is None:
            return self.pick(OTHERS)
        octets = octets_of(made, NULL)
        return Other(octets, f"at {len(octets) - len(NULL)}: {NOTHING_MORE}")

    def items(self):
        """Certificates of each name and some more, and lists; an item may be there twice."""
        most = len(self.names)
        found = [self.certificate(index, index + 1) for index in range(most - 1) if not self.is_fault()]
        further = max(self.random.randint(0, 7 - most), not found)
        found += [self.further_certificate() for _ in range(further)]
        lists = self.pick((0, 0, 1, 1, 2))
        found += [self.revocations(self.pick(self.names)) for _ in range(lists)]
        if self.demand_lists:
            found += [self.revocations(name) for name in self.names[1:] if self.is_so(0.8)]
        if self.crowded:
            found += [self.certificate(self.names.index(self.crowded), most) for _ in "ab"]
            found += [self.revocations(self.crowded) for _ in range(self.pick((2, 3, 4)))]
        found += [self.other()] * self.is_so(0.1)
        self.random.shuffle(found)
        return found + [self.pick(found)] * self.is_so(COPIES)

    def anchors(self):
        """Certificates of the last names most of all."""
        found = []
        for _ in range(self.pick((1, 1, 2) if self.is_long else (0, 1, 1, 1, 1, 2, 2, 3))):
            name = self.pick((self.names[-1], self.names[-1], self.pick(self.names)))
            key, span = self.key_of(name), self.span(self.is_fault())
            found.append(Certificate(self.pick(SERIALS), self.pick(self.names), name, key, *span,
                                     self.extensions(name, key, False), 2))
        others = self.revocations(self.names[0]), self.other()
        return found + [self.pick(others)] * self.is_so(0.05)

    def vouched(self, items, holders):
        """Pairs: a key of the issuer's name for most items, and some others."""
        for item in items:
            if isinstance(item, Other):
                continue
            keys = sorted({one.key for one in holders if one.subject == item.issuer})
            if keys and self.is_so(0.5):
                keys = [self.pick(keys)]
            yield from ((key, item) for key in keys if not self.is_fault())
        for _ in range(self.random.randrange(PAIRS_MORE)):
            yield self.pick(KEYS), self.pick(items)

    def question(self):
        """The question, most of all about a certificate of the first name."""
        items, anchors = self.items(), self.anchors()
        self.random.shuffle(anchors)
        holders = [item for item in items + anchors if isinstance(item, Certificate)]
        below = [k for k, item in enumerate(items)
                 if isinstance(item, Certificate) and item.subject == self.names[0]]
        target = self.pick((*below, *below, *below, self.random.randrange(len(items))))
        if self.is_so(0.02):
            target = len(items) + self.pick((0, 1, 4_000_000_000))
        return Question(tuple(items), tuple(anchors), frozenset(self.vouched(items, holders)),
                        target, self.moment, self.demand_lists, self.purpose, self.host)
