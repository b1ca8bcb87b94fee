"""Makes chains with openssl that have no path, each for a reason of its own, and lists that aren't used; and compares what
./vouch, `./certpath path` and `./certpath why` say of each with what RFC 5280 and tools/trials/refusals.txt want.

The report of `why` is wanted whole: the one cause is in it, and no obstacle that isn't there.
"""
import re
import tempfile
from concurrent.futures import ThreadPoolExecutor
from typing import NamedTuple

from program import repo
from pki.reporting import counted
from trials.chains import AUTHORITY, ISSUER_ID, NO_AUTHORITY, NO_SIGNER, OF_AUTHORITY, OF_LEAF, OF_ROOT, OWN_ID, SIGNER, Chain
from trials.count import Trial
from trials.vouching_pki import Workshop
from trials.vouching_trials import Trials

WANTED, AT = "tools/trials/refusals.txt", "2026-06-01T00:00:00"
PAST, TO_COME = "20251231235959Z", "20270101000000Z"
# A list's next update that is past at the moment.
PAST_UPDATE = "20260201000000Z"
RUNS = 4
CLASSES = {"certificate": "cert", "list": "list"}
# What no output may hold but for the ends of lines.
CONTROL = re.compile(rb"[\x00-\x09\x0b-\x1f\x7f]")


class Wanted(NamedTuple):
    """What is wanted of a case: the lines of ./vouch and those of `certpath why`."""
    vouch: list
    why: list


class Case(NamedTuple):
    """Files of the bundle, the target first; files of anchors; further words of `certpath`."""
    bundle: list
    anchors: list
    words: tuple = ()


def wanted():
    """What tools/trials/refusals.txt wants, by title."""
    found = {}
    for part in repo.read(WANTED).split("\n== ")[1:]:
        head, *lines = part.strip("\n").split("\n")
        found[head.partition(":")[0]] = Wanted([it[2:] for it in lines if it[0] == "!"], [it for it in lines if it[0] != "!"])
    return found


class Maker:
    """Makes the certificates and lists of one case."""

    def __init__(self, shop, title, root):
        self.chain, self.root = Chain(shop, title.replace(" ", "-").replace(",", "")), root

    def authority(self, extensions=OF_AUTHORITY, subject="/CN=Intermediate", key="p256", issuer=None, **further):
        return self.chain.certificate(subject, key, issuer or self.root, extensions, **further)

    def leaf(self, issuer, extensions=OF_LEAF, subject="/CN=leaf", **further):
        return self.chain.certificate(subject, "p521", issuer, extensions, **further)

    def case(self, *bundle, anchors=None, words=()):
        return Case([*bundle], anchors or [self.root], words)

    def of_leaf(self, **leaf):
        """A chain whose leaf is otherwise."""
        issuer = self.authority()
        return self.case(self.leaf(issuer, **leaf), issuer)

    def of_authority(self, **authority):
        """A chain whose certificate between is otherwise."""
        issuer = self.authority(**authority)
        return self.case(self.leaf(issuer), issuer)

    def of_twins(self, **bundled):
        """A leaf whose issuer has two certificates, of which another one is at hand than the one that the leaf names."""
        return self.case(self.leaf(self.authority()), self.authority(**bundled))

    def of_list(self, words=(), signer=None, leaf=None, **further):
        """A chain with a list that would revoke the leaf, which may be otherwise; another certificate of the issuer's name may sign it."""
        issuer = self.authority()
        leaf = self.leaf(issuer, **(leaf or {}))
        return self.case(leaf, issuer, self.chain.list(self.authority(**signer) if signer else issuer, [2], **further), words=words)


OTHER_ID = "subjectKeyIdentifier=0102030405"
SERVER, CLIENT, HOST = ("--purpose", "serverAuth"), ("--purpose", "client"), ("--host", "www.example.test")
USED_BY_OTHERS, NAMES = "extendedKeyUsage=clientAuth,emailProtection", "subjectAltName={}"
DEMANDED, ONLY_USERS = ("--demand-lists",), (ISSUER_ID, "issuingDistributionPoint=critical,@user_certificates")
CONSTRAINED = "nameConstraints={}permitted;DNS:example.org"
EXTENDED_USAGE, STAMPING = "extendedKeyUsage=critical,serverAuth", "extendedKeyUsage=critical,timeStamping"
POLICY, POLICIES = "policyConstraints=requireExplicitPolicy:0", "certificatePolicies=critical,1.3.6.1.4.1.32473.1"


def limited(count):
    """The extensions of an authority with a path length."""
    return (f"{AUTHORITY},pathlen:{count}", *OF_AUTHORITY[1:])


def path_length(made):
    first = made.authority(limited(0))
    second = made.authority(subject="/CN=Second", key="rsa", issuer=first)
    return made.case(made.leaf(second), second, first)


def path_length_above(made):
    first = made.authority(limited(1))
    second = made.authority(subject="/CN=Second", key="rsa", issuer=first)
    third = made.authority(subject="/CN=Third", issuer=second)
    return made.case(made.leaf(third), third, second, first)


def revoked_below_a_path_length(made):
    issuer = made.authority(limited(0))
    return made.case(made.leaf(issuer), issuer, made.chain.list(issuer, [2]))


def revoked_issuer(made):
    issuer = made.authority()
    return made.case(made.leaf(issuer), issuer, made.chain.list(made.root, [1]))


def wrong_root(made, subject):
    case = made.of_leaf()
    return case._replace(anchors=[made.chain.certificate(subject, "rsa", extensions=OF_ROOT)])


def named(made, names, words=HOST):
    """A chain whose leaf has these names."""
    return made.of_leaf(extensions=(*OF_LEAF, NAMES.format(names)))._replace(words=words)


def demanded(made, names, of_issuer, words=(*HOST, *SERVER)):
    """A chain whose leaf has these names, and whose certificate between has further extensions."""
    issuer = made.authority(extensions=(*OF_AUTHORITY, *of_issuer))
    return made.case(made.leaf(issuer, extensions=(*OF_LEAF, NAMES.format(names))), issuer, words=words)


def control_characters(made):
    issuer = made.authority(subject="/CN=\x1b]0;Intermediate\x07\\\\")
    leaf = made.leaf(issuer, subject="/CN=\x1b[2Jleaf\nat 0 to 1 linked\x7f\x9b2J")
    return made.case(leaf, issuer, made.chain.list(issuer, [2]))


CASES = {
    "nothing": lambda made: made.of_leaf(),
    "expired": lambda made: made.of_leaf(end=PAST),
    "expired issuer": lambda made: made.of_authority(end=PAST),
    "not yet valid": lambda made: made.of_leaf(begin=TO_COME),
    "critical extended key usage": lambda made: made.of_leaf(extensions=(*OF_LEAF, EXTENDED_USAGE)),
    "time stamping": lambda made: made.of_leaf(extensions=(NO_AUTHORITY, NO_SIGNER, STAMPING, OWN_ID, ISSUER_ID)),
    "name constraints": lambda made: made.of_authority(extensions=(*OF_AUTHORITY, CONSTRAINED.format(""))),
    "critical name constraints": lambda made: made.of_authority(extensions=(*OF_AUTHORITY, CONSTRAINED.format("critical,"))),
    "policies": lambda made: made.of_leaf(extensions=(*OF_LEAF, POLICIES)),
    "policy constraints": lambda made: made.of_authority(extensions=(POLICY, *OF_AUTHORITY)),
    "path length": path_length,
    "path length of an issuer above": path_length_above,
    "no CA": lambda made: made.of_authority(extensions=(NO_AUTHORITY, SIGNER, OWN_ID, ISSUER_ID)),
    "no basic constraints": lambda made: made.of_authority(extensions=OF_AUTHORITY[1:]),
    "no keyCertSign": lambda made: made.of_authority(extensions=(AUTHORITY, f"{NO_SIGNER},cRLSign", OWN_ID, ISSUER_ID)),
    "revoked": lambda made: made.of_list(),
    "revoked issuer": revoked_issuer,
    "revoked below a path length": revoked_below_a_path_length,
    "list demanded": lambda made: made.of_leaf()._replace(words=DEMANDED),
    "self-signed": lambda made: made.case(made.chain.certificate("/CN=leaf", "p521", extensions=OF_LEAF[:-1])),
    "missing issuer": lambda made: made.case(made.leaf(made.authority())),
    "wrong root": lambda made: wrong_root(made, "/CN=Other root"),
    "wrong root of the name": lambda made: wrong_root(made, "/CN=Root"),
    "weak signature": lambda made: made.of_leaf(digest="sha1"),
    "name in another string type": lambda made: made.of_twins(mask="pkix"),
    "key identifiers": lambda made: made.of_twins(extensions=(AUTHORITY, SIGNER, OTHER_ID, ISSUER_ID)),
    "list past its next update": lambda made: made.of_list(next_update=PAST_UPDATE),
    "list past its next update, demanded": lambda made: made.of_list(DEMANDED, next_update=PAST_UPDATE),
    "list with a critical extension": lambda made: made.of_list(extensions=ONLY_USERS),
    "list with a critical extension, demanded": lambda made: made.of_list(DEMANDED, extensions=ONLY_USERS),
    "list that no key vouches for": lambda made: made.of_list(signer={"key": "rsa"}),
    "list that no key vouches for, demanded": lambda made: made.of_list(DEMANDED, signer={"key": "rsa"}),
    "names with control characters": control_characters,
    "host and purpose": lambda made: demanded(made, "DNS:example.test,DNS:*.api.example.test", [USED_BY_OTHERS]),
    "host and purpose that are met": lambda made: demanded(made, "DNS:*.example.test", ["extendedKeyUsage=anyExtendedKeyUsage"]),
    "purpose of the leaf alone": lambda made: made.of_leaf(extensions=(*OF_LEAF, EXTENDED_USAGE))._replace(words=CLIENT),
    "critical extended key usage, asked for": lambda made: made.of_leaf(extensions=(*OF_LEAF, EXTENDED_USAGE))._replace(words=SERVER),
    "critical extended key usage, a host asked for": lambda made: demanded(made, "DNS:www.example.test", [EXTENDED_USAGE], HOST),
    "purposes without a name": lambda made: made.of_leaf(extensions=(*OF_LEAF, "extendedKeyUsage=OCSPSigning,1.2.840.113556"))._replace(words=SERVER),
    "revoked, and for another purpose": lambda made: made.of_list(SERVER, leaf={"extensions": (*OF_LEAF, USED_BY_OTHERS)}),
    "not vouched for, and for another purpose": lambda made: made.of_leaf(digest="sha1", extensions=(*OF_LEAF, USED_BY_OTHERS))._replace(words=SERVER),
    "critical names, asked for": lambda made: named(made, "critical,DNS:www.example.test"),
    "critical names of an issuer": lambda made: demanded(made, "DNS:www.example.test", [NAMES.format("critical,DNS:ca.example.test")], HOST),
    "common name alone": lambda made: made.of_leaf()._replace(words=("--host", "leaf")),
    "names of no host": lambda made: named(made, "email:a@www.example.test,URI:https://www.example.test,RID:1.2.3"),
    "addresses": lambda made: named(made, "IP:192.0.2.1,IP:2001:db8::1,DNS:192.0.2.2", ("--host", "192.0.2.2")),
    "many names": lambda made: named(made, ",".join(f"DNS:h{k}.example.test" for k in range(22))),
    "a long name": lambda made: named(made, f"DNS:{'a' * 300}.example.test,DNS:b.test"),
    "names with a comma, a line and a backslash": lambda made: named(made, "@odd_names"),
}


def head(why):
    """How many lines `why` has up to the check: those of what is demanded, the answer, and the check."""
    return why.index("check yes") + 1


def path_report(case, why):
    """The report of `certpath path`, with what is demanded, the answer and the check that `why` begins with."""
    kinds = ["list" if it.subject is None else "cert" for it in case.bundle]
    count = len(case.anchors)
    return [*(f"{k} {kind}" for k, kind in enumerate(kinds)), "end clean", f"anchors {count} of {count}, clean", *why[:head(why)]]


def tried(t, title, root, want):
    """Makes a case and asks the programs; gives what each said beside what is wanted of it."""
    case = CASES[title](Maker(t.shop, title, root))
    files = {part: f"{title}.{part}" for part in ("bundle", "anchors", "vouchers")}
    _, octets, _ = t.run("bundle", [it.file for it in case.bundle])
    t.shop.keep(files["bundle"], octets)
    t.shop.keep(files["anchors"], b"".join(it.octets for it in case.anchors))
    yield "./bundle", octets, b"".join(it.octets for it in case.bundle)
    status, vouchers, told = t.run("vouch", [files["bundle"], files["anchors"], "--verbose"])
    t.shop.keep(files["vouchers"], vouchers)
    lines = vouchers.count(b"\n")
    vouched = len(case.bundle) - len(want.vouch)
    summary = f"vouch: {counted(len(case.bundle), 'item')}, {vouched} vouched for, {counted(lines, 'line')}, {len(want.vouch)} unverified"
    yield "./vouch", (status, told), (0, [*want.vouch, summary])
    words = [*files.values(), "--target", "0", "--at", AT, *case.words]
    ends = 0 if want.why[head(want.why) - 2].startswith("path ") else 1
    for command, report in (("path", path_report(case, want.why)), ("why", want.why)):
        status, found, told = t.run("certpath", [command, *words])
        yield command, (status, found.decode(errors="backslashreplace").split("\n"), told), (ends, [*report, ""], [])
        yield f"control characters of {command}", CONTROL.findall(found), []


class Refusals(Trial):
    def test_refusals(self):
        self.need("openssl")
        self.program()
        with tempfile.TemporaryDirectory(prefix="refusals-") as room, ThreadPoolExecutor(RUNS) as runs:
            t, rows = Trials(Workshop(room), self), wanted()
            t.same("the cases", sorted(CASES), sorted(rows))
            root = Chain(t.shop, "root").certificate("/CN=Root", "p384", extensions=OF_ROOT)
            for title, found in zip(CASES, runs.map(lambda it: [*tried(t, it, root, rows[it])], CASES)):
                for what, is_so, should_be in found:
                    t.same(f"{title}: {what}", is_so, should_be)
