"""Which key vouches for which item of a bundle, and why none does: what ./vouch writes and says."""
from typing import NamedTuple

from pki import package
from pki.reporting import counted
from certpath import Kind, Vouchers, holders_by_issuer


class Verdict(NamedTuple):
    """The keys that vouch for an item, and what is to be reported of it, none if there is nothing."""
    keys: tuple = ()
    why: "str | None" = None


UNREAD = "neither certificate nor list"


class Vouching:
    """The vouchers for a bundle's items, by the keys of its certificates and of the anchors. `report` takes what there is to report.

    Equal items are judged once.
    """

    def __init__(self, bundle, anchors, judge, takes_weak, report):
        self.bundle, self.anchors, self.judge, self.takes_weak, self.report = bundle, anchors, judge, takes_weak, report
        self.vouchers, self.verdicts, self.vouched = Vouchers(), {}, 0
        self.holders = {name: judge.holders([holder.certificate(bundle, anchors) for holder in holders])
                        for name, holders in holders_by_issuer(bundle, anchors).items()}
        for number, kind in enumerate(bundle.kinds()):
            if kind is Kind.OTHER:
                # (a file may have millions of them)
                report.add("bundle", number, UNREAD)
                continue
            self.vouch(number)
            if kind is Kind.CERTIFICATE:
                self.read("bundle", number, bundle[number])
        for number, kind in enumerate(anchors.kinds()):
            if kind is Kind.CERTIFICATE:
                self.read("anchors", number, anchors[number])
            else:
                report.add("anchors", number, "no certificate")

    def vouch(self, number):
        """Adds an item's vouchers, or reports why there is none."""
        verdict = self.verdict(number)
        for key in verdict.keys:
            self.vouchers.add(key, self.bundle.octets(number))
        self.vouched += bool(verdict.keys)
        if verdict.why:
            self.report.add("bundle", number, verdict.why)

    def verdict(self, number):
        """What is found of a certificate or a list, once of equal ones."""
        item = self.bundle[number]
        if item not in self.verdicts:
            holders = self.holders[item.issuer]
            self.verdicts[item] = self.verdict_on(self.judge.judged(item, holders), len(holders.certificates))
        return self.verdicts[item]

    def verdict_on(self, judged, holders):
        """What follows from what OpenSSL says."""
        if judged.why:
            return Verdict(why=judged.why)
        if not holders:
            return Verdict(why="no key under its issuer's name")
        left = holders - len(judged.tried)
        untried = f"; {counted(left, 'further key')} not tried (--tries)" if left else ""
        verified = [entry for entry in judged.tried if entry.why is None]
        if not verified:
            return Verdict(why=f"not verified by {counted(len(judged.tried), 'key')} ({judged.tried[0].why}){untried}")
        taken = tuple(entry.key for entry in verified if self.takes_weak or not entry.weaknesses)
        if not taken:
            return Verdict(why=f"weak: {', '.join(verified[0].weaknesses)} (--weak takes it){untried}")
        return Verdict(taken, f"vouched for{untried}" if untried else None)

    def read(self, file, number, certificate):
        """Reports a key that isn't used, if an item of the bundle asks for one under its name."""
        if certificate.subject in self.holders:
            why = self.judge.openssl.key(certificate.public_key_bytes).why
            if why:
                self.report.add(file, number, why)

    def text(self):
        """The file: each line once, in ascending order."""
        return self.vouchers.text().encode()

    def summary(self):
        return (f"vouch: {counted(len(self.bundle), 'item')}, {self.vouched} vouched for, {counted(len(self.vouchers), 'line')}, "
                f"{len(self.bundle) - self.vouched} unverified")
