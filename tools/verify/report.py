"""The report of `certpath why`, line by line, as facts."""
import re
from typing import NamedTuple

ANSWER = re.compile(r"path ((?:\d+ )+)anchor (\d+)")
AT, LIST = re.compile(r"at (\d+) (.*)"), re.compile(r"list (\d+) (.*)")
# Positions and ranges of them, and how many of these are left out.
LINK = re.compile(r"to (anchor )?(\d[-\d]*(?:, \d[-\d]*)*)(?: and \d+ more)? (?:(linked)|not linked: (.*))")
BOUND = re.compile(r"leads to an anchor with at most (\d+) below")
REVOKED = re.compile(r"revoked by list (\d+)")
NOT_USABLE, NO_ISSUER, MISSING, NOT_USED = "not usable: ", "no issuer: ", "no issuer here: ", "not used: "
# So many links of a report are held; beyond them the first of each line.
MOST_LINKS = 100_000
# What is said of a certificate that isn't for the purpose, and of a target that doesn't serve the host.
UNMET = ("isn't for ", "doesn't serve ")


class Link(NamedTuple):
    """From a certificate to one of its issuer's name: a position of the bundle or of the anchors."""
    to: int
    is_anchor: bool


def positions(words):
    """The positions of a list of them and of ranges."""
    for one in words.split(", "):
        first, _, last = one.partition("-")
        yield from range(int(first), int(last or first) + 1)


class LinkAllowance:
    """How many links may still be held."""

    def __init__(self, left):
        self.left = left

    def first(self, many):
        """As many as may still be held, at least one."""
        for count, entry in enumerate(many):
            if count and self.left <= 0:
                return
            self.left -= 1
            yield entry


class Node:
    """A certificate that the target leads to by names, and what is in its way."""

    def __init__(self, position):
        self.position, self.not_usable, self.unmet, self.no_issuer = position, [], [], []
        self.links, self.most, self.is_missing = {}, None, False

    def take(self, fact, allowance):
        """Takes what a line says of it."""
        link, bound = LINK.fullmatch(fact), BOUND.fullmatch(fact)
        if link:
            for to in allowance.first(positions(link[2])):
                self.links.setdefault(Link(to, bool(link[1])), []).extend([] if link[3] else [link[4]])
        elif bound:
            self.most = int(bound[1])
        elif fact.startswith(NOT_USABLE):
            self.not_usable.append(fact[len(NOT_USABLE):])
        elif fact.startswith(UNMET):
            self.unmet.append(fact)
        elif fact.startswith(MISSING):
            self.is_missing = True
        elif fact.startswith(NO_ISSUER):
            self.no_issuer.append(fact[len(NO_ISSUER):])

    def against(self):
        """What is against the certificate itself."""
        return [*self.not_usable, *self.unmet, *self.no_issuer]


def answers_of(lines):
    """The reports of `certpath paths`: for each certificate the answer alone, by position."""
    rows = [line.partition(" ") for line in lines]
    ends = [line for line in lines if line.startswith("check ")]
    return {int(position): Report([rest, *ends]) for position, _, rest in rows if position.isdigit() and (rest == "none" or ANSWER.fullmatch(rest))}


class Report:
    """The answer, the certificates by position, and the lists that aren't used, each with the reasons."""

    def __init__(self, lines):
        self.outcome, self.path, self.anchor, self.nodes, self.unused = "no target", None, None, {}, {}
        self.is_checked, self.allowance = "check yes" in lines, LinkAllowance(MOST_LINKS)
        for line in lines:
            self.take(line)

    def take(self, line):
        answer, node, unused = ANSWER.fullmatch(line), AT.fullmatch(line), LIST.fullmatch(line)
        if answer:
            self.outcome, self.path, self.anchor = "path", [*map(int, answer[1].split())], int(answer[2])
        elif line == "none":
            self.outcome = line
        elif node:
            self.take_node(int(node[1]), node[2])
        elif unused:
            whys = self.unused.setdefault(int(unused[1]), [])
            whys += [unused[2][len(NOT_USED):]] if unused[2].startswith(NOT_USED) else []

    def take_node(self, position, fact):
        """Takes what a line says of a certificate; the first line of each has its name."""
        if position in self.nodes:
            self.nodes[position].take(fact, self.allowance)
        else:
            self.nodes[position] = Node(position)

    def without_path(self):
        """The answer that there is no path, checked as this one is."""
        found = Report(["none"])
        found.is_checked = self.is_checked
        return found

    def is_too_long(self):
        """Whether a way of good links and certificates leads to an anchor although there is no path: then a path length is in its
        way."""
        if self.outcome != "none":
            return False
        waiting = [node for node in [*self.nodes.values()][:1] if not node.not_usable and not node.unmet]
        seen = {entry.position for entry in waiting}
        while waiting:
            for link in (link for link, whys in waiting.pop().links.items() if not whys):
                node = None if link.is_anchor else self.nodes.get(link.to)
                if link.is_anchor:
                    return True
                if node and node.position not in seen and not node.against():
                    seen.add(node.position)
                    waiting.append(node)
        return False
