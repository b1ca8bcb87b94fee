"""What prevents paths: reports of the library's `why`, by digests."""
import enum
import re
from itertools import chain, islice
from typing import Callable, Dict, Iterable, Iterator, List, NamedTuple, Optional, Tuple

from .. import reports
from ..items import Kind, frame
from .index import Index, Issuer
from .program import YES, Failed
from .shards import Asked, Shard, Target, shard_of
from .signatures import text

WHY = "certpath_why"
# A line of a report on what prevents a path. Lines that say `linked` or only a name are none.
OBSTACLE = re.compile(r"(at|list) (\d+)(?: to (anchor )?(\d+))? (.*)")
# To how many others: positions, ranges of them, and how many of these are left out.
MANY_TO = r"\d[-\d]*(?:, \d[-\d]*)*(?: and \d+ more)?"
TO_MANY = re.compile(rf"(at \d+ to (?:anchor )?)({MANY_TO}) (.*)")
FRONT_OF_LINE = re.compile(r"^at \d+ ")
# All such lines of one item and one kind that follow each other.
RUN = re.compile(rf"\n(at|list) (\d+)(?:(?: to (?:anchor )?{MANY_TO})? "
                 r"(not usable|no issuer|not linked|no issuer here|not used): .*"
                 rf"(?:\n\1 \2(?: to (?:anchor )?{MANY_TO})? \3: .*)*"
                 r"| leads to an anchor with at most \d+ below(?=\n))")
REVOKED = re.compile(r"not linked: revoked by list (\d+)")
LIST, NO_ISSUER, BOUND = "list", "no issuer", "leads to an anchor"
# The kinds of obstacles that a certificate has by itself, in the order of a report.
OWN = "not usable", NO_ISSUER, "not linked", "no issuer here"
# How many obstacles of an item are in the table, at most.
MOST_REASONS = 20
# A report looks at each pair of a certificate and one of its issuer's name, and one of more pairs
# isn't asked for. Reading so many octets of a bundle takes as long as a pair.
MOST_PAIRS, OCTETS_OF_PAIR = 1_200_000, 5
# Where the reports on all targets of a name take more steps, each a pair or such octets, so many
# certificates of the name are tried first: they may give all reasons that are in the table. Once the
# reports of a block have taken so many steps, none is asked for any more.
MANY, FRONT, MOST_OF_BLOCK = 10_000_000, 24, 100_000_000
# So many octets the lines of a pair take at most: a report is made twice where its room is too small.
ROOM_OF_PAIR = 50


class Obstacle(NamedTuple):
    """A line of a report."""
    what: str
    """"at" of a certificate, "list" of a list."""
    at: int
    """Its position in the bundle."""
    is_anchor: bool
    to: Optional[int]
    """The position of another item, or of an anchor, that the line names; None of neither."""
    said: str


class Few(NamedTuple):
    """The obstacles of one kind that an item has."""
    first: List[str]
    """Lines of so many as may be in the table."""
    total: int
    """How many there are."""


class Part(enum.IntEnum):
    """The parts of a report, in their order."""
    CERTIFICATES = 0
    BOUNDS = 1
    """Where path lengths prevent a path."""
    LISTS = 2


class Place(NamedTuple):
    """Where the obstacles of an item are in a report."""
    part: Part
    position: int


# The obstacles of an item, by their kinds.
Kinds = Dict[str, Few]


def obstacle_of(line: str) -> Obstacle:
    found = OBSTACLE.fullmatch(line)
    assert found is not None
    what, at, anchor, to, said = found.groups()
    return Obstacle(what, int(at), bool(anchor), None if to is None else int(to), said)


def place_of(run: re.Match) -> Place:
    part = Part.LISTS if run[1] == LIST else Part.CERTIFICATES if run[3] else Part.BOUNDS
    return Place(part, int(run[2]))


def spread(line: str) -> Few:
    """A line with several positions as one for each of them: the first, and how many there are."""
    found = TO_MANY.fullmatch(line)
    if not found:
        return Few([line], 1)
    front, many, said = found.groups()
    listed, _, left = many.partition(" and ")
    ends = [it.partition("-") for it in listed.split(", ")]
    ranges = [range(int(first), int(last or first) + 1) for first, _, last in ends]
    lines = [f"{front}{it} {said}" for it in islice(chain(*ranges), MOST_REASONS)]
    return Few(lines, sum(map(len, ranges)) + int(left.partition(" ")[0] or 0))


def places_of(report: str) -> Dict[Place, Kinds]:
    """The obstacles of a report, by place. Most of many are only counted."""
    places: Dict[Place, Kinds] = {}
    for run in RUN.finditer(report):
        kinds, kind = places.setdefault(place_of(run), {}), run[3] or BOUND
        held = kinds.get(kind, Few([], 0))
        for line in run[0].split("\n")[1:]:
            few = spread(line)
            held = Few((held.first + few.first)[:MOST_REASONS], held.total + few.total)
        kinds[kind] = held
    return places


class Size(NamedTuple):
    """How large a report is."""
    pairs: int
    """Of a certificate and one of its issuer's name, about."""
    steps: int
    """What it takes, in pairs: these, and the octets that are read."""


def size_of(pairs: int, octets: Iterable[bytes]) -> Size:
    return Size(pairs, pairs + sum(map(len, octets)) // OCTETS_OF_PAIR)


class Reported:
    """The obstacles that a report has."""

    def __init__(self, places: Dict[Place, Kinds]):
        self.places = dict(sorted(places.items()))
        self.count = sum(it.total for held in places.values() for it in held.values())

    def own(self, position: int) -> Kinds:
        """Those of the certificate at a position, but for bounds of path lengths."""
        return self.places.get(Place(Part.CERTIFICATES, position), {})

    def others(self, position: int) -> Iterator[Few]:
        """All but those."""
        own = Place(Part.CERTIFICATES, position)
        return (it for place, held in self.places.items() if place != own for it in held.values())

    @property
    def has_bound(self) -> bool:
        """Whether a path length prevents something."""
        return any(it.part is Part.BOUNDS for it in self.places)

    def with_no_issuer(self, position: int, few: Optional[Few]) -> 'Reported':
        """With what is known of the certificate at a position as an issuer: a report leaves that
        out of its target."""
        if few is None:
            return self
        first = [FRONT_OF_LINE.sub(f"at {position} ", it) for it in few.first]
        held = {**self.own(position), NO_ISSUER: Few(first, few.total)}
        ordered = {it: held[it] for it in OWN if it in held}
        return Reported({**self.places, Place(Part.CERTIFICATES, position): ordered})

    def column(self, position: int, name: Callable[[Obstacle], str]) -> str:
        """The column of the certificate at a position: first what is against itself. That it is
        no issuer is not said of a target."""
        own = {**self.own(position)}
        left_out = own.pop(NO_ISSUER, Few([], 0))
        reported = (it for few in chain(own.values(), self.others(position)) for it in few.first)
        lines = [name(obstacle_of(it)) for it in islice(reported, MOST_REASONS)]
        further = self.count - left_out.total - MOST_REASONS
        return "; ".join(lines + [f".. {further} further"] * (further > 0))


class Reasons:
    """Reasons of the targets of a block. A certificate's are those of a shard of it alone."""

    def __init__(self, index: Index, asked: Asked, settings):
        self.index, self.asked, self.settings = index, asked, settings
        with open(asked.anchors, "rb") as file:
            self.anchors = frame(file.read(), settings.limit)
        self.left = MOST_OF_BLOCK

    def of(self, targets: Iterable[Target]) -> Dict[str, str]:
        """By their digests the columns of targets that have no path."""
        groups: Dict[str, List[Target]] = {}
        for it in targets:
            groups.setdefault(it.issuer, []).append(it)
        return dict(found for name, group in groups.items() for found in self.under(name, group))

    def under(self, name: str, targets: List[Target]) -> Iterator[Tuple[str, str]]:
        """The columns of targets that were issued under one name. Those that may be in each
        other's paths share a bundle, and all of them reach all of it."""
        above, size = {it.item for it in self.index.closure([name])}, self.size(name)
        within, found = [it for it in targets if it.item in above], {}
        if len(within) > 2:
            found = self.together(name, within, size)
        rest = [it for it in targets if it.item not in found]
        if size.pairs > MOST_PAIRS or size.steps * len(rest) > MANY:
            found.update(self.by_front(name, rest, size))
        yield from found.items()
        for it in rest:
            if it.item not in found:
                yield it.item, self.alone(it, size)

    def size(self, name: str) -> Size:
        """The size of a report on a target that was issued under a name."""
        above = self.index.closure([name])
        names = [name, *(it.issuer for it in above)]
        return size_of(sum(len(self.index.under(it)) for it in names), (it.octets for it in above))

    def by_front(self, name: str, targets: List[Target], whole: Size) -> Iterator[Tuple[str, str]]:
        """The columns of targets that were issued under a name, each by a shard that has all lists
        of the name and the first of its certificates, where there are more of these and they give
        as many reasons as are in the table."""
        under = sorted(self.index.under(name))
        kinds = [*frame(b"".join(it.octets for it in under), self.settings.limit).kinds()]
        certificates = [it for it, kind in zip(under, kinds) if kind is Kind.CERTIFICATE]
        lists = [it for it, kind in zip(under, kinds) if kind is Kind.LIST]
        tried = {it.item for it in certificates[:FRONT]}
        held = {it.item: it.octets for it in sorted(certificates[:FRONT] + lists)}
        size = size_of((FRONT + 1) ** 2 + len(lists), held.values())
        for target in targets if len(certificates) > FRONT else ():
            if not self.may_ask(size):
                return
            items = {**held, target.item: target.octets}
            shard = Shard([*items], [*items.values()])
            own = self.reported(shard, target, size).own(shard.items.index(target.item))
            obstacles = (obstacle_of(it) for few in own.values() for it in few.first)
            found = [it for it in obstacles if it.to is None
                     or not it.is_anchor and shard.items[it.to] in tried][:MOST_REASONS]
            if len(found) == MOST_REASONS:
                lines = map(self.naming(shard, target.item), found)
                yield target.item, "; ".join([*lines, f".. further {not_asked(whole)}"])

    def alone(self, target: Target, size: Size) -> str:
        if not self.may_ask(size):
            return not_asked(size)
        shard = shard_of(self.index, [target])
        return self.reported(shard, target, size).column(
            shard.items.index(target.item), self.naming(shard, target.item))

    def together(self, name: str, targets: List[Target], size: Size) -> Dict[str, str]:
        """The columns of targets that were issued under a name and share a bundle, by the report
        for one of them, and another one that says of this one what its own leaves out
        (docs/PROOFS.md has the reason why). None where that is too much, and where path lengths
        matter, which differ by target."""
        if not self.may_ask(size):
            return {}
        shard = shard_of(self.index, targets[:1])
        own = {it.item for it in self.index.under(name)}
        one, other = sorted(targets, key=lambda it: it.item not in own)[:2]
        beside, of_beside = shard, size
        if one.item in own:
            beside = Shard([one.item, other.item], [one.octets, other.octets])
            of_beside = size_of(len(beside.items) ** 2, beside.octets)
        reported = self.reported(shard, one, size)
        if not self.may_ask(of_beside):
            return {}
        of_other = self.reported(beside, other, of_beside)
        if reported.has_bound or of_other.has_bound:
            return {}
        reported = reported.with_no_issuer(
            shard.items.index(one.item), of_other.own(beside.items.index(one.item)).get(NO_ISSUER))
        return {it.item: reported.column(shard.items.index(it.item), self.naming(shard, it.item))
                for it in targets}

    def may_ask(self, size: Size) -> bool:
        """Whether a report of a size may be asked for."""
        return size.pairs <= MOST_PAIRS and size.steps <= self.left

    def reported(self, shard: Shard, target: Target, size: Size) -> Reported:
        """What the library says of a target in a shard."""
        self.left -= size.steps
        bundle = frame(shard.bundle, self.settings.limit)
        report = reports.report(
            WHY, bundle, self.anchors, text(self.asked.keys, shard.items),
            shard.items.index(target.item), self.settings.at, self.settings.demand_lists,
            ROOM_OF_PAIR * size.pairs)
        if f"\n{YES}\n" not in report:
            raise Failed(f"{WHY}: its check doesn't say yes")
        return Reported(places_of(report))

    def naming(self, shard: Shard, target: str) -> Callable[[Obstacle], str]:
        """What makes a line of an obstacle, with digests in the place of positions."""
        def item(position: int) -> str:
            found = shard.items[position]
            return "target" if found == target else found

        def way(it: Obstacle) -> str:
            if it.to is None:
                return ""
            if it.is_anchor:
                return f" to anchor {self.asked.anchor_items[it.to]}"
            return f" to {item(it.to)}"

        def line(it: Obstacle) -> str:
            by = REVOKED.fullmatch(it.said)
            said = f"not linked: revoked by list {item(int(by[1]))}" if by else it.said
            return f"{it.what} {item(it.at)}{way(it)} {said}"

        return line


def not_asked(size: Size) -> str:
    return f"not asked: {size.pairs} pairs of a certificate and one of its issuer's name"
