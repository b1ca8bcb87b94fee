"""The answer as text for people."""
import os
import sys
import textwrap
from typing import NamedTuple

from program import streams
from verify import times
from verify.answers import NO, YES
from verify.roles import Roles

COLUMNS = 96
NOT_ASKED = "not asked, since many other targets were: ask about it alone, with --target"
# What one can do if a list that isn't used prevents a path.
REMEDY = "give a list that can be used with --lists and leave this one out, or accept the path with --ignore-unused-lists"
# What counts of an anchor.
OF_ANCHOR = "its name and key alone (RFC 5280, 6.1.1, d)"
ANCHOR_ITSELF = ("an anchor is trusted as it is, and needs no path; as a target it is judged like any certificate, "
                 "its own signature and validity too")
# So many reasons are printed for a target.
MOST_OBSTACLES = 100
GREEN, RED, YELLOW, BOLD, PLAIN = "\x1b[32m", "\x1b[31m", "\x1b[33m", "\x1b[1m", "\x1b[0m"


class Beside(NamedTuple):
    """What all answers share: notes of the files, the line on anchors, and what was taken as what."""
    notes: list
    anchors: str
    roles: Roles


def with_colour():
    """Whether colours are wanted: on a terminal, unless NO_COLOR is set."""
    return sys.stdout is not None and sys.stdout.isatty() and not os.environ.get("NO_COLOR") and os.environ.get("TERM") != "dumb"


def fingerprint(digits):
    return ":".join(digits[at:at + 2] for at in range(0, len(digits), 2))


def causes(unused):
    """Why a list isn't used, each with its rule."""
    return "; ".join(f"{sentence.text} ({sentence.rule})" if sentence.rule else sentence.text for sentence in unused.sentences)


def doubt(unused):
    """What is said of a list that isn't used, and would or may revoke a certificate."""
    what = f"{unused.of.place} {unused.of.name}"
    list_named = f"list {unused.position} ({unused.file}), which isn't used: {causes(unused)}"
    return f"{what} is revoked by {list_named}" if unused.revokes == YES else f"whether {what} is revoked isn't known from {list_named}"


def doubts(answer):
    """What lists that aren't used say against a path, or may, what is certain first."""
    if not answer.path:
        return []
    found = answer.false_comfort()
    said = [doubt(entry) for entry in sorted(found, key=lambda one: one.revokes != YES)]
    return said + [f"whether a certificate of the path is revoked isn't known, as a list can't be read: {value}" for value in map(streams.shown, answer.unread)]


def headline(answer, moment):
    """The first line: the answer, before any text of a certificate, and the subject."""
    at = times.as_shown(moment) + (f" by {answer.store}" if answer.store else "") + (f" for {streams.shown(answer.asked)}" if answer.asked else "")
    if answer.target is None:
        return f"no target: {streams.shown(answer.instead)}"
    if not answer.path:
        itself = f"{answer.as_anchor.place} itself: " if answer.as_anchor else ""
        return f"no valid path at {at}: {itself}{answer.target.subject}"
    ends = f"{answer.target.subject} to {answer.anchor.subject}"
    return f"path refused at {at}, since {doubts(answer)[0]}: {ends}" if answer.is_refused else f"valid path at {at}: {ends}"


def check_fault(answer):
    """A warning if the check refuses the answer, which is never seen."""
    return [] if answer.is_checked else ["the check says no: a fault of this program; please report it"]


class Text:
    """Lines, with colours if they are wanted."""

    def __init__(self, coloured):
        self.coloured, self.lines = coloured, []

    def add(self, line, colour=None):
        self.lines.append(f"{colour}{line}{PLAIN}" if colour and self.coloured else line)

    def taken(self):
        """The lines so far, which are given up."""
        held, self.lines = self.lines, []
        return [f"{line}\n" for line in held]

    def section(self, title, lines):
        """A title and its lines; nothing if there are none."""
        lines = [*lines]
        if lines:
            self.add(title, BOLD)
            for line in lines:
                self.add(f"  {line}")


def of_certificate(certificate):
    """The lines of a certificate of the path."""
    dates = f"{times.as_shown(certificate.begin)} to {times.as_shown(certificate.end)}"
    yield f"{certificate.place}  {certificate.subject}"
    yield f"    issuer  {certificate.issuer}"
    yield f"    valid   {dates}"
    yield f"    serial  {certificate.serial}"
    yield f"    sha256  {fingerprint(certificate.sha256)}"
    yield f"    file    {certificate.file}"
    if certificate.is_anchor:
        yield f"    judged  {OF_ANCHOR}"


def of_obstacle(obstacle):
    """The lines of what prevents a path."""
    if obstacle.to:
        yield f"{obstacle.of.place} {obstacle.of.name}"
        yield f"    to {obstacle.to.place} {obstacle.to.name}: {obstacle.sentence.text}"
    else:
        yield f"{obstacle.of.place} {obstacle.of.name}: {obstacle.sentence.text}"
    tail = "; ".join(part for part in (obstacle.sentence.rule, obstacle.sentence.advice) if part)
    if tail:
        yield f"    {tail}"


def of_list(unused):
    """The line of a list that isn't used."""
    if unused.revokes != NO:
        return doubt(unused)
    return f"list {unused.position} ({unused.file}) of {unused.issuer} isn't used: {causes(unused)}"


def of_anchor(answer, moment):
    """A warning if the moment is outside the validity of the path's anchor."""
    entry = answer.anchor
    if entry and not entry.begin <= moment <= entry.end:
        when = f"expired at {times.as_shown(entry.end)}" if entry.end < moment else f"isn't valid before {times.as_shown(entry.begin)}"
        yield f"{entry.place} {entry.subject} {when}; of an anchor, dates aren't judged (RFC 5280, 6.1.1, d)"


def of_answer(answer, moment):
    """Warnings of one answer alone."""
    return [*check_fault(answer), *of_anchor(answer, moment), *answer.warnings, *([ANCHOR_ITSELF] if answer.as_anchor else [])]


def lists_beside(answer):
    """The lists that aren't used and concern the target, but for those for which the path is refused."""
    return [crl for crl in answer.unused if not (answer.is_refused and crl.revokes != NO)]


def lists_of_none(answer):
    """The lists that aren't used and don't concern the target."""
    concerned = {crl.position for crl in answer.unused}
    return [item for position, item in answer.idle.items() if position not in concerned]


def warnings(answer, moment):
    """What one should know of the target beside the answer."""
    yield from of_answer(answer, moment)
    yield from map(of_list, lists_beside(answer))


def why_refused(answer):
    """The lines of what a path is refused for."""
    for entry in doubts(answer):
        yield entry
    yield f"    {REMEDY}"


def why_not(answer):
    """The lines of all that prevents a path."""
    if answer.is_refused:
        yield from why_refused(answer)
        return
    if not answer.is_asked_why:
        yield NOT_ASKED
    for obstacle in answer.obstacles[:MOST_OBSTACLES]:
        yield from of_obstacle(obstacle)
    if len(answer.obstacles) > MOST_OBSTACLES:
        yield f"and {len(answer.obstacles) - MOST_OBSTACLES} further reasons; --json has them all"


def add_roles(made, roles):
    """What was taken as a target, and what as a helper."""
    made.section("targets", roles.targets)
    made.section("helpers", roles.helpers)


def add_answer(made, answer, moment, roles):
    """The first line of a target, and the reasons if it has no path; of a single target, which has roles, the path's certificates
    too."""
    made.add(headline(answer, moment), RED if not answer.is_accepted() else YELLOW if doubts(answer) else GREEN)
    if answer.target is not None and not answer.is_accepted():
        made.section("why not", why_not(answer))
    if roles:
        add_roles(made, roles)
        made.section("path", (line for value in [*answer.path, answer.anchor] if value for line in of_certificate(value)))


def text(answers, moment, beside, coloured, is_single):
    """The whole text, line by line. Warnings that several targets share are in it once, after all targets."""
    made, shared, of_lists, concerned, idle, not_judged = Text(coloured), {}, {}, set(), {}, ()
    for answer in answers:
        not_judged = answer.not_judged
        add_answer(made, answer, moment, beside.roles if is_single else None)
        shared.update(dict.fromkeys(of_answer(answer, moment)))
        of_lists.update(dict.fromkeys(map(of_list, lists_beside(answer))))
        concerned.update(one.position for one in answer.unused)
        idle = answer.idle or idle
        yield from made.taken()
    if not is_single:
        add_roles(made, beside.roles)
    of_none = (of_list(item) for position, item in idle.items() if position not in concerned)
    made.section("warnings", dict.fromkeys([*shared, *of_lists, *of_none, *beside.notes]))
    made.section("anchors", [beside.anchors])
    made.section("not judged", textwrap.wrap(", ".join(not_judged), COLUMNS))
    yield from made.taken()
